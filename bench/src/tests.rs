//! The yardstick measures nothing unless it is right: it is held to the reference on drawn surveys.

use crate::{inputs, plain};
use reference::saved::VERSIONS;
use reference::{Answer, Arrival, Ending, Kind, LIMIT, Map, Placed, Point};

/// A number below n.
fn below(state: &mut u64, n: u64) -> u64 {
    *state = state.wrapping_mul(6_364_136_223_846_793_005).wrapping_add(1_442_695_040_888_963_407);
    (*state >> 33) % n
}

fn number<T>(answer: Answer<T>, expected: impl FnOnce(T), got: u32) {
    match answer {
        Ok(value) => {
            assert_eq!(got, 0);
            expected(value);
        }
        Err(refusal) => assert_eq!(got, refusal),
    }
}

fn compare(file: &[u8], p: Point, dart: u64) {
    let map = Map::load(file);
    assert_eq!(plain::check(file), map.as_ref().err().copied().unwrap_or(0), "{file:?}");
    let mut loaded = vec![0; 2 * file.len()];
    let mut length = [0];
    let got = plain::load(file, &mut loaded, &mut length);
    let written = &loaded[..length[0] as usize];
    number(map.as_ref().map(|m| m.save()).map_err(|e| *e), |saved| assert_eq!(saved, written), got);

    let mut counts = [0; 5];
    let got = plain::counts(file, &mut counts);
    let c = map.as_ref().map(|m| m.counts()).map_err(|e| *e);
    let fields = |c: reference::Counts| [c.darts, c.vertices, c.edges, c.faces, c.parts];
    number(c, |c| assert_eq!(counts.map(|z| z as usize), fields(c)), got);

    let mut corners = [0; 512];
    let got = plain::corners(file, &mut corners, &mut length);
    let listed: Vec<usize> = corners[..length[0] as usize].iter().map(|&k| k as usize).collect();
    number(map.as_ref().map(|m| m.corners()).map_err(|e| *e), |c| assert_eq!(c, listed), got);

    let mut text = [0; 12_835];
    let got = plain::write_outline(file, &mut text, &mut length);
    let written = &text[..length[0] as usize];
    let right = |outline: String| assert_eq!(outline.as_bytes(), written);
    number(map.as_ref().map(|m| m.outline_text()).map_err(|e| *e), right, got);

    for place in [0, 1, 2, dart, u64::MAX] {
        let mut area = [-1];
        let got = plain::area(file, place, &mut area);
        let expected = map.as_ref().map_err(|e| *e).and_then(|m| m.doubled_area(place));
        number(expected, |doubled| assert_eq!(area, [doubled], "{place} {file:?}"), got);
    }

    let mut walk = [0; 3];
    let got = plain::walk(file, dart, &mut walk);
    let expected = map.as_ref().map_err(|e| *e).and_then(|m| m.walk(dart));
    let values =
        |w: reference::Walk| [w.last as u64, u64::from(w.ending == Ending::Loose), w.moves as u64];
    number(expected, |w| assert_eq!(walk, values(w)), got);

    let mut part = [0; 17];
    let got = plain::part_orbit(file, dart, &mut part);
    let expected = map.as_ref().map_err(|e| *e).and_then(|m| m.orbit(Kind::Part, dart));
    let right = |o: reference::Orbit| {
        assert_eq!((&part[..16], part[16]), (&o.words[..], o.size as u64));
    };
    number(expected, right, got);

    let mut place = [0; 3];
    let got = plain::place(file, p.x, p.y, &mut place);
    let expected = map.as_ref().map_err(|e| *e).and_then(|m| m.place(p));
    let values = |placed: Placed| match placed {
        Placed::NoOutline => [0; 3],
        Placed::Corner(corner) => [1, corner as u64, 0],
        Placed::Edge(start, end) => [2, start as u64, end as u64],
        Placed::Inside => [3, 0, 0],
        Placed::Outside(visible) => [4, visible as u64, 0],
    };
    number(expected, |placed| assert_eq!(place, values(placed), "{p:?} {file:?}"), got);

    let expected = map.and_then(|mut m| m.offer(p).map(|arrival| (m.save(), arrival)));
    let mut out = vec![0; expected.as_ref().map_or(0, |(saved, _)| saved.len())];
    let mut arrival = [0; 4];
    let got = plain::offer(file, p.x, p.y, &mut out, &mut arrival);
    let values = |arrival: Arrival| match arrival {
        Arrival::First => [0; 4],
        Arrival::Second => [1, 0, 0, 0],
        Arrival::Inside => [2, 0, 0, 0],
        Arrival::Outside { left, right, visible } => [3, left as u64, right as u64, visible as u64],
    };
    number(expected, |(saved, a)| assert_eq!((out, arrival), (saved, values(a))), got);
}

#[test]
fn the_yardstick_is_right_on_maps() {
    let mut state = 5;
    for survey in 0..4000 {
        // the widest goes one beyond the range
        let width = [3, 10, 100, LIMIT as u64 + 1][survey % 4];
        // along a level, an upright and a slanted rail too
        let rail = [None, Some((1, 0)), Some((0, 1)), Some((-1, 1))][survey / 4 % 4];
        let mut map = Map::empty();
        for _ in 0..below(&mut state, 24) {
            let mut coordinate = || {
                let any = below(&mut state, 2 * width + 1) as i64 - width as i64;
                let at_an_end = any.signum() * (width - below(&mut state, 3)) as i64;
                if below(&mut state, 8) == 0 { at_an_end } else { any }
            };
            let p = match (rail, coordinate(), coordinate()) {
                (Some((across, up)), z, other) if other % 8 != 0 => Point::new(z * across, z * up),
                (_, x, y) => Point::new(x, y),
            };
            let dart = below(&mut state, 40);
            for mut file in VERSIONS.map(|version| map.save_in(version)) {
                compare(&file, p, dart);
                let place = below(&mut state, file.len() as u64) as usize;
                file[place] = file[place].wrapping_add(below(&mut state, 4) as u8);
                compare(&file, p, dart);
            }
            let mut file = map.save();
            if !map.points.is_empty() {
                // in a record
                let place =
                    file.len() - 1 - below(&mut state, 5 * map.points.len() as u64) as usize;
                file[place] ^= 1 << below(&mut state, 8);
                compare(&file, p, dart);
            }
            let _ = map.offer(p);
        }
    }
}

#[test]
fn the_yardstick_is_right_on_full_maps() {
    let rail = (0..512).map(|i| (if i % 4 < 2 { i } else { -i }, 0)).collect();
    for points in [inputs::convex(512), inputs::random(512), rail] {
        let mut map = Map::empty();
        for &(x, y) in &points {
            map.offer(Point::new(x, y)).expect("a point that is accepted");
        }
        let (file, former) = (map.save(), map.save_in(1));
        assert_eq!(inputs::in_version_1(&file), former);
        let p = Point::new(points[0].0 / 2, points[0].1 + 1);
        compare(&file, p, 1022);
        compare(&former, p, 1023);
        let mut wrong = inputs::with_wrong_record(&file);
        assert_eq!(plain::check(&wrong), 1);
        compare(&wrong, p, 0);
        wrong[9 + 13 * 512 + 5 * 511] = 4;
        assert_eq!(plain::check(&wrong), 7);
        compare(&wrong, p, 0);
    }
}

fn compare_outline(text: &[u8]) {
    let (mut numbers, mut length) = ([0; 1024], [0]);
    let got = plain::read_outline(text, &mut numbers, &mut length);
    let right = |corners: Vec<Point>| {
        let expected: Vec<i64> = corners.iter().flat_map(|p| [p.x, p.y]).collect();
        assert_eq!(expected, numbers[..length[0] as usize]);
    };
    number(reference::read_outline(text), right, got);
}

/// A ring through these positions in turn, the first again at the end.
fn ring(positions: &[Point]) -> Vec<u8> {
    let closed = positions.iter().chain(positions.first());
    let spelt: Vec<String> = closed.map(|p| format!("{} {}", p.x, p.y)).collect();
    format!("POLYGON (({}))", spelt.join(", ")).into()
}

#[test]
fn the_yardstick_is_right_on_outlines() {
    let mut state = 7;
    for drawn in 0..40_000 {
        // the widest goes one beyond the range
        let width = [1, 3, 100, LIMIT + 1][drawn % 4];
        let ends = [-width, -width + 1, width - 1, width];
        let mut coordinate = || match below(&mut state, 2) {
            0 => ends[below(&mut state, 4) as usize],
            _ => below(&mut state, 2 * width as u64 + 1) as i64 - width,
        };
        let mut points: Vec<Point> =
            (0..drawn / 4 % 8).map(|_| Point::new(coordinate(), coordinate())).collect();
        compare_outline(&ring(&points));
        let mut map = Map::empty();
        points.retain(|&p| map.offer(p).is_ok());
        let mut corners: Vec<Point> = map.corners().iter().map(|&k| points[k]).collect();
        let mut text = map.outline_text().into_bytes();
        compare_outline(&text);
        // begun at another corner, and a byte put in, taken out or changed
        let start = drawn % corners.len().max(1);
        corners.rotate_left(start);
        compare_outline(&ring(&corners));
        let place = below(&mut state, text.len() as u64) as usize;
        let byte = b"019- ,()PE\n"[below(&mut state, 11) as usize];
        match drawn % 3 {
            0 => text.insert(place, byte),
            1 => text[place] = byte,
            _ => drop(text.remove(place)),
        }
        compare_outline(&text);
    }
    for corners in [511, 512, 513, 600] {
        let listed: Vec<Point> = (0..corners).map(|x| Point::new(x, x * x)).collect();
        let text = String::from_utf8(ring(&listed)).expect("a text of ASCII");
        compare_outline(text.as_bytes());
        for (from, to) in [("10 100,", "10 0100,"), ("10 100,", "10 1000000001,"), ("0 0)", "0 1)")]
        {
            compare_outline(text.replace(from, to).as_bytes());
        }
        let last = format!("{} {}", corners - 1, (corners - 1) * (corners - 1));
        for other in ["0 00", "0 1000000001", "-1 -1"] {
            compare_outline(text.replace(&last, other).as_bytes());
        }
    }
    for text in ["POINT (9999999999 -9999999999)", "POINT (10000000000 0)", "LINESTRING (0 0, 0 0)"]
    {
        compare_outline(text.as_bytes());
    }
    // 65,535 bytes, then one and two more
    let zeros = String::from_utf8(ring(&[Point::new(0, 0); 13_104])).expect("a text of ASCII");
    for second in ["0 0", "0 10", "0 100"] {
        compare_outline(zeros.replacen("0 0", second, 2).as_bytes());
        compare_outline(zeros.replacen(", 0 0", &format!(", {second}"), 1).as_bytes());
    }
}

fn compare_mark(points: &[i64], claim: &[u64]) {
    let expected = reference::mark(points, claim);
    assert_eq!(plain::mark(points, claim, &mut []), expected.err().unwrap_or(10));
    let mut out = [7, 7];
    let got = plain::mark(points, claim, &mut out);
    number(expected, |is_right| assert_eq!(out, [u64::from(is_right), 7]), got);
}

#[test]
fn the_yardstick_is_right_on_marks() {
    let mut state = 9;
    for drawn in 0..40_000 {
        // the widest goes one beyond the range
        let width = [1, 3, 100, LIMIT + 1][drawn % 4];
        let mut coordinate = || below(&mut state, 2 * width as u64 + 1) as i64 - width;
        let mut points: Vec<i64> = (0..drawn / 4 % 16).map(|_| coordinate()).collect();
        let mut map = Map::empty();
        let is_new = |pair: &&[i64]| map.offer(Point::new(pair[0], pair[1])).is_ok();
        if drawn % 8 > 0 {
            points = points.chunks_exact(2).filter(is_new).flatten().copied().collect();
        }
        let mut claim: Vec<u64> = map.corners().into_iter().map(|k| k as u64).collect();
        let start = drawn % claim.len().max(1);
        claim.rotate_left(start);
        compare_mark(&points, &claim);
        // a number put in, taken out or changed
        let place = below(&mut state, claim.len() as u64 + 1) as usize;
        let number = below(&mut state, points.len() as u64 / 2 + 2);
        match drawn % 3 {
            0 => claim.insert(place, number),
            _ if place == claim.len() => claim.extend(claim.clone()),
            1 => claim[place] = number,
            _ => drop(claim.remove(place)),
        }
        compare_mark(&points, &claim);
        claim.reverse();
        compare_mark(&points, &claim);
    }
    for corners in [511, 512, 513, 600] {
        let mut points: Vec<i64> = (0..corners).flat_map(|x| [x, x * x]).collect();
        let mut claim: Vec<u64> = (0..corners as u64).collect();
        compare_mark(&points, &claim);
        claim.swap(509, 510);
        compare_mark(&points, &claim);
        for (x, y) in [(0, 0), (LIMIT + 1, 0)] {
            points.truncate(2 * corners as usize - 2);
            points.extend([x, y]);
            compare_mark(&points, &claim);
        }
    }
}

#[test]
fn the_yardstick_is_right_on_texts() {
    let mut state = 6;
    let mut texts: Vec<Vec<u8>> = inputs::texts().into_iter().map(|(_, text)| text).collect();
    texts.push(vec![b'\n'; 65_537]);
    texts.push(b"1000000000 -1000000000\n1000000001 0\n0 -9999999999\n10000000000 0\n".into());
    for _ in 0..20_000 {
        let alphabet = b"0011234579- - \n\n\n ";
        let length = below(&mut state, 60);
        let any = |_| alphabet[below(&mut state, alphabet.len() as u64) as usize];
        texts.push((0..length).map(any).collect());
    }
    let mut out = vec![0; 16 * 65_536 + 4096];
    for text in texts {
        let mut length = [0];
        let got = plain::report(&text, &mut out, &mut length);
        let printed = &out[..length[0] as usize];
        number(reference::report_or_refusal(&text), |report| assert_eq!(report, printed), got);
        let without_feeds = text.split(|&b| b == b'\n');
        let with_feeds = text.split_inclusive(|&b| b == b'\n');
        for bytes in without_feeds.chain(with_feeds).chain([&text[..]]) {
            let mut point = [0; 2];
            let got = plain::line(bytes, &mut point);
            let right = |p: Point| assert_eq!(point, [p.x, p.y]);
            number(reference::read_line(bytes), right, got);
        }
    }
}
