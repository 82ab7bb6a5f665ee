//! The session and the questions of the requirements, and questions of ours.

use crate::plane::{cross, is_beside};
use crate::sound::is_sound;
use crate::*;

const SESSION: [(i64, i64); 6] = [(0, 0), (4, 0), (1, 3), (5, 4), (2, 1), (6, 7)];

fn built(points: &[(i64, i64)]) -> Map {
    let mut m = Map::empty();
    for (x, y) in points {
        m.offer(Point::new(*x, *y)).expect("an accepted point");
    }
    m
}

fn after(points: usize) -> Map {
    built(&SESSION[..points])
}

fn printed(text: &[u8]) -> String {
    String::from_utf8(report(text)).unwrap()
}

fn numbers(c: Counts) -> [usize; 5] {
    [c.darts, c.vertices, c.edges, c.faces, c.parts]
}

#[test]
fn the_session() {
    let expected = "OUTLINE 1\n0 first\n1 second\n2 outside 1 0 1\n3 outside 1 2 1\n4 inside\n\
                    5 outside 1 2 2\ncorners 0 1 5 2\ncounts 11 6 7 4 3\n";
    for text in ["0 0\n4 0\n1 3\n5 4\n2 1\n6 7\n", "0 0\n4 0\n1 3\n5 4\n2 1\n6 7"] {
        assert_eq!(printed(text.as_bytes()), expected);
    }
    let m = after(6);
    assert_eq!([2, 11, 10, 5, 6, 7].map(|d| m.edge_link(d)), [11, 2, 5, 10, 6, 7]);
    assert_eq!(m.corners(), [0, 1, 5, 2]);
}

#[test]
fn orbits_and_walks() {
    let m = after(6);
    let face = m.orbit(Kind::Face, 0).unwrap();
    assert_eq!(face.words[0], 1 << 0 | 1 << 2 | 1 << 4 | 1 << 10);
    assert_eq!(face.size, 4);
    let home = Walk { last: 0, ending: Ending::Home, moves: 8 };
    let loose = Walk { last: 6, ending: Ending::Loose, moves: 0 };
    assert_eq!(m.walk(0), Ok(home));
    assert_eq!(m.walk(6), Ok(loose));
    for absent in [9, 12, 1023, 1024, u64::MAX] {
        assert_eq!(m.walk(absent), Err(6));
        assert_eq!(m.orbit(Kind::Part, absent), Err(6));
    }
    assert_eq!(m.walker_edge(2), Ok(11));
    assert_eq!(m.walker_point(2), Ok(3));
}

#[test]
fn counts_of_small_maps() {
    let known = [[0; 5], [1; 5], [4, 2, 2, 2, 1]];
    for (points, counts) in known.into_iter().enumerate() {
        assert_eq!(numbers(after(points).counts()), counts);
    }
    assert_eq!(numbers(after(6).counts()), [11, 6, 7, 4, 3]);
}

#[test]
fn orientations() {
    let [a, b, c] = [(0, 0), (4, 0), (1, 3)].map(|(x, y)| Point::new(x, y));
    assert_eq!(orientation(a, b, c), Ok(12));
    assert_eq!(orientation(b, a, c), Ok(-12));
    let corners = |z: i64| [(-z, -z), (z, -z), (z, z)].map(|(x, y)| Point::new(x, y));
    let [a, b, c] = corners(1_000_000);
    assert_eq!(orientation(a, b, c), Ok(4_000_000_000_000));
    let [a, b, c] = corners(1_000_000_000);
    assert_eq!(orientation(a, b, c), Ok(4_000_000_000_000_000_000));
    assert_eq!(orientation(b, a, c), Ok(-4_000_000_000_000_000_000));
    let beyond = corners(1_000_000_001);
    for (i, q) in beyond.into_iter().enumerate() {
        let mut points = [a, b, c];
        points[i] = q;
        let [a, b, c] = points;
        assert_eq!(orientation(a, b, c), Err(3));
    }
    assert_eq!(orientation(a, Point::new(i64::MIN, i64::MAX), c), Err(3));
}

#[test]
fn refused_points() {
    let mut m = after(4);
    assert_eq!(m.offer(Point::new(4, 0)), Err(4));
    assert_eq!(m, after(4));
    for (z, answer) in [(1_000_000_000, Ok(Arrival::First)), (1_000_000_001, Err(3))] {
        for (x, y) in [(z, 0), (-z, 0), (0, z), (0, -z)] {
            assert_eq!(Map::empty().offer(Point::new(x, y)), answer);
        }
    }
    let mut full = Map::empty();
    for x in 0..512 {
        full.offer(Point::new(x, x * x)).unwrap();
    }
    for last in [Point::new(512, 512 * 512), Point::new(0, 0), Point::new(i64::MAX, 0)] {
        assert_eq!(full.offer(last), Err(2));
    }
}

/// The fields of a record, in the order of the file.
fn records(m: &Map) -> Vec<[usize; 3]> {
    m.records.iter().map(|record| [record.arrival, record.freed[0], record.freed[1]]).collect()
}

#[test]
fn records_of_arrivals() {
    let session = [
        [0, 1024, 1024],
        [1, 1024, 1024],
        // one visible edge: the partners are l and r
        [3, 1024, 1024],
        [3, 1024, 1024],
        [2, 1024, 1024],
        [3, 7, 6],
    ];
    for points in 0..=6 {
        assert_eq!(records(&after(points)), session[..points]);
    }
    assert_eq!(records(&built(&RAIL)), [[0, 1024, 1024], [1, 1024, 1024], [3, 3, 2]]);
    // from beyond the other end, between the ends, beside the rail
    let rail = built(&[(0, 0), (2, 0), (4, 0), (-2, 0), (1, 0), (1, 1)]);
    assert_eq!(records(&rail)[3..], [[3, 1, 0], [2, 1024, 1024], [3, 1024, 1024]]);
    // three edges are visible: the darts of the chain's ends come loose
    let three = built(&[(0, 0), (4, 0), (3, 1), (1, 1), (2, 9)]);
    assert_eq!(records(&three)[3..], [[3, 1024, 1024], [3, 5, 6]]);
    assert_eq!([5, 6].map(|dart| three.edge_link(dart)), [5, 6]);
    // on the line of an edge, beyond its end
    let beyond = built(&[(0, 0), (4, 0), (4, 4), (0, 4), (6, 0)]);
    assert_eq!(records(&beyond)[4], [3, 3, 2]);
}

#[test]
fn files() {
    assert_eq!(Map::empty().save(), [0, 0, 0, 5, 2, 0, 0, 4, 0]);
    assert_eq!(Map::load(&[0, 0, 0, 5, 1, 0, 0, 4, 0]), Ok(Map::empty()));
    let one = [
        &[0, 0, 0, 0x17, 2, 0, 1, 4, 0][..],
        &[0; 8],
        &[0],
        &[0, 0, 0, 1],
        // its record
        &[0, 4, 0, 4, 0],
    ];
    assert_eq!(after(1).save(), one.concat());
    for points in 0..=6 {
        assert_eq!(after(points).save(), after(points).save_in(2));
        for (version, bytes) in [(1, 13), (2, 18)] {
            let file = after(points).save_in(version);
            assert_eq!(file.len(), 9 + bytes * points);
            assert_eq!(Map::load(&file), Ok(after(points)));
            assert_eq!(Map::load(&file[..file.len() - 1]), Err(7));
            assert_eq!(Map::load(&[&file[..], &[0]].concat()), Err(7));
        }
    }
}

/// "one that its points, offered in order, build, records included": no field may differ.
#[test]
fn maps_that_are_not_built() {
    let with = |change: &dyn Fn(&mut Map)| {
        let mut m = after(6);
        change(&mut m);
        is_sound(&m)
    };
    assert!(with(&|_| ()));
    // other points that build the same links
    assert!(with(&|m| m.points[4] = Point::new(2, 2)));
    assert!(!with(&|m| m.points[4] = m.points[0]));
    assert!(!with(&|m| m.points[4] = Point::new(LIMIT + 1, 0)));
    assert!(!with(&|m| m.points.swap(0, 1)));
    assert!(!with(&|m| m.points.truncate(5)));
    assert!(!with(&|m| m.reference = 4));
    assert!(!with(&|m| m.reference = NO_DART));
    assert!(!with(&|m| m.helpers.extend([4])));
    assert!(!with(&|m| m.helpers.extend([6])));
    assert!(!with(&|m| m.helpers.retain(|&k| k != 3)));
    assert!(!with(&|m| m.join(6, 3)));
    assert!(!with(&|m| m.set_edge(12, 0)));
    assert!(!with(&|m| m.records.truncate(5)));
    assert!(!with(&|m| m.records.push(m.records[0])));
    assert!(!with(&|m| m.records.swap(2, 5)));
    assert!(!with(&|m| m.records[4].arrival = 0));
    assert!(!with(&|m| m.records[5].freed.reverse()));
    // 513 points: none builds more than 512
    let mut many = built(&parabola(512));
    assert!(is_sound(&many));
    many.arrive(Point::new(1, 2));
    assert!(!is_sound(&many));
    // a point that is refused, let in: equal to one inside, or to a corner, or out of range
    for (x, y) in [(2, 1), (4, 0), (6, 7), (LIMIT + 1, 0), (0, -LIMIT - 1)] {
        let mut m = after(6);
        m.arrive(Point::new(x, y));
        assert!(!is_sound(&m), "{x} {y}");
    }
}

/// Why the file of a version of the session is refused, with another byte at a place.
fn changed(version: u8, place: usize, byte: u8) -> Option<u32> {
    let mut file = after(6).save_in(version);
    file[place] = byte;
    Map::load(&file).err()
}

#[test]
fn versions() {
    for other in [0, 1, 3, 4, 255] {
        assert_eq!(changed(2, 4, other), Some(7));
    }
    for other in [0, 2, 3, 4, 255] {
        assert_eq!(changed(1, 4, other), Some(7));
    }
    // as long as the other version is, by its bytes, its length field or both
    let [first, second] = [1, 2].map(|version| after(6).save_in(version));
    let with_length = |file: &[u8], bytes: usize| {
        let length = (bytes as u32 - 4).to_be_bytes();
        Map::load(&[&length, &file[4..]].concat()).err()
    };
    let longer = [&first[..], &second[first.len()..]].concat();
    for bytes in [first.len(), second.len()] {
        assert_eq!(with_length(&longer, bytes), Some(7));
        assert_eq!(with_length(&second[..first.len()], bytes), Some(7));
    }
    assert_eq!(with_length(&first, second.len()), Some(7));
    assert_eq!(with_length(&second, first.len()), Some(7));
    assert_eq!(with_length(&second, second.len()), None);
}

#[test]
fn changed_files() {
    let (helpers, links) = (9 + 8 * 6, 9 + 9 * 6);
    for version in [1, 2] {
        let changed = |place, byte| changed(version, place, byte);
        assert_eq!(changed(helpers, 2), Some(7));
        assert_eq!(changed(helpers, 0), Some(1));
        assert_eq!(changed(helpers + 4, 1), Some(1));
        // an own dart on the outline, but not that of the last outside arrival
        assert_eq!(changed(8, 10), None);
        assert_eq!(changed(8, 4), Some(1));
        assert_eq!(changed(8, 6), Some(1));
        assert_eq!(changed(links, 200), Some(1));
        // a point that still lies inside, and one that does not
        assert_eq!(changed(9 + 8 * 4 + 7, 2), None);
        assert_eq!(changed(9 + 8 * 4 + 7, 0), None);
        assert_eq!(changed(9 + 8 * 4 + 3, 9), Some(1));
        // equal to an earlier point
        assert_eq!(changed(9 + 8 + 3, 0), Some(1));
        // a chain that no arrival leaves
        let mut other = after(6);
        other.join(6, 3);
        assert_eq!(Map::load(&other.save_in(version)), Err(1));
        let mut other = after(6);
        other.helpers.insert(4);
        assert_eq!(Map::load(&other.save_in(version)), Err(1));
    }
}

#[test]
fn changed_records() {
    let record = |k: usize| 9 + 13 * 6 + 5 * k;
    for k in 0..6 {
        for arrival in 0..=255 {
            let expected = match arrival {
                4.. => Some(7),
                _ if usize::from(arrival) == after(6).records[k].arrival => None,
                _ => Some(1),
            };
            assert_eq!(changed(2, record(k), arrival), expected, "{k} {arrival}");
        }
    }
    let with_freed = |k: usize, freed: [usize; 2]| {
        let mut m = after(6);
        m.records[k].freed = freed;
        assert_eq!(Map::load(&m.save_in(1)), Ok(after(6)));
        Map::load(&m.save()).err()
    };
    assert_eq!(with_freed(5, [7, 6]), None);
    let others = [[6, 7], [7, 7], [7, 1024], [1024, 6], [1024, 1024], [7, 1025], [65_535, 6]];
    for freed in others {
        assert_eq!(with_freed(5, freed), Some(1), "{freed:?}");
    }
    for k in 0..5 {
        for freed in [[1025, 1024], [1024, 1025], [1024, 65_535], [2, 1], [7, 6], [0, 0]] {
            assert_eq!(with_freed(k, freed), Some(1), "{k} {freed:?}");
        }
    }
    // 7 is looked at before 1
    let mut file = after(6).save();
    file[8] = 4;
    assert_eq!(Map::load(&file), Err(1));
    file[record(0)] = 4;
    assert_eq!(Map::load(&file), Err(7));
}

/// Four bytes hold more than the range: what lies beyond it is not sound.
#[test]
fn coordinates_of_files() {
    let file = built(&[(-2, LIMIT)]).save();
    assert_eq!(file[9..17], [0xff, 0xff, 0xff, 0xfe, 0x3b, 0x9a, 0xca, 0x00]);
    let with_y = |y: i32| {
        let mut file = file.clone();
        file[13..17].copy_from_slice(&y.to_be_bytes());
        Map::load(&file).err()
    };
    for y in [1_000_000_000, -1_000_000_000, 0] {
        assert_eq!(with_y(y), None, "{y}");
    }
    for y in [1_000_000_001, -1_000_000_001, i32::MAX, i32::MIN] {
        assert_eq!(with_y(y), Some(1), "{y}");
    }
}

#[test]
fn placing() {
    let m = after(6);
    let place = |x, y| m.place(Point::new(x, y));
    assert_eq!(place(4, 0), Ok(Placed::Corner(1)));
    assert_eq!(place(2, 0), Ok(Placed::Edge(0, 1)));
    assert_eq!(place(2, 1), Ok(Placed::Inside));
    assert_eq!(place(5, 0), Ok(Placed::Outside(1)));
    assert_eq!(place(-1, 0), Ok(Placed::Outside(1)));
    assert_eq!(place(0, -LIMIT - 1), Err(3));
    let two = after(2);
    assert_eq!(two.place(Point::new(2, 0)), Ok(Placed::Edge(0, 1)));
    assert_eq!(two.place(Point::new(5, 0)), Ok(Placed::Outside(0)));
    assert_eq!(two.place(Point::new(5, 1)), Ok(Placed::Outside(1)));
    assert_eq!(after(1).place(Point::new(0, 0)), Ok(Placed::NoOutline));
}

const RAIL: [(i64, i64); 3] = [(0, 0), (2, 0), (4, 0)];

#[test]
fn a_rail() {
    let m = built(&RAIL);
    assert_eq!([0, 5, 4, 1, 2, 3].map(|d| m.edge_link(d)), [5, 0, 1, 4, 2, 3]);
    assert_eq!(m.reference, 4);
    let place = |x, y| m.place(Point::new(x, y));
    assert_eq!(place(6, 0), Ok(Placed::Outside(0)));
    assert_eq!(place(-1, 0), Ok(Placed::Outside(0)));
    assert_eq!(place(1, 1), Ok(Placed::Outside(1)));
    assert_eq!(place(4, 0), Ok(Placed::Corner(2)));
    assert_eq!(place(2, 0), Ok(Placed::Edge(0, 2)));
    let with_middle = |x, y| {
        let mut m = m.clone();
        m.points[1] = Point::new(x, y);
        is_sound(&m)
    };
    assert!(with_middle(2, 0) && with_middle(1, 0) && with_middle(3, 0));
    for (x, y) in [(5, 0), (-1, 0), (2, 1), (2, -1), (0, 0), (4, 0)] {
        assert!(!with_middle(x, y), "{x} {y}");
    }
}

#[test]
fn points_on_edges() {
    for (points, x, y) in [(3, 2, 0), (4, 2, 0), (4, 2, 2)] {
        assert_eq!(after(points).offer(Point::new(x, y)), Ok(Arrival::Inside), "{x} {y}");
    }
    let mut m = after(3);
    m.offer(Point::new(2, 0)).unwrap();
    assert_eq!(m.place(Point::new(2, 0)), Ok(Placed::Edge(0, 1)));
    let is_sound_with = |x, y| {
        let mut m = m.clone();
        m.points[3] = Point::new(x, y);
        is_sound(&m)
    };
    assert!(is_sound_with(1, 0) && !is_sound_with(5, 0) && !is_sound_with(-1, 0));
}

#[test]
fn reports_on_rails() {
    assert_eq!(
        printed(b"0 0\n2 0\n4 0\n"),
        "OUTLINE 1\n0 first\n1 second\n2 outside 0 0 2\ncorners 0 2\ncounts 6 3 4 3 2\n"
    );
    assert_eq!(
        printed(b"0 0\n2 0\n4 0\n-2 0\n1 0\n1 1\n"),
        "OUTLINE 1\n0 first\n1 second\n2 outside 0 0 2\n3 outside 2 2 2\n4 inside\n\
         5 outside 2 3 1\ncorners 3 2 5\ncounts 11 6 8 5 4\n"
    );
    // on the line of an edge, beyond its end: the corner there leaves the outline
    assert_eq!(
        printed(b"0 0\n4 0\n4 4\n0 4\n6 0\n"),
        "OUTLINE 1\n0 first\n1 second\n2 outside 1 0 1\n3 outside 2 0 1\n4 outside 0 2 2\n\
         corners 0 4 2 3\ncounts 10 5 6 3 2\n"
    );
    // from one end of the range to the other
    assert_eq!(
        printed(
            b"1000000000 -1000000000\n-1000000000 1000000000\n0 0\n999999999 -999999999\n0 0\n"
        ),
        "OUTLINE 1\n0 first\n1 second\n2 inside\n3 inside\n4 refused 4\n\
         corners 0 1\ncounts 6 4 4 4 3\n"
    );
}

/// The two darts whose edge link an arrival made fixed, where it made any: first the one whose
/// partner was the left corner's own dart.
fn came_loose(before: &Map, after: &Map, arrival: Arrival) -> [usize; 2] {
    let is_loose = |d: &usize| before.edge_link(*d) != *d && after.edge_link(*d) == *d;
    let mut loose: Vec<usize> = before.darts().into_iter().filter(is_loose).collect();
    match arrival {
        Arrival::Outside { left, .. } if !loose.is_empty() => {
            loose.sort_by_key(|&d| before.edge_link(d) != 2 * left);
            loose.try_into().expect("two darts")
        }
        _ => {
            assert!(loose.is_empty());
            [NO_DART; 2]
        }
    }
}

/// "left of each outline edge or on it", "three or more corners still turn strictly left", and the
/// two sums, after every survey of up to five points of a grid.
#[test]
fn every_short_survey_of_a_small_grid() {
    /// The map after a survey, what its outside arrivals add up to, and how many points may follow.
    fn every(grid: &[Point], map: &Map, outside: usize, visible: usize, more: usize) {
        let corners = map.corners();
        let h = corners.len();
        let at = |i: usize| map.points[corners[i % h]];
        assert!(is_sound(map) && bullets::hold(map));
        assert_eq!(map.records.len(), map.points.len());
        for i in 0..h {
            let others = map.points.iter().filter(|&&p| p != at(i) && p != at(i + 1));
            assert!(h < 2 || others.clone().all(|&p| is_beside(at(i), at(i + 1), p)));
            assert!(h < 3 || cross(at(i), at(i + 1), at(i + 2)) > 0);
            assert!(h < 2 || map.edge_link(2 * corners[i]) == 2 * corners[(i + 1) % h] + 1);
        }
        let c = map.counts();
        assert_eq!(c.vertices + c.edges + c.faces, c.darts + 2 * c.parts);
        assert!(h < 2 || visible + h == 2 * outside + 2);
        for &p in grid.iter().filter(|p| more > 0 && !map.points.contains(p)) {
            let before = map;
            let mut map = map.clone();
            let arrival = map.offer(p).expect("a new point is accepted");
            assert_eq!(came_loose(before, &map, arrival), map.records[before.points.len()].freed);
            match arrival {
                Arrival::Outside { visible: edges, .. } => {
                    every(grid, &map, outside + 1, visible + edges, more - 1);
                }
                _ => every(grid, &map, outside, visible, more - 1),
            }
        }
    }
    let grid: Vec<Point> = (0..9).map(|i| Point::new(i % 3, i / 3)).collect();
    every(&grid, &Map::empty(), 0, 0, 5);
}

#[test]
fn lines() {
    let good = [
        ("0 0", 0, 0),
        ("-1 9999999999", -1, 9_999_999_999),
        ("-9999999999 10000000", -9_999_999_999, 10_000_000),
        ("1 0\n", 1, 0),
    ];
    for (line, x, y) in good {
        assert_eq!(read_line(line.as_bytes()), Ok(Point::new(x, y)));
    }
    let bad = [
        "",
        " ",
        "0",
        "0 ",
        " 0",
        "0  0",
        "0 0 ",
        "00 0",
        "-0 0",
        "+1 0",
        "1 10000000000",
        "-10000000000 1",
        "1\t0",
        "1 0\r",
        "1 0\n\n",
        "\n",
        "1\n 0\n",
        "\n1 0",
        "1 0\n2 0",
        "- 0",
        "1 --1",
        "1 0 0",
        "-9223372036854775808 0",
    ];
    for line in bad {
        assert_eq!(read_line(line.as_bytes()), Err(8), "{line:?}");
    }
    assert_eq!(read_line(b"0 \xff"), Err(8));
}

#[test]
fn reports() {
    let none = "corners\ncounts 0 0 0 0 0\n";
    assert_eq!(printed(b""), format!("OUTLINE 1\n{none}"));
    assert_eq!(printed(b"\n"), format!("OUTLINE 1\n0 refused 8\n{none}"));
    assert_eq!(printed(b"\n\n"), format!("OUTLINE 1\n0 refused 8\n1 refused 8\n{none}"));
    assert_eq!(
        printed(b"\n1000000001 0\n1 1"),
        "OUTLINE 1\n0 refused 8\n1 refused 3\n2 first\ncorners 0\ncounts 1 1 1 1 1\n"
    );
    // ten digits above the limit, eleven digits
    assert_eq!(
        printed(b"1000000000 -1000000000\n1000000001 0\n0 -9999999999\n10000000000 0\n"),
        "OUTLINE 1\n0 first\n1 refused 3\n2 refused 3\n3 refused 8\n\
         corners 0\ncounts 1 1 1 1 1\n"
    );
    // the corners of the range, and its middle
    assert_eq!(
        printed(
            b"-1000000000 -1000000000\n1000000000 -1000000000\n1000000000 1000000000\n\
              -1000000000 1000000000\n0 0\n"
        ),
        "OUTLINE 1\n0 first\n1 second\n2 outside 1 0 1\n3 outside 2 0 1\n4 inside\n\
         corners 0 1 2 3\ncounts 9 5 5 3 2\n"
    );
    assert_eq!(printed(&[b'\n'; TEXT_LIMIT]).lines().count(), TEXT_LIMIT + 3);
    assert_eq!(printed(&[b'\n'; TEXT_LIMIT]).len(), 1_037_501);
    assert_eq!(printed(&[b'\n'; TEXT_LIMIT + 1]), "OUTLINE 1\nrefused 9\n");
    assert_eq!(report_or_refusal(&[b'\n'; TEXT_LIMIT + 1]), Err(9));
}

/// The four texts of request 101, each with the points of its survey.
const OUTLINES: [(&str, &[(i64, i64)]); 4] = [
    ("POLYGON EMPTY", &[]),
    ("POINT (0 0)", &[(0, 0)]),
    ("LINESTRING (0 0, 4 0)", &[(0, 0), (4, 0)]),
    ("POLYGON ((0 0, 4 0, 6 7, 1 3, 0 0))", &SESSION),
];

fn points(coordinates: &[(i64, i64)]) -> Vec<Point> {
    coordinates.iter().map(|&(x, y)| Point::new(x, y)).collect()
}

/// A ring through these positions in turn, the first again at the end.
fn ring(positions: &[(i64, i64)]) -> String {
    let closed = positions.iter().chain(positions.first());
    let spelt: Vec<String> = closed.map(|(x, y)| format!("{x} {y}")).collect();
    format!("POLYGON (({}))", spelt.join(", "))
}

/// So many corners of a parabola, listed from the lowest.
fn parabola(corners: i64) -> Vec<(i64, i64)> {
    (0..corners).map(|x| (x, x * x)).collect()
}

/// The corners of the range, as they are listed.
const SQUARE: [(i64, i64); 4] =
    [(-LIMIT, -LIMIT), (LIMIT, -LIMIT), (LIMIT, LIMIT), (-LIMIT, LIMIT)];

#[test]
fn outlines_written_and_read() {
    for (text, survey) in OUTLINES {
        let map = built(survey);
        assert_eq!(map.outline_text(), text);
        let corners: Vec<Point> = map.corners().iter().map(|&k| map.points[k]).collect();
        assert_eq!(read_outline(text.as_bytes()), Ok(corners));
    }
    assert_eq!(built(&RAIL).outline_text(), "LINESTRING (0 0, 4 0)");
    let text = "POLYGON ((-1000000000 -1000000000, 1000000000 -1000000000, 1000000000 1000000000, \
                -1000000000 1000000000, -1000000000 -1000000000))";
    assert_eq!(built(&SQUARE).outline_text(), text);
    assert_eq!(read_outline(text.as_bytes()), Ok(points(&SQUARE)));
}

/// Every number that refuses a text, in the order in which they are looked at.
#[test]
fn outlines_refused() {
    let misspelt = [
        "",
        "POLYGON",
        "POLYGON EMPTY ",
        "POLYGON EMPTY\n",
        "POLYGON ()",
        "POLYGON (())",
        "POINT EMPTY",
        "POINT ()",
        "POINT (0)",
        "POINT (0 0",
        "POINT (0 0))",
        "POINT (0 0) ",
        "POINT (0 0)\n",
        "POINT(0 0)",
        "POINT  (0 0)",
        "POINT ( 0 0)",
        "POINT (0  0)",
        "POINT (0 0, 1 1)",
        "POINT (0 0 0)",
        "POINT (00 0)",
        "POINT (-0 0)",
        "POINT (+1 0)",
        "POINT (0.0 0)",
        "POINT (10000000000 0)",
        "POINT (0 -10000000000)",
        "point (0 0)",
        "LINESTRING (0 0)",
        "LINESTRING (0 0, 4 0, 6 7)",
        "LINESTRING (0 0,4 0)",
        "LINESTRING (0 0,  4 0)",
        "LINESTRING (0 0, 4 0, )",
        "LINESTRING EMPTY",
        "POLYGON ((0 0))",
        "POLYGON ((0 0, 0 0))",
        "POLYGON ((0 0, 4 0, 0 0))",
        "POLYGON ((0 0, 4 0, 6 7, 1 3))",
        "POLYGON ((0 0, 4 0, 6 7, 1 3, 0 1))",
        "POLYGON ((0 0, 4 0, 6 7, 1 3, 1 0))",
        "POLYGON ((0 0, 4 0, 6 7, 1 3, 0 0)",
        "POLYGON ((0 0, 4 0, 6 7, 1 3, 0 0)))",
        "POLYGON ((0 0, 4 0, 6 7, 1 3, 0 0))\n",
        "POLYGON (0 0, 4 0, 6 7, 1 3, 0 0)",
        "POLYGON ((0 0, 4 0, 6 7, 1 3, 0 0), (1 1, 2 1, 2 2, 1 1))",
        "MULTIPOINT (0 0, 4 0)",
        // 11 comes before 3
        "POINT (1000000001 00)",
        "POLYGON ((0 0, 1000000001 0, 6 7, 1 3))",
    ];
    for text in misspelt {
        assert_eq!(read_outline(text.as_bytes()), Err(11), "{text:?}");
    }
    assert_eq!(read_outline(b"POINT (0 \xff)"), Err(11));
    let far = [
        "POINT (1000000001 0)",
        "POINT (0 -1000000001)",
        "POINT (9999999999 -9999999999)",
        // 3 comes before 12
        "LINESTRING (4 0, 0 -1000000001)",
        "POLYGON ((0 0, 0 0, 1000000001 0, 0 0))",
    ];
    for text in far {
        assert_eq!(read_outline(text.as_bytes()), Err(3), "{text:?}");
    }
    let unlisted = [
        "LINESTRING (4 0, 0 0)",
        "LINESTRING (0 4, 0 0)",
        "LINESTRING (0 0, 0 0)",
        "POLYGON ((0 0, 0 0, 0 0, 0 0))",
        // begun at another corner, clockwise, in line, a corner twice, all corners twice
        "POLYGON ((4 0, 6 7, 1 3, 0 0, 4 0))",
        "POLYGON ((0 0, 1 3, 6 7, 4 0, 0 0))",
        "POLYGON ((0 0, 2 0, 4 0, 0 0))",
        "POLYGON ((0 0, 2 0, 4 0, 1 3, 0 0))",
        "POLYGON ((0 0, 4 0, 4 0, 1 3, 0 0))",
        "POLYGON ((0 0, 4 0, 1 3, 0 0, 4 0, 1 3, 0 0))",
        // from the smallest y, and of these from the smallest x
        "POLYGON ((4 0, 4 4, 0 4, 0 0, 4 0))",
        "POLYGON ((-1 1, 0 0, 4 0, -1 1))",
        // each turn is left, but they go round twice
        "POLYGON ((0 0, 2 5, -3 2, 3 2, -2 5, 0 0))",
        // a turn to the right
        "POLYGON ((0 0, 4 0, 2 1, 1 3, 0 0))",
    ];
    for text in unlisted {
        assert_eq!(read_outline(text.as_bytes()), Err(12), "{text:?}");
    }
}

#[test]
fn long_outlines() {
    for corners in [511, 512] {
        let listed = parabola(corners);
        assert_eq!(built(&listed).outline_text(), ring(&listed));
        assert_eq!(read_outline(ring(&listed).as_bytes()), Ok(points(&listed)));
    }
    let many = ring(&parabola(600));
    assert_eq!(read_outline(ring(&parabola(513)).as_bytes()), Err(12));
    assert_eq!(read_outline(many.as_bytes()), Err(12));
    // the last corner misspelt, or out of range
    let with_last = |corner: &str| read_outline(many.replace("599 358801", corner).as_bytes());
    assert_eq!(with_last("599 358801"), Err(12));
    assert_eq!(with_last("599 0358801"), Err(11));
    assert_eq!(with_last("599 10000000000"), Err(11));
    assert_eq!(with_last("599 1000000001"), Err(3));
    // 9 comes before all others
    let padded = |bytes: usize| ring(&[(0, 0); 13_104]).replacen("0 0", &"0".repeat(bytes), 1);
    assert_eq!(padded(4).len(), TEXT_LIMIT);
    assert_eq!(read_outline(padded(4).as_bytes()), Err(11));
    assert_eq!(read_outline(padded(5).as_bytes()), Err(9));
    for byte in [b'0', b'\n', 0xff] {
        assert_eq!(read_outline(&[byte; TEXT_LIMIT]), Err(11));
        assert_eq!(read_outline(&[byte; TEXT_LIMIT + 1]), Err(9));
    }
}

/// Numbers of 11 bytes are -1000000000 alone: of the corners two have it as x and two as y, and the
/// first, which is written twice, as both. All others have 10.
#[test]
fn the_longest_outline() {
    let arc = (0..511).map(|i: i64| (1000 * (510 * 510 - i * i) - LIMIT, 1000 * i - LIMIT));
    let corners: Vec<(i64, i64)> = [(-LIMIT, -LIMIT)].into_iter().chain(arc).collect();
    let text = built(&corners).outline_text();
    assert_eq!(text, ring(&corners));
    assert_eq!(text.len(), 12 + 2 * 512 + 21 * 513 + 6);
    assert_eq!(text.len(), 11_815);
    assert_eq!(read_outline(text.as_bytes()), Ok(points(&corners)));
}

/// A text is accepted if and only if the survey of its points writes it: every ring of up to four
/// corners of a grid, by the map that offers build.
#[test]
fn every_short_ring_of_a_small_grid() {
    let grid: Vec<(i64, i64)> = (0..9).map(|i| (i % 3, i / 3)).collect();
    let mut rings: Vec<Vec<(i64, i64)>> = vec![Vec::new()];
    for corners in 1..=4 {
        let longer = |ring: &Vec<(i64, i64)>| {
            let ring = ring.clone();
            grid.iter().map(move |&p| [&ring[..], &[p]].concat()).collect::<Vec<_>>()
        };
        rings = rings.iter().flat_map(longer).collect();
        for positions in rings.iter().filter(|_| corners > 2) {
            let mut map = Map::empty();
            for p in points(positions) {
                let _ = map.offer(p);
            }
            let text = ring(positions);
            let is_written = map.outline_text() == text;
            let expected = if is_written { Ok(points(positions)) } else { Err(12) };
            assert_eq!(read_outline(text.as_bytes()), expected, "{text}");
        }
    }
}

#[test]
fn areas() {
    let each = |map: &Map, places: &[u64]| -> Vec<_> {
        places.iter().map(|&place| map.doubled_area(place)).collect()
    };
    // "The result is the same from each corner"; there is no corner at place 4
    assert_eq!(each(&after(6), &[0, 1, 2, 3]), [Ok(39); 4]);
    assert_eq!(each(&after(6), &[4, 5, 6, 1023, 1 << 32, u64::MAX]), [Err(6); 6]);
    for (points, area) in [0, 0, 0, 12, 27, 27, 39].into_iter().enumerate() {
        assert_eq!(after(points).doubled_area(0), Ok(area));
    }
    // "Fewer than three points give 0 for any index."
    for points in 0..3 {
        assert_eq!(each(&after(points), &[0, 1, 2, 3, 9, u64::MAX]), [Ok(0); 6]);
    }
    assert_eq!(each(&after(3), &[0, 1, 2]), [Ok(12); 3]);
    assert_eq!(each(&after(3), &[3, 9, u64::MAX]), [Err(6); 3]);
    // three points, of which two are corners
    for rail in [RAIL, [(0, 0), (4, 0), (2, 0)], [(-3, -2), (9, 6), (3, 2)]] {
        assert_eq!(each(&built(&rail), &[0, 1]), [Ok(0); 2]);
        assert_eq!(each(&built(&rail), &[2, 3, u64::MAX]), [Err(6); 3]);
    }
    // as large as it can be, whatever the order of the points
    for order in [[0, 1, 2, 3], [0, 2, 3, 1], [3, 1, 0, 2]] {
        let square = built(&order.map(|k| SQUARE[k]));
        assert_eq!(each(&square, &[0, 1, 2, 3]), [Ok(8_000_000_000_000_000_000); 4]);
        assert_eq!(square.doubled_area(4), Err(6));
    }
    // 4 × 10^18 - 2 × 10^9 + 1, which a number of 53 bits does not hold
    let odd = built(&[(-LIMIT, -LIMIT), (LIMIT, 1 - LIMIT), (LIMIT - 1, LIMIT)]);
    assert_eq!(each(&odd, &[0, 1, 2]), [Ok(3_999_999_998_000_000_001); 3]);
    // the session elsewhere, up to the ends of the range
    for (x, y) in [(-LIMIT, -LIMIT), (LIMIT - 6, -LIMIT), (LIMIT - 6, LIMIT - 7), (7, -5)] {
        let shifted = built(&SESSION.map(|(across, up)| (x + across, y + up)));
        assert_eq!(each(&shifted, &[0, 1, 2, 3, 4]), [Ok(39), Ok(39), Ok(39), Ok(39), Err(6)]);
    }
    // as many corners as there may be: the sum of k × (k + 1) for k below 511
    let full = built(&parabola(512));
    assert_eq!(each(&full, &[0, 1, 255, 511]), [Ok(510 * 511 * 512 / 3); 4]);
    assert_eq!(each(&full, &[512, 513]), [Err(6); 2]);
}

/// What an offer adds to the area: "the negated orientations of the edges that were visible", as
/// many as the arrival reports, from its left corner on to its right.
fn area_added(map: &mut Map, p: Point) -> i128 {
    let before = map.clone();
    let Ok(Arrival::Outside { left, right, visible }) = map.offer(p) else {
        return 0;
    };
    let (mut corner, mut added) = (left, 0);
    for _ in 0..visible {
        let next = before.edge_link(2 * corner) / 2;
        added -= cross(before.points[corner], before.points[next], p);
        corner = next;
    }
    assert_eq!(corner, right);
    added
}

/// The sum of orientations over a fan of triangles from one of the corners.
fn fan(corners: &[Point], place: usize) -> i128 {
    let next = corners.iter().cycle().skip(1);
    corners.iter().zip(next).map(|(&a, &b)| cross(corners[place], a, b)).sum()
}

/// "For a survey from empty it also equals the history's total", after each offer of drawn surveys,
/// rails among them; and a fan from any corner gives it.
#[test]
fn areas_by_history() {
    let mut map = Map::empty();
    let added = SESSION.map(|(x, y)| area_added(&mut map, Point::new(x, y)));
    assert_eq!(added, [0, 0, 12, 15, 0, 12]);

    let mut state = 8u64;
    let mut below = |n: i64| {
        state =
            state.wrapping_mul(6_364_136_223_846_793_005).wrapping_add(1_442_695_040_888_963_407);
        (state >> 33) as i64 % n
    };
    for survey in 0..4000 {
        // the widest goes one beyond the range
        let width = [2, 5, 100, LIMIT + 1][survey % 4];
        let has_rail = survey / 4 % 4 == 0;
        let mut map = Map::empty();
        let mut total = 0;
        for _ in 0..below(40) {
            let [x, y] = [0; 2].map(|_| match below(4) {
                0 => (width - below(2)) * (2 * below(2) - 1),
                _ => below(2 * width + 1) - width,
            });
            let is_on_rail = has_rail && below(8) != 0;
            total += area_added(&mut map, Point::new(x, if is_on_rail { -x } else { y }));
            let corners: Vec<Point> = map.corners().iter().map(|&k| map.points[k]).collect();
            for place in 0..corners.len() {
                let area = map.doubled_area(place as u64).map(i128::from);
                assert_eq!(area, Ok(total), "{:?}", map.points);
                assert_eq!(fan(&corners, place), total, "{:?}", map.points);
            }
        }
    }
}

/// The mark of each claim on points.
fn marks(points: &[(i64, i64)], claims: &[&[u64]]) -> Vec<Answer<bool>> {
    let coordinates: Vec<i64> = points.iter().flat_map(|&(x, y)| [x, y]).collect();
    claims.iter().map(|claim| mark(&coordinates, claim)).collect()
}

#[test]
fn claims_on_the_session() {
    // "the corner listing, begun at any corner"
    let right: [&[u64]; 4] = [&[0, 1, 5, 2], &[1, 5, 2, 0], &[5, 2, 0, 1], &[2, 0, 1, 5]];
    assert_eq!(marks(&SESSION, &right), [Ok(true); 4]);
    let wrong: [&[u64]; 21] = [
        &[],
        // clockwise
        &[2, 5, 1, 0],
        &[0, 2, 5, 1],
        // a corner left out
        &[0],
        &[0, 1, 5],
        &[1, 5, 2],
        &[0, 1, 2],
        // a point that is no corner, more or in place of one
        &[0, 1, 3, 5, 2],
        &[0, 1, 3, 2],
        &[4, 1, 5, 2],
        // another order
        &[0, 5, 1, 2],
        // a corner again
        &[0, 1, 5, 2, 0],
        &[0, 1, 1, 5, 2],
        &[0, 1, 5, 1],
        // twice round
        &[0, 1, 5, 2, 0, 1, 5, 2],
        // "A claim with a number beyond the points is wrong"
        &[0, 1, 5, 6],
        &[0, 1, 5, 2, 6],
        &[0, 1, 5, 2, u64::MAX],
        // also one that is a corner's in 32 bits
        &[1 << 32, 1, 5, 2],
        &[0, 1, 5 + (1 << 32), 2],
        &[0, 1, 5, 2 + (1 << 32)],
    ];
    for claim in wrong {
        assert_eq!(marks(&SESSION, &[claim]), [Ok(false)], "{claim:?}");
    }
}

#[test]
fn claims_on_few_points() {
    assert_eq!(marks(&[], &[&[], &[0], &[0, 0]]), [Ok(true), Ok(false), Ok(false)]);
    let one = [Ok(true), Ok(false), Ok(false), Ok(false)];
    assert_eq!(marks(&SESSION[..1], &[&[0], &[], &[1], &[0, 0]]), one);
    assert_eq!(marks(&SESSION[..2], &[&[0, 1], &[1, 0]]), [Ok(true); 2]);
    assert_eq!(marks(&SESSION[..2], &[&[], &[0], &[1], &[0, 0], &[0, 1, 0]]), [Ok(false); 5]);
    assert_eq!(marks(&SESSION[..2], &[&[0, 1, 1], &[0, 1, 0, 1], &[0, 2]]), [Ok(false); 3]);
    assert_eq!(marks(&SESSION[..3], &[&[0, 1, 2], &[1, 2, 0], &[2, 0, 1]]), [Ok(true); 3]);
    assert_eq!(marks(&SESSION[..3], &[&[0, 2, 1], &[0, 1, 2, 0, 1, 2]]), [Ok(false); 2]);
    // the ends of a rail, whatever lies between
    assert_eq!(marks(&RAIL, &[&[0, 2], &[2, 0]]), [Ok(true); 2]);
    assert_eq!(marks(&RAIL, &[&[0, 1], &[0, 1, 2], &[0, 1, 2, 1], &[0]]), [Ok(false); 4]);
    assert_eq!(marks(&[(0, 0), (4, 0), (2, 0)], &[&[0, 1], &[1, 0]]), [Ok(true); 2]);
    // a point on an edge
    let on_edge = [(0, 0), (4, 0), (1, 3), (2, 0)];
    assert_eq!(marks(&on_edge, &[&[0, 1, 2], &[0, 3, 1, 2]]), [Ok(true), Ok(false)]);
    // an odd last number names no point, in range or not
    assert_eq!(mark(&[7], &[]), Ok(true));
    assert_eq!(mark(&[7], &[0]), Ok(false));
    assert_eq!(mark(&[0, 0, 4, 0, i64::MAX], &[1, 0]), Ok(true));
}

/// "A point list whose offers from empty are not all accepted returns the first refusal met",
/// whatever is claimed.
#[test]
fn claims_on_refused_points() {
    let refused = |points: &[(i64, i64)]| {
        let claims: [&[u64]; 4] = [&[], &[0, 1], &[9], &[u64::MAX]];
        let [first, others @ ..] = &marks(points, &claims)[..] else { unreachable!() };
        assert!(others.iter().all(|other| other == first));
        first.expect_err("a refused list")
    };
    let with = |n: i64, place: usize, point: (i64, i64)| {
        let mut points = parabola(n);
        points[place] = point;
        points
    };
    let far = (LIMIT + 1, 0);
    assert_eq!(refused(&[far]), 3);
    assert_eq!(refused(&[(0, i64::MIN), (0, i64::MIN)]), 3);
    assert_eq!(refused(&[(0, 0), (0, 0)]), 4);
    assert_eq!(refused(&[(0, 0), far, (0, 0)]), 3);
    assert_eq!(refused(&[(0, 0), (0, 0), far]), 4);
    // 512 points and no more
    let full: Vec<u64> = (0..512).collect();
    assert_eq!(marks(&parabola(512), &[&full, &full[1..]]), [Ok(true), Ok(false)]);
    assert_eq!(refused(&with(512, 511, (0, 0))), 4);
    assert_eq!(refused(&with(512, 511, far)), 3);
    for last in [(512, 512 * 512), (0, 0), far] {
        assert_eq!(refused(&with(513, 512, last)), 2);
        assert_eq!(refused(&with(600, 550, last)), 2);
    }
    assert_eq!(refused(&with(600, 3, (1, 1))), 4);
    assert_eq!(refused(&with(600, 3, far)), 3);
    // 512 points and a number
    let odd: Vec<i64> = parabola(512).iter().flat_map(|&(x, y)| [x, y]).chain([512]).collect();
    assert_eq!(mark(&odd, &full), Ok(true));
}
