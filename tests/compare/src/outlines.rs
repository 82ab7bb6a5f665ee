//! Outlines as texts: those that are read whatever the seed, drawn ones, and outlines of drawn
//! surveys to be read by others.

use crate::draw::Draw;
use crate::entries::Comparison;
use crate::maps;
use crate::points;
use crate::tally::Outcome;
use crate::texts;
use reference::plane::hull;
use reference::saved::VERSIONS;
use reference::{LIMIT, Map, POINT_LIMIT, Point, TEXT_LIMIT, refusal};
use std::io::{self, BufWriter, Write};

/// The bytes that matter to outlines, and a few that are next to them.
const ALPHABET: &[u8] = b"0129-+ ,().\nPEo\0\xff";

/// The texts of request 101.
const WRITTEN: [&str; 4] = [
    "POLYGON EMPTY",
    "POINT (0 0)",
    "LINESTRING (0 0, 4 0)",
    "POLYGON ((0 0, 4 0, 6 7, 1 3, 0 0))",
];

/// Texts that differ from those by more than a byte, or in what they spell.
const OTHERS: &[&str] = &[
    "",
    "POLYGON",
    "POLYGON ()",
    "POLYGON (())",
    "POLYGON (EMPTY)",
    "POINT EMPTY",
    "POINT ()",
    "POINT (0 0, 0 0)",
    "POINT (0 0 0)",
    "POINT ((0 0))",
    "LINESTRING EMPTY",
    "LINESTRING (0 0)",
    "LINESTRING (0 0, 4 0, 6 7)",
    "LINESTRING (0 0, 0 0)",
    "LINESTRING (4 0, 0 0)",
    "LINESTRING (0 4, 0 0)",
    "LINESTRING ((0 0, 4 0))",
    "MULTIPOINT (0 0, 4 0)",
    "LINEARRING (0 0, 4 0, 6 7, 0 0)",
    "polygon ((0 0, 4 0, 6 7, 1 3, 0 0))",
    "POLYGON((0 0,4 0,6 7,1 3,0 0))",
    "POLYGON (0 0, 4 0, 6 7, 1 3, 0 0)",
    "POLYGON ((0 0, 4 0, 6 7, 1 3))",
    "POLYGON ((0 0, 4 0, 6 7, 1 3, 4 0))",
    "POLYGON ((0 0, 4 0, 6 7, 1 3, 0 0), (1 1, 2 1, 2 2, 1 1))",
    "POLYGON ((0 0))",
    "POLYGON ((0 0, 0 0))",
    "POLYGON ((0 0, 4 0, 0 0))",
    "POLYGON ((0 0, 2 0, 4 0, 0 0))",
    "POLYGON ((0 0, 2 0, 4 0, 1 3, 0 0))",
    "POLYGON ((0 0, 0 0, 0 0, 0 0))",
    // each turn is left, but they go round twice
    "POLYGON ((0 0, 2 5, -3 2, 3 2, -2 5, 0 0))",
    "POLYGON ((0 0, 4 0, 1 3, 0 0, 4 0, 1 3, 0 0))",
    // two numbers apply: the order in which they are looked at
    "POINT (1000000001 00)",
    "POLYGON ((0 0, 1000000001 0, 6 7, 1 3))",
    "POLYGON ((1000000001 0, 0 0, 1 3, 1000000001 1))",
    "LINESTRING (4 0, 1000000001 -1)",
    "POLYGON ((0 0, 0 0, 1000000001 0, 0 0))",
];

/// Positions as an outline of so many corners is spelt, in the order in which they stand.
fn spelt(positions: &[Point]) -> Vec<u8> {
    let joined = |positions: &[Point]| {
        let each: Vec<String> = positions.iter().map(|p| format!("{} {}", p.x, p.y)).collect();
        each.join(", ")
    };
    let text = match positions {
        [] => "POLYGON EMPTY".into(),
        [_] => format!("POINT ({})", joined(positions)),
        [_, _] => format!("LINESTRING ({})", joined(positions)),
        [first, ..] => format!("POLYGON (({}, {}))", joined(positions), joined(&[*first])),
    };
    text.into_bytes()
}

/// The text with the last of its places where `from` stands changed.
fn with_last(text: &[u8], from: &str, to: &str) -> Vec<u8> {
    let text = str::from_utf8(text).expect("a text of ASCII");
    let (before, after) = text.rsplit_once(from).expect("it stands there");
    [before, to, after].concat().into_bytes()
}

/// A text cut off at each place, and with a byte left out there, and each of the alphabet put in or
/// in place of it.
fn neighbours(text: &[u8]) -> Vec<Vec<u8>> {
    let mut near = Vec::new();
    for place in 0..=text.len() {
        let (before, after) = text.split_at(place);
        let rest = after.get(1..).unwrap_or_default();
        near.extend([before.to_vec(), [before, rest].concat()]);
        for byte in ALPHABET {
            near.extend([after, rest].map(|after| [before, &[*byte], after].concat()));
        }
    }
    near
}

/// Every list of so many of these.
pub fn lists_of<T: Copy>(choices: &[T], length: usize) -> Vec<Vec<T>> {
    if length == 0 {
        return vec![Vec::new()];
    }
    let longer = |list: Vec<T>| choices.iter().map(move |&choice| [&list[..], &[choice]].concat());
    lists_of(choices, length - 1).into_iter().flat_map(longer).collect()
}

/// Every order of some points.
fn orders(points: &[Point]) -> Vec<Vec<Point>> {
    let has_each = |list: &Vec<Point>| points.iter().all(|p| list.contains(p));
    lists_of(points, points.len()).into_iter().filter(has_each).collect()
}

/// So many corners, listed from the lowest.
pub fn parabola(corners: usize) -> Vec<Point> {
    (0..corners as i64).map(|i| Point::new(i, i * i)).collect()
}

/// Texts of about 512 corners: so many, one more, and many more, of which the last is misspelt, out
/// of range or neither; begun at the second, the last in line, the first twice.
fn with_many_corners() -> Vec<Vec<u8>> {
    let mut texts: Vec<Vec<u8>> =
        [POINT_LIMIT - 1, POINT_LIMIT, POINT_LIMIT + 1].map(|n| spelt(&parabola(n))).into();
    let full = parabola(POINT_LIMIT);
    let mut turned = full.clone();
    turned.rotate_left(1);
    let mut backwards = full.clone();
    backwards[1..].reverse();
    let mut in_line = full.clone();
    in_line[POINT_LIMIT - 1] = Point::new(512, 509 * 509 + 3 * (510 * 510 - 509 * 509));
    let doubled = [&full[..1], &full].concat();
    texts.extend([turned, backwards, in_line, doubled].map(|corners| spelt(&corners)));
    for (corners, last) in [(512, "511 261121"), (513, "512 262144"), (600, "599 358801")] {
        let text = spelt(&parabola(corners));
        for other in
            ["599 0358801", "599 358801,", "599 10000000000", "599 1000000001", "0 1", "0 0"]
        {
            texts.push(with_last(&text, last, other));
        }
        texts.push(with_last(&text, "0 0", "0 1"));
        texts.push(with_last(&text, "0 0", "1 0"));
        texts.push(with_last(&text, "))", ")"));
    }
    texts
}

/// A ring of so many bytes, and one that has a position out of range.
fn of_bytes(bytes: usize) -> [Vec<u8>; 2] {
    let ring = |bytes: usize| {
        let mut positions = vec![Point::new(0, 0); (bytes - 15) / 5];
        positions[1].x = [0, 10, 100, 1000, 10_000][(bytes - 15) % 5];
        positions
    };
    let mut far = ring(bytes - 9);
    far[2].x = LIMIT + 1;
    let texts = [ring(bytes), far].map(|positions| spelt(&positions));
    assert!(texts.iter().all(|text| text.len() == bytes));
    texts
}

/// Texts of about as many bytes as are read, in the spelling and not.
fn with_many_bytes() -> Vec<Vec<u8>> {
    let mut texts = Vec::new();
    for bytes in [TEXT_LIMIT - 1, TEXT_LIMIT, TEXT_LIMIT + 1, 2 * TEXT_LIMIT] {
        let [ring, far] = of_bytes(bytes);
        texts.extend([with_last(&ring, "))", ") "), with_last(&far, "))", "),"), ring, far]);
        texts.extend([b'0', b'P', b'\n', 0xff].map(|byte| vec![byte; bytes]));
    }
    texts
}

impl Comparison {
    /// What is read, written and measured whatever the seed, with lists of every kind of length.
    pub fn fixed_outlines(&mut self) -> Outcome {
        self.is_lent_every_length = true;
        for text in WRITTEN.iter().chain(OTHERS).map(|text| text.as_bytes()) {
            self.read_outline(text)?;
            self.wrapper_outline(text)?;
        }
        for text in WRITTEN.iter().flat_map(|text| neighbours(text.as_bytes())) {
            self.read_outline(&text)?;
        }
        for list in lists() {
            self.read_outline(&spelt(&list))?;
        }
        self.is_on_small_stacks = true;
        for survey in surveys() {
            let map = maps::built(&survey);
            let unsound = Map { reference: 1, ..map.clone() };
            for version in VERSIONS {
                let file = map.save_in(version);
                self.whole(&file, &Ok(map.clone()))?;
                self.wrapper(&file)?;
                self.whole(&file[1..], &Err(refusal::BAD_FILE))?;
                self.whole(&unsound.save_in(version), &Err(refusal::NOT_SOUND))?;
            }
        }
        for text in with_many_corners().into_iter().chain(with_many_bytes()) {
            self.read_outline(&text)?;
            self.wrapper_outline(&text)?;
        }
        self.is_on_small_stacks = false;
        self.is_lent_every_length = false;
        Ok(())
    }
}

/// Positions to be read as corners: up to four of a grid; every order of a pentagon and of a
/// hexagon, of which one is listed; three about the corners of the range; numbers at every end.
fn lists() -> Vec<Vec<Point>> {
    let grid: Vec<Point> = (0..9).map(|i| Point::new(i % 3, i / 3)).collect();
    let pentagon = [(0, 0), (2, 0), (3, 1), (2, 3), (0, 2)].map(|(x, y)| Point::new(x, y));
    let hexagon = [(1, 0), (3, 0), (4, 2), (3, 4), (1, 4), (0, 2)].map(|(x, y)| Point::new(x, y));
    let ends = [-LIMIT - 1, -LIMIT, LIMIT, LIMIT + 1];
    let far: Vec<Point> = lists_of(&ends, 2).iter().map(|at| Point::new(at[0], at[1])).collect();
    let mut lists: Vec<Vec<Point>> = (1..=4).flat_map(|length| lists_of(&grid, length)).collect();
    lists.extend(orders(&pentagon));
    lists.extend(orders(&hexagon));
    lists.extend(lists_of(&far, 3));
    let near = [Point::new(0, 0), Point::new(1, 1)];
    for end in points::ends() {
        for p in [Point::new(end, 0), Point::new(0, end)] {
            lists.extend([vec![p], vec![p, near[1]], vec![near[0], p], vec![near[0], p, near[1]]]);
            lists.extend([vec![near[0], near[1], p], vec![p, near[0], near[1]]]);
        }
    }
    lists
}

/// An outline's text, most often of a drawn survey or near it; `pool` has maps that are dear to
/// build.
pub fn text(draw: &mut Draw, pool: &[Map]) -> Vec<u8> {
    let mut corners = match draw.below(400) {
        0 => {
            let offers = draw.pick(&[POINT_LIMIT, POINT_LIMIT + 1, 600, 3000]);
            listed(&points::convex(draw, offers))
        }
        1..5 => listed(&draw.pick(pool).points),
        _ => {
            let offers = draw.size(30);
            let mut survey = points::survey(draw, offers);
            survey.retain(|p| p.in_range());
            listed(&survey)
        }
    };
    if !corners.is_empty() && draw.one_in(2) {
        rearrange(draw, &mut corners);
    }
    let mut text = spelt(&corners);
    match draw.below(6) {
        0 | 1 => texts::damage(draw, ALPHABET, &mut text),
        2 if draw.one_in(3) => text.truncate(draw.below(text.len() + 1)),
        3 if draw.one_in(20) => {
            let [ring, far] = of_bytes(TEXT_LIMIT - 1 + draw.below(3));
            text = if draw.one_in(2) { ring } else { far };
        }
        _ => {}
    }
    text
}

/// The corners of the hull of these points, as points.
fn listed(points: &[Point]) -> Vec<Point> {
    hull(points).into_iter().map(|k| points[k]).collect()
}

/// Corners begun at another one, the other way round, in another order, or with one moved or added.
fn rearrange(draw: &mut Draw, corners: &mut Vec<Point>) {
    let n = corners.len();
    let i = draw.below(n);
    let [a, b] = [corners[i], corners[(i + 1) % n]];
    match draw.below(9) {
        0 => corners.rotate_left(i),
        1 => corners.reverse(),
        2 => corners[1..].reverse(),
        3 => corners.swap(i, draw.below(n)),
        4 => corners.insert(i + 1, points::on_line(draw, a, b)),
        5 => corners.insert(draw.below(n + 1), a),
        6 => corners.extend(corners.clone()),
        7 => corners[i].x = points::any_coordinate(draw),
        _ => corners[i].y += draw.between(-3, 3),
    }
}

/// Surveys whose outlines are written and measured, and claims on them marked, whatever the seed:
/// the session, from no point on, the corners of the range, points near them whose area is odd, as
/// many corners as there may be, the longest text, and marks along rails, three of them and all.
pub fn surveys() -> Vec<Vec<Point>> {
    let session = [(0, 0), (4, 0), (1, 3), (5, 4), (2, 1), (6, 7)].map(|(x, y)| Point::new(x, y));
    let square = [(-LIMIT, -LIMIT), (LIMIT, -LIMIT), (LIMIT, LIMIT), (-LIMIT, LIMIT)];
    let square = square.map(|(x, y)| Point::new(x, y));
    let odd = [(-LIMIT, -LIMIT), (LIMIT, 1 - LIMIT), (LIMIT - 1, LIMIT)];
    let odd = odd.map(|(x, y)| Point::new(x, y));
    // a number of 11 bytes is x of two corners and y of two, and of the first both
    let arc = (0..511).map(|i| Point::new(1000 * (510 * 510 - i * i) - LIMIT, 1000 * i - LIMIT));
    let longest = [Point::new(-LIMIT, -LIMIT)].into_iter().chain(arc).collect();
    let mut surveys: Vec<Vec<Point>> = (0..=session.len()).map(|n| session[..n].into()).collect();
    surveys.extend([square.into(), odd.into(), parabola(POINT_LIMIT), longest]);
    surveys.extend(crate::rails().map(|rail| rail[..3].into()));
    surveys.extend(crate::rails().map(Vec::from));
    surveys
}

/// Prints a line for each of so many surveys, fixed ones and then drawn ones: its points, and after
/// a tab the text of their outline, as the archive writes it.
pub fn print(seed: u64, number: u64) -> io::Result<()> {
    let mut draw = Draw::new(seed);
    let drawn = std::iter::repeat_with(|| {
        let most = if draw.one_in(100) { 700 } else { 60 };
        let offers = draw.size(most);
        points::survey(&mut draw, offers)
    });
    let mut out = BufWriter::new(io::stdout().lock());
    for survey in surveys().into_iter().chain(drawn).take(number as usize) {
        let map = maps::built(&survey);
        let outline = reach::Map::load(&map.save()).expect("a sound map").outline_text();
        let points: Vec<String> = map.points.iter().map(|p| format!("{} {}", p.x, p.y)).collect();
        writeln!(out, "{}\t{outline}", points.join(", "))?;
    }
    out.flush()
}
