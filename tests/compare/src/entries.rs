//! The comparison of each entry: the number, the values, and the rest of all lent memory.

use crate::draw::Draw;
use crate::lent::{Element, Lent};
use crate::points;
use crate::stack::on_stack;
use crate::tally::{Difference, Outcome, Tally, hex};
use reach::raw;
use reference::saved::VERSIONS;
use reference::{Answer, Arrival, Ending, Kind, Map, POINT_LIMIT, Placed, Point, refusal};
use std::fmt::Debug;

pub struct Comparison {
    pub draw: Draw,
    pub tally: Tally,
    /// Whether every call is made on as little stack as it is said to need.
    pub is_on_small_stacks: bool,
    /// Whether every call is made with lists of every kind of length.
    pub is_lent_every_length: bool,
    calls: u64,
}

/// Of so many calls, one is made on as little stack as it is said to need.
const STACK_SAMPLE: u64 = 61;

/// A drawn map with more corners than this is measured from so many drawn places.
const MANY_CORNERS: usize = 8;

/// The entries that start from a dart.
type FromDart = fn(&[u8], u64, &mut [u64]) -> u32;

const FROM_DART: [(&str, FromDart); 8] = [
    ("reach_edge_orbit", raw::edge_orbit),
    ("reach_vertex_orbit", raw::vertex_orbit),
    ("reach_face_orbit", raw::face_orbit),
    ("reach_part_orbit", raw::part_orbit),
    ("reach_walk", raw::walk),
    ("reach_walker", raw::walker),
    ("reach_walker_edge", raw::walker_edge),
    ("reach_walker_point", raw::walker_point),
];

fn word(number: usize) -> u64 {
    number as u64
}

fn orbit(map: &Map, kind: Kind, dart: u64) -> Answer<Vec<u64>> {
    let orbit = map.orbit(kind, dart)?;
    Ok([&orbit.words[..], &[word(orbit.size)]].concat())
}

fn walk(map: &Map, dart: u64) -> Answer<Vec<u64>> {
    let walk = map.walk(dart)?;
    let ending = match walk.ending {
        Ending::Home => 0,
        Ending::Loose => 1,
    };
    Ok(vec![word(walk.last), ending, word(walk.moves)])
}

/// What the entries of `FROM_DART` answer, in their order.
fn from_dart(map: &Map, dart: u64) -> [Answer<Vec<u64>>; 8] {
    let one = |dart: Answer<usize>| dart.map(|d| vec![word(d)]);
    [
        orbit(map, Kind::Edge, dart),
        orbit(map, Kind::Vertex, dart),
        orbit(map, Kind::Face, dart),
        orbit(map, Kind::Part, dart),
        walk(map, dart),
        one(map.walker(dart)),
        one(map.walker_edge(dart)),
        one(map.walker_point(dart)),
    ]
}

fn arrival_values(arrival: Arrival) -> Vec<u64> {
    match arrival {
        Arrival::First => vec![0, 0, 0, 0],
        Arrival::Second => vec![1, 0, 0, 0],
        Arrival::Inside => vec![2, 0, 0, 0],
        Arrival::Outside { left, right, visible } => {
            vec![3, word(left), word(right), word(visible)]
        }
    }
}

fn placed_values(placed: Placed) -> Vec<u64> {
    match placed {
        Placed::NoOutline => vec![0, 0, 0],
        Placed::Corner(corner) => vec![1, word(corner), 0],
        Placed::Edge(start, end) => vec![2, word(start), word(end)],
        Placed::Inside => vec![3, 0, 0],
        Placed::Outside(visible) => vec![4, word(visible), 0],
    }
}

fn counts_values(map: &Map) -> Vec<u64> {
    let c = map.counts();
    [c.darts, c.vertices, c.edges, c.faces, c.parts].map(word).to_vec()
}

/// A result with its length, which goes into a second list.
fn with_length<T>(values: Vec<T>) -> (Vec<T>, Vec<u64>) {
    let length = word(values.len());
    (values, vec![length])
}

impl Comparison {
    pub fn new(seed: u64) -> Self {
        Comparison {
            draw: Draw::new(seed),
            tally: Tally::default(),
            is_on_small_stacks: false,
            is_lent_every_length: false,
            calls: 0,
        }
    }

    /// Makes a call of the archive, now and then on as little stack as it is said to need.
    fn called(&mut self, entry: &str, call: impl FnOnce() -> u32 + Send) -> u32 {
        self.calls += 1;
        if !self.is_on_small_stacks && !self.calls.is_multiple_of(STACK_SAMPLE) {
            return call();
        }
        let bytes = if entry == "reach_report" { reach::REPORT_STACK } else { reach::CALL_STACK };
        on_stack(entry, bytes, call)
    }

    /// Notes a call, or tells how it differs.
    fn expect<T: Debug + PartialEq>(
        &mut self,
        entry: &'static str,
        input: &dyn Fn() -> String,
        expected: (u32, T),
        got: (u32, T),
    ) -> Outcome {
        if expected == got {
            self.tally.add(entry, got.0);
            return Ok(());
        }
        Err(Difference(format!("{entry}\n{}\nexpected {expected:?}\n     got {got:?}", input())))
    }

    /// Lengths to lend where so many elements are needed: most often one, now and then all near it.
    fn lengths(&mut self, needed: usize) -> Vec<usize> {
        if self.draw.one_in(24) {
            let first = needed.saturating_sub(if needed <= 20 { 20 } else { 3 });
            return (first..needed + 4).chain([0]).collect();
        }
        vec![match self.draw.below(12) {
            0 => self.draw.below(needed + 1),
            1 => needed.saturating_sub(1),
            2 | 3 => needed + 1,
            4 | 5 => needed + self.draw.below(20),
            _ => needed,
        }]
    }

    /// Compares a call that is lent one list.
    fn one_list<T: Element>(
        &mut self,
        entry: &'static str,
        input: &dyn Fn() -> String,
        expected: &Answer<Vec<T>>,
        call: impl Fn(&mut [T]) -> u32 + Sync,
    ) -> Outcome {
        let none = |list: &mut [T], _: &mut [u64]| call(list);
        let pair = expected.clone().map(|values| (values, Vec::new()));
        self.two_lists(entry, input, &pair, none)
    }

    /// Compares a call that is lent two lists.
    fn two_lists<T: Element, U: Element>(
        &mut self,
        entry: &'static str,
        input: &dyn Fn() -> String,
        expected: &Answer<(Vec<T>, Vec<U>)>,
        call: impl Fn(&mut [T], &mut [U]) -> u32 + Sync,
    ) -> Outcome {
        // a refused call is lent lists that would do, or drawn ones
        let needed = match expected {
            Ok((first, second)) => [first.len(), second.len()],
            Err(_) if self.is_lent_every_length => [2 * POINT_LIMIT, 1],
            Err(_) => [self.draw.below(20), self.draw.below(5)],
        };
        if self.is_lent_every_length {
            let [near_first, near_second] = needed.map(|n| [n.saturating_sub(1), n, n + 1]);
            for first in near_first.into_iter().chain([0]) {
                for second in near_second {
                    self.lists_of([first, second], entry, input, expected, &call)?;
                }
            }
            return Ok(());
        }
        for length in self.lengths(needed[0]) {
            let second_length = match needed[1] {
                0 => 0,
                n => self.lengths(n)[0],
            };
            self.lists_of([length, second_length], entry, input, expected, &call)?;
        }
        Ok(())
    }

    /// Compares a call that is lent two lists of these lengths.
    fn lists_of<T: Element, U: Element>(
        &mut self,
        [length, second_length]: [usize; 2],
        entry: &'static str,
        input: &dyn Fn() -> String,
        expected: &Answer<(Vec<T>, Vec<U>)>,
        call: &(impl Fn(&mut [T], &mut [U]) -> u32 + Sync),
    ) -> Outcome {
        let mut first = Lent::new(&mut self.draw, length);
        let mut second = Lent::new(&mut self.draw, second_length);
        let (number, first_result, second_result): (u32, &[T], &[U]) = match expected {
            Err(number) => (*number, &[], &[]),
            Ok((a, b)) if length < a.len() || second_length < b.len() => {
                (refusal::SHORT_LIST, &[], &[])
            }
            Ok((a, b)) => (0, a, b),
        };
        let got = self.called(entry, || call(first.list(), second.list()));
        if got != number || !first.holds(first_result) || !second.holds(second_result) {
            return Err(Difference(format!(
                "{entry}\n{}\nexpected {number}\n     got {got}\nfirst list: {}\n\
                 second list: {}",
                input(),
                first.describe(first_result),
                second.describe(second_result)
            )));
        }
        self.tally.add(entry, number);
        Ok(())
    }

    pub fn orientation(&mut self, [a, b, c]: [Point; 3]) -> Outcome {
        let expected = reference::orientation(a, b, c).map(|value| vec![value]);
        let pair = |p: Point| [p.x, p.y];
        let input = || format!("{a:?} {b:?} {c:?}");
        let call = |out: &mut [i64]| raw::orientation(pair(a), pair(b), pair(c), out);
        self.one_list("reach_orientation", &input, &expected, call)
    }

    pub fn empty(&mut self) -> Outcome {
        let expected = Ok(Map::empty().save());
        self.one_list("reach_empty", &String::new, &expected, raw::empty)
    }

    /// Offers a point to the map in a file.
    pub fn offer(&mut self, file: &[u8], map: &Answer<Map>, p: Point) -> Outcome {
        let expected = map.clone().and_then(|mut map| {
            let arrival = map.offer(p)?;
            Ok((map.save(), arrival_values(arrival)))
        });
        let input = || format!("{p:?} to map {}", hex(file));
        let call = |out: &mut [u8], arrival: &mut [u64]| raw::offer(file, p.x, p.y, out, arrival);
        self.two_lists("reach_offer", &input, &expected, call)
    }

    pub fn place(&mut self, file: &[u8], map: &Answer<Map>, p: Point) -> Outcome {
        let expected = map.as_ref().map_err(|e| *e).and_then(|m| m.place(p).map(placed_values));
        let input = || format!("{p:?} in map {}", hex(file));
        self.one_list("reach_place", &input, &expected, |out| raw::place(file, p.x, p.y, out))
    }

    /// All entries that start from a dart.
    pub fn dart(&mut self, file: &[u8], map: &Answer<Map>, dart: u64) -> Outcome {
        let expected = match map {
            Ok(map) => from_dart(map, dart),
            Err(number) => std::array::from_fn(|_| Err(*number)),
        };
        let input = || format!("dart {dart} of map {}", hex(file));
        for ((entry, call), expected) in FROM_DART.into_iter().zip(expected) {
            self.one_list(entry, &input, &expected, |out| call(file, dart, out))?;
        }
        Ok(())
    }

    /// The entries that read a map and nothing else, and its area.
    pub fn whole(&mut self, file: &[u8], map: &Answer<Map>) -> Outcome {
        let input = || format!("map {}", hex(file));
        let refused = map.as_ref().map_err(|number| *number);
        self.check(file, map)?;
        self.load(file, map)?;
        let counts = refused.map(counts_values);
        self.one_list("reach_counts", &input, &counts, |out| raw::counts(file, out))?;
        let corners = refused.map(|m| with_length(m.corners().into_iter().map(word).collect()));
        let call = |out: &mut [u64], length: &mut [u64]| raw::corners(file, out, length);
        self.two_lists("reach_corners", &input, &corners, call)?;
        let outline = refused.map(|m| with_length(m.outline_text().into_bytes()));
        let call = |out: &mut [u8], length: &mut [u64]| raw::write_outline(file, out, length);
        self.two_lists("reach_write_outline", &input, &outline, call)?;
        self.area(file, map)
    }

    /// Whether a file loads.
    pub fn check(&mut self, file: &[u8], map: &Answer<Map>) -> Outcome {
        let input = || format!("map {}", hex(file));
        let number = map.as_ref().err().copied().unwrap_or(0);
        let got = self.called("reach_check", || raw::check(file));
        self.expect("reach_check", &input, (number, ()), (got, ()))
    }

    /// The version 2 file of a file's map, whichever version that has.
    pub fn load(&mut self, file: &[u8], map: &Answer<Map>) -> Outcome {
        let entry = match file.get(4) {
            Some(1) => "reach_load, version 1",
            Some(2) => "reach_load, version 2",
            _ => "reach_load, no version",
        };
        let input = || format!("map {}", hex(file));
        let expected = map.as_ref().map_err(|number| *number).map(|m| with_length(m.save()));
        let call = |out: &mut [u8], length: &mut [u64]| raw::load(file, out, length);
        self.two_lists(entry, &input, &expected, call)
    }

    /// Twice the outline's area, from every place of the listing, or from some where a drawn map
    /// has many corners, and from places beyond it, into lists of no, one or two elements.
    fn area(&mut self, file: &[u8], map: &Answer<Map>) -> Outcome {
        let refused = map.as_ref().map_err(|number| *number);
        let corners = refused.map_or(0, |m| m.corners().len());
        let places: Vec<usize> = if self.is_lent_every_length || corners <= MANY_CORNERS {
            (0..corners).collect()
        } else {
            (0..MANY_CORNERS).map(|_| self.draw.below(corners)).collect()
        };
        let beyond = [corners, corners + 1, 1023, 1 << 32, usize::MAX];
        for place in places.into_iter().chain(beyond).map(word) {
            let area = refused.and_then(|m| m.doubled_area(place));
            let expected = area.map(|area| (vec![area], Vec::<u64>::new()));
            let input = || format!("place {place} of map {}", hex(file));
            let call = |out: &mut [i64], _: &mut [u64]| raw::area(file, place, out);
            let lengths =
                if self.is_lent_every_length { vec![0, 1, 2] } else { vec![self.draw.below(3)] };
            for length in lengths {
                self.lists_of([length, 0], "reach_area", &input, &expected, &call)?;
            }
        }
        Ok(())
    }

    /// A dart of the map, or an absent one.
    fn any_dart(&mut self, darts: &[usize]) -> u64 {
        let any = self.draw.word() >> self.draw.below(64);
        let next = word(darts.last().map_or(0, |d| d + 1));
        match self.draw.below(4) {
            0 => self.draw.pick(&[next, next + 1, 1022, 1023, 1024, 1025, u64::MAX, any]),
            1 => word(self.draw.below(next as usize + 1)),
            _ if darts.is_empty() => 0,
            _ => word(self.draw.pick(darts)),
        }
    }

    /// Every entry that reads a map, on a file, with so many darts, query points and offers.
    pub fn file(&mut self, file: &[u8], inputs: usize) -> Outcome {
        let before = file.to_vec();
        let map = Map::load(file);
        self.whole(file, &map)?;
        let darts = map.as_ref().map_or(vec![0, 3], |m| m.darts());
        for _ in 0..inputs {
            let dart = self.any_dart(&darts);
            self.dart(file, &map, dart)?;
            for is_offered in [false, true] {
                let p = match &map {
                    Ok(m) => points::query(&mut self.draw, m),
                    Err(_) => points::any_point(&mut self.draw),
                };
                if is_offered {
                    self.offer(file, &map, p)?;
                } else {
                    self.place(file, &map, p)?;
                }
            }
        }
        let input = || format!("map {} is changed by a call that reads it", hex(&before));
        self.expect("lent files stay", &input, (0, &before[..]), (0, file))
    }

    /// Offers a survey point after point, each to the map in a drawn version, and answers the map.
    pub fn survey(&mut self, survey: &[Point]) -> Result<Map, Difference> {
        let mut map = Map::empty();
        for &p in survey {
            let version = self.draw.pick(&VERSIONS);
            self.offer(&map.save_in(version), &Ok(map.clone()), p)?;
            let _ = map.offer(p);
        }
        Ok(map)
    }

    pub fn line(&mut self, line: &[u8]) -> Outcome {
        let expected = reference::read_line(line).map(|p| vec![p.x, p.y]);
        let input = || format!("line \"{}\"", line.escape_ascii());
        self.one_list("reach_line", &input, &expected, |out| raw::line(line, out))
    }

    pub fn report(&mut self, text: &[u8]) -> Outcome {
        let expected = reference::report_or_refusal(text).map(with_length);
        let input = || format!("text of {} bytes \"{}\"", text.len(), text.escape_ascii());
        let call = |out: &mut [u8], length: &mut [u64]| raw::report(text, out, length);
        self.two_lists("reach_report", &input, &expected, call)
    }

    pub fn read_outline(&mut self, text: &[u8]) -> Outcome {
        let numbers = |corners: Vec<Point>| corners.iter().flat_map(|p| [p.x, p.y]).collect();
        let expected = reference::read_outline(text).map(numbers).map(with_length);
        let input = || format!("text of {} bytes \"{}\"", text.len(), text.escape_ascii());
        let call = |out: &mut [i64], length: &mut [u64]| raw::read_outline(text, out, length);
        self.two_lists("reach_read_outline", &input, &expected, call)
    }

    /// Marks claims on points, x and y in turn, into lists of no, one, two or three elements.
    pub fn marks(&mut self, coordinates: &[i64], claims: &[Vec<u64>]) -> Outcome {
        let map = reference::mark::built(coordinates);
        for claim in claims {
            let is_right = map.as_ref().map_err(|number| *number).map(|m| m.has_listing(claim));
            let entry = match is_right {
                Ok(true) => "reach_mark, right",
                Ok(false) => "reach_mark, wrong",
                Err(_) => "reach_mark, refused",
            };
            let expected = is_right.map(|is_right| (vec![u64::from(is_right)], Vec::<u64>::new()));
            let input = || format!("claim {claim:?} on points {coordinates:?}");
            let call = |out: &mut [u64], _: &mut [u64]| raw::mark(coordinates, claim, out);
            let lengths =
                if self.is_lent_every_length { vec![0, 1, 2] } else { vec![self.draw.below(4)] };
            for length in lengths {
                self.lists_of([length, 0], entry, &input, &expected, &call)?;
            }
        }
        Ok(())
    }
}
