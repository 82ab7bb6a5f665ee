//! The constants of the C header, which the Rust crate and the reference have too, and its words for
//! the numbers.

use crate::entries::Comparison;
use crate::tally::{Difference, Outcome};
use reach::Refusal;
use reference::refusal;
use reference::saved::{HEAD, VERSION, VERSIONS, point_bytes};

const HEADER: &str = include_str!("../../../bindings/c/reach.h");

/// The number that the header gives a name.
fn constant(name: &str) -> Option<i64> {
    let mut words = HEADER.split_whitespace();
    words.find(|word| *word == name)?;
    let (equals, number) = (words.next()?, words.next()?);
    if equals == "=" { number.trim_end_matches(',').parse().ok() } else { None }
}

/// The strings of the header's list of words, in order.
fn words() -> Vec<&'static str> {
    let list = HEADER.split_once("#define REACH_REFUSAL_WORDS").map_or("", |(_, after)| after);
    let list = list.split_once('}').map_or("", |(list, _)| list);
    list.split('"').skip(1).step_by(2).collect()
}

impl Comparison {
    /// The header says of each refusal what the crate displays, and has words of its own for a
    /// served call, the withdrawn number, and last a number that it does not have.
    pub fn header_words(&mut self) -> Outcome {
        let of_header = words();
        let known = Refusal::ALL.iter().map(|refusal| (refusal.number(), refusal.to_string()));
        let own = [(0, "served"), (5, "withdrawn")].map(|(number, said)| (number, said.into()));
        let mut all: Vec<(u32, String)> = known.chain(own).collect();
        all.sort();
        for (place, (number, said)) in all.iter().enumerate() {
            let got = of_header.get(place);
            if place != *number as usize || got != Some(&said.as_str()) {
                let said = format!("the words of {number}\nreach.h {got:?}, the crate {said:?}");
                return Err(Difference(said));
            }
            self.tally.add("words of reach.h", 0);
        }
        if of_header.len() != all.len() + 1 {
            return Err(Difference(format!("the words of reach.h\n{of_header:?}")));
        }
        Ok(())
    }

    pub fn header(&mut self) -> Outcome {
        let refusals = [
            ("REACH_NOT_SOUND", Refusal::NotSound, refusal::NOT_SOUND),
            ("REACH_FULL", Refusal::Full, refusal::FULL),
            ("REACH_OUT_OF_RANGE", Refusal::OutOfRange, refusal::OUT_OF_RANGE),
            ("REACH_REPEATED", Refusal::Repeated, refusal::REPEATED),
            ("REACH_NO_DART", Refusal::NoDart, refusal::NO_DART),
            ("REACH_BAD_FILE", Refusal::BadFile, refusal::BAD_FILE),
            ("REACH_BAD_LINE", Refusal::BadLine, refusal::BAD_LINE),
            ("REACH_LONG_TEXT", Refusal::LongText, refusal::LONG_TEXT),
            ("REACH_SHORT_LIST", Refusal::ShortList, refusal::SHORT_LIST),
            ("REACH_BAD_OUTLINE", Refusal::BadOutline, refusal::BAD_OUTLINE),
            ("REACH_NO_SURVEY", Refusal::NoSurvey, refusal::NO_SURVEY),
        ]
        .map(|(name, refusal, number)| (name, i64::from(refusal.number()), i64::from(number)));
        let limits = [
            ("REACH_POINTS", reach::POINT_LIMIT as i64, reference::POINT_LIMIT as i64),
            ("REACH_COORDINATE_LIMIT", reach::COORDINATE_LIMIT, reference::LIMIT),
            ("REACH_TEXT_LIMIT", reach::TEXT_LIMIT as i64, reference::TEXT_LIMIT as i64),
            ("REACH_EMPTY_BYTES", reach::Map::new().as_bytes().len() as i64, HEAD as i64),
            (
                "REACH_POINT_BYTES",
                (reach::MAP_BYTES - HEAD) as i64 / reach::POINT_LIMIT as i64,
                point_bytes(VERSION) as i64,
            ),
        ];
        let of_the_reference = [
            ("REACH_FORMER_POINT_BYTES", "the reference", point_bytes(1) as i64),
            ("REACH_FILE_VERSION", "the reference", i64::from(VERSION)),
            ("REACH_FORMER_FILE_VERSION", "the reference", i64::from(VERSIONS[0])),
        ];
        let of_the_crate = [
            ("REACH_OUTLINE_BYTES", "the crate", reach::OUTLINE_BYTES as i64),
            ("REACH_REPORT_STACK", "the crate", reach::REPORT_STACK as i64),
            ("REACH_CALL_STACK", "the crate", reach::CALL_STACK as i64),
        ];
        let shared = refusals.into_iter().chain(limits);
        let both = |(name, a, b)| [(name, "the crate", a), (name, "the reference", b)];
        let all = shared.flat_map(both).chain(of_the_reference).chain(of_the_crate);
        for (name, whose, number) in all {
            let of_header = constant(name);
            if of_header != Some(number) {
                let said = format!("{name}\nreach.h {of_header:?}, {whose} {number}");
                return Err(Difference(said));
            }
            self.tally.add("constants of reach.h", 0);
        }
        Ok(())
    }
}
