//! Numbers, lines and the report of the text program.

use crate::{Answer, Arrival, Map, Point, refusal};
use std::fmt::Write;

/// A text of more bytes is refused.
pub const TEXT_LIMIT: usize = 65_536;

/// A number has at most so many digits.
pub const DIGIT_LIMIT: u32 = 10;

/// "A number is an optional minus and 1 to .. digits, no leading zero save 0 itself, no -0." It is
/// in form where it is the one spelling of its value.
fn read_number(bytes: &[u8]) -> Option<i64> {
    let spelling = std::str::from_utf8(bytes).ok()?;
    let number: i64 = spelling.parse().ok()?;
    let has_few_digits = number.unsigned_abs() < 10u64.pow(DIGIT_LIMIT);
    (has_few_digits && number.to_string() == spelling).then_some(number)
}

/// The point that the bytes of a line name, its line feed left out, or number 8.
pub(crate) fn read_bytes(line: &[u8]) -> Answer<Point> {
    let mut parts = line.split(|&b| b == b' ');
    let numbers = [parts.next(), parts.next()].map(|part| part.and_then(read_number));
    match (numbers, parts.next()) {
        ([Some(x), Some(y)], None) => Ok(Point { x, y }),
        _ => Err(refusal::BAD_LINE),
    }
}

/// The point that a line names which is lent with its one line feed or without it, or number 8.
pub fn read_line(line: &[u8]) -> Answer<Point> {
    read_bytes(line.strip_suffix(b"\n").unwrap_or(line))
}

/// The map of a text's lines, offered in turn, and the answer of each of them.
pub fn survey(text: &[u8]) -> (Map, Vec<Answer<Arrival>>) {
    let mut lines: Vec<&[u8]> = text.split(|&b| b == b'\n').collect();
    if lines.last().is_some_and(|last| last.is_empty()) {
        lines.pop();
    }
    let mut map = Map::empty();
    let answers = lines.into_iter().map(|line| map.offer(read_bytes(line)?)).collect();
    (map, answers)
}

/// What the program prints for a text.
pub fn report(text: &[u8]) -> Vec<u8> {
    const TITLE: &str = "OUTLINE 1\n";
    if text.len() > TEXT_LIMIT {
        return format!("{TITLE}refused {}\n", refusal::LONG_TEXT).into();
    }
    let (map, answers) = survey(text);
    let mut printed = String::from(TITLE);
    for (number, answer) in answers.into_iter().enumerate() {
        let words = match answer {
            Ok(Arrival::First) => "first".into(),
            Ok(Arrival::Second) => "second".into(),
            Ok(Arrival::Inside) => "inside".into(),
            Ok(Arrival::Outside { left, right, visible }) => {
                format!("outside {left} {right} {visible}")
            }
            Err(refusal) => format!("refused {refusal}"),
        };
        writeln!(printed, "{number} {words}").expect("a string takes all");
    }
    printed.push_str("corners");
    for corner in map.corners() {
        write!(printed, " {corner}").expect("a string takes all");
    }
    let c = map.counts();
    writeln!(printed, "\ncounts {} {} {} {} {}", c.darts, c.vertices, c.edges, c.faces, c.parts)
        .expect("a string takes all");
    printed.into()
}

/// The report as a call answers it: number 9 gives nothing to write.
pub fn report_or_refusal(text: &[u8]) -> Answer<Vec<u8>> {
    if text.len() > TEXT_LIMIT { Err(refusal::LONG_TEXT) } else { Ok(report(text)) }
}
