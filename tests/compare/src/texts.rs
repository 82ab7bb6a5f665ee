//! Drawn lines and texts.

use crate::draw::Draw;
use crate::points;
use reference::{DIGIT_LIMIT, TEXT_LIMIT};

/// The bytes that matter to lines, and a few that are next to them.
pub const ALPHABET: &[u8] = b"0123456789- \n+/:.,\r\t\0\x80\xff";

/// Numbers that are nearly in form.
const NUMBERS: &[&str] = &[
    "0",
    "-0",
    "00",
    "01",
    "-01",
    "1",
    "-1",
    "9999999",
    "10000000",
    "-99999999999",
    "0000000001",
    "-",
    "--1",
    "1-",
    "+1",
    "",
    " ",
    "1.0",
    "1e3",
    "0x1",
    "4294967296",
    "18446744073709551616",
    "9223372036854775808",
];

/// Puts a byte or two of an alphabet into a text, in place of another or between two, or takes some
/// out.
pub fn damage(draw: &mut Draw, alphabet: &[u8], text: &mut Vec<u8>) {
    for _ in 0..1 + draw.below(2) {
        let place = draw.below(text.len() + 1);
        match draw.below(3) {
            0 => text.insert(place, draw.pick(alphabet)),
            1 if place < text.len() => text[place] = draw.pick(alphabet),
            _ if place < text.len() => {
                text.remove(place);
            }
            _ => {}
        }
    }
}

/// A number that is nearly in form, or at an end of the range, of the digits or of a type.
fn number(draw: &mut Draw) -> String {
    if draw.one_in(2) { draw.pick(NUMBERS).into() } else { draw.pick(&points::ends()).to_string() }
}

/// A line, in form or nearly or not at all. It may hold a line feed.
pub fn line(draw: &mut Draw) -> Vec<u8> {
    const FEW_DIGITS: i64 = 10i64.pow(DIGIT_LIMIT);
    let p = points::any_point(draw);
    match draw.below(5) {
        0 => format!("{} {}", number(draw), number(draw)).into(),
        1 => format!("{} {}", p.x, p.y).into(),
        2 => {
            let length = draw.below(20);
            (0..length).map(|_| draw.pick(ALPHABET)).collect()
        }
        3 => {
            let mut line = format!("{} {}", p.x % FEW_DIGITS, p.y % FEW_DIGITS).into();
            damage(draw, ALPHABET, &mut line);
            line
        }
        _ => format!("{} {}", p.x % FEW_DIGITS, p.y % FEW_DIGITS).into(),
    }
}

/// A line as it is lent by itself: without a line feed after it, with one, or with two.
pub fn lent_line(draw: &mut Draw) -> Vec<u8> {
    let mut bytes = line(draw);
    bytes.extend(vec![b'\n'; draw.below(3)]);
    bytes
}

/// A text of a survey, some of whose lines are not in form.
pub fn text(draw: &mut Draw) -> Vec<u8> {
    let offers = draw.size(120);
    let damaged_lines = draw.pick(&[usize::MAX, 20, 3]);
    let mut text = Vec::new();
    for p in points::survey(draw, offers) {
        let mut bytes = format!("{} {}", p.x, p.y).into_bytes();
        if draw.one_in(damaged_lines) {
            bytes = line(draw);
        }
        if draw.one_in(damaged_lines) {
            bytes.push(b'\r');
        }
        text.extend(bytes);
        text.push(b'\n');
        if draw.one_in(damaged_lines) {
            text.push(b'\n');
        }
    }
    if draw.one_in(3) {
        text.pop();
    }
    if draw.one_in(8) {
        damage(draw, ALPHABET, &mut text);
    }
    text
}

/// A text whose length is near the limit.
pub fn long_text(draw: &mut Draw) -> Vec<u8> {
    let length = TEXT_LIMIT + draw.below(5) - 2 - draw.pick(&[0, 0, 0, 1000, 30_000]);
    let mut text = Vec::new();
    match draw.below(4) {
        0 => text.resize(length, draw.pick(b"\n 07-")),
        1 => {
            let line = format!("{} {}\n", draw.between(-999, 999), draw.between(-999, 999));
            text.extend(line.bytes().cycle().take(length));
        }
        2 => {
            for p in points::convex(draw, 500) {
                text.extend(format!("{} {}\n", p.x, p.y).bytes());
            }
            text.extend(b"0 0\n".iter().cycle().take(length - text.len()));
        }
        _ => {
            while text.len() < length {
                for p in points::survey(draw, 400) {
                    text.extend(format!("{} {}\n", p.x, p.y).bytes());
                }
            }
            text.truncate(length);
        }
    }
    text
}
