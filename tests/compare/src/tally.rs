//! How many calls of each entry are compared, by the number that they answer.

use std::collections::BTreeMap;
use std::fmt;

/// A difference between the engine and the reference, with the input that shows it.
pub struct Difference(pub String);

pub type Outcome = Result<(), Difference>;

#[derive(Default)]
pub struct Tally(BTreeMap<&'static str, BTreeMap<u32, u64>>);

impl Tally {
    pub fn add(&mut self, entry: &'static str, number: u32) {
        *self.0.entry(entry).or_default().entry(number).or_default() += 1;
    }

    pub fn total(&self) -> u64 {
        self.0.values().flat_map(|numbers| numbers.values()).sum()
    }
}

impl fmt::Display for Tally {
    fn fmt(&self, f: &mut fmt::Formatter<'_>) -> fmt::Result {
        for (entry, numbers) in &self.0 {
            let calls: u64 = numbers.values().sum();
            let each = numbers.iter().map(|(number, calls)| match number {
                0 => format!("served {calls}"),
                _ => format!("number {number} {calls}"),
            });
            writeln!(f, "{entry} {calls}: {}", each.collect::<Vec<_>>().join(", "))?;
        }
        write!(f, "all entries {}", self.total())
    }
}

/// Bytes as hexadecimal digits.
pub fn hex(bytes: &[u8]) -> String {
    bytes.iter().map(|b| format!("{b:02x}")).collect()
}

/// Where two lists of bytes part, with some bytes before and after.
pub fn parting(expected: &[u8], got: &[u8]) -> String {
    let place = expected.iter().zip(got).take_while(|(a, b)| a == b).count();
    let near = |bytes: &[u8]| {
        let end = bytes.len().min(place + 60);
        bytes[place.saturating_sub(60)..end].escape_ascii().to_string()
    };
    format!(
        "expected {} bytes, got {}; they part at byte {place}\nexpected \"{}\"\n     got \"{}\"",
        expected.len(),
        got.len(),
        near(expected),
        near(got)
    )
}
