//! The saved form, in both versions: a file of version 2 has the records too.

use crate::sound::built;
use crate::{Answer, Map, POINT_LIMIT, Point, Record, refusal};

/// The versions that are read.
pub const VERSIONS: [u8; 2] = [1, 2];

/// "Saving writes version 2".
pub const VERSION: u8 = 2;

/// The bytes of a file before its first point.
pub const HEAD: usize = 9;

/// The bytes that each point adds to a file of a version.
pub fn point_bytes(version: u8) -> usize {
    if version == 1 { 13 } else { 18 }
}

/// The number of bytes of a file of n points.
pub fn saved_length(version: u8, n: usize) -> usize {
    HEAD + point_bytes(version) * n
}

/// Takes big-endian numbers from the front of a file that is long enough for them.
struct Fields<'a>(&'a [u8]);

impl Fields<'_> {
    fn bytes<const N: usize>(&mut self) -> [u8; N] {
        let (field, rest) = self.0.split_first_chunk().expect("the length is looked at");
        self.0 = rest;
        *field
    }

    fn byte(&mut self) -> u8 {
        self.bytes::<1>()[0]
    }

    fn short(&mut self) -> usize {
        u16::from_be_bytes(self.bytes()).into()
    }

    fn coordinate(&mut self) -> i64 {
        i32::from_be_bytes(self.bytes()).into()
    }
}

impl Map {
    /// The version of a file and the fields that stand in it, sound or not, or number 7. Version 1
    /// has no records.
    fn fields(file: &[u8]) -> Answer<(u8, Map)> {
        const BAD: u32 = refusal::BAD_FILE;
        if file.len() < HEAD {
            return Err(BAD);
        }
        let mut fields = Fields(file);
        let length = u32::from_be_bytes(fields.bytes());
        let version = fields.byte();
        let n = fields.short();
        let reference = fields.short();
        if n > POINT_LIMIT
            || !VERSIONS.contains(&version)
            || file.len() != saved_length(version, n)
            || u64::from(length) != file.len() as u64 - 4
        {
            return Err(BAD);
        }
        let mut m = Map { reference, ..Map::empty() };
        for _ in 0..n {
            let (x, y) = (fields.coordinate(), fields.coordinate());
            m.points.push(Point { x, y });
        }
        for k in 0..n {
            match fields.byte() {
                0 => {}
                1 => {
                    m.helpers.insert(k);
                }
                _ => return Err(BAD),
            }
        }
        for dart in 0..2 * n {
            m.set_edge(dart, fields.short());
        }
        let records = if version == 1 { 0 } else { n };
        for _ in 0..records {
            let arrival = fields.byte();
            if arrival > 3 {
                return Err(BAD);
            }
            let freed = [fields.short(), fields.short()];
            m.records.push(Record { arrival: arrival.into(), freed });
        }
        Ok((version, m))
    }

    /// The map of a file: number 7 is looked at before number 1. "Version 1 files are still read,
    /// their records rebuilt".
    pub fn load(file: &[u8]) -> Answer<Map> {
        let (version, mut m) = Map::fields(file)?;
        let built = built(&m.points).map_err(|_| refusal::NOT_SOUND)?;
        if version == 1 {
            m.records.clone_from(&built.records);
        }
        if m == built { Ok(m) } else { Err(refusal::NOT_SOUND) }
    }

    /// The bytes of a map whose fields fit the saved form.
    pub fn save(&self) -> Vec<u8> {
        self.save_in(VERSION)
    }

    /// Its bytes in a version.
    pub fn save_in(&self, version: u8) -> Vec<u8> {
        let n = self.points.len();
        let short = |z: usize| u16::try_from(z).expect("a number of two bytes").to_be_bytes();
        let long = |z: i64| i32::try_from(z).expect("a number of four bytes").to_be_bytes();
        let mut file = Vec::new();
        file.extend((saved_length(version, n) as u32 - 4).to_be_bytes());
        file.push(version);
        file.extend(short(n));
        file.extend(short(self.reference));
        file.extend(self.points.iter().flat_map(|p| [long(p.x), long(p.y)]).flatten());
        file.extend((0..n).map(|k| u8::from(self.helpers.contains(&k))));
        file.extend((0..2 * n).flat_map(|d| short(self.edge_link(d))));
        if version > 1 {
            for record in &self.records {
                file.push(u8::try_from(record.arrival).expect("a number of one byte"));
                file.extend(record.freed.map(short).concat());
            }
        }
        file
    }
}
