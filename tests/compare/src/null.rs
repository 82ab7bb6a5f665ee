//! Empty lists with a null pointer, as a C program may lend them. A Rust slice never has one: the
//! crate `reach` lends an empty slice as a dangling pointer.

use crate::entries::Comparison;
use crate::tally::{Difference, Outcome};
use std::ptr::{null, null_mut};

unsafe extern "C" {
    fn reach_empty(out: *mut u8, n: usize) -> u32;
    fn reach_check(map: *const u8, n: usize) -> u32;
    fn reach_load(
        file: *const u8,
        n: usize,
        out: *mut u8,
        m: usize,
        length: *mut u64,
        k: usize,
    ) -> u32;
    fn reach_counts(map: *const u8, n: usize, out: *mut u64, m: usize) -> u32;
    fn reach_line(line: *const u8, n: usize, out: *mut i64, m: usize) -> u32;
    fn reach_report(
        text: *const u8,
        n: usize,
        out: *mut u8,
        m: usize,
        length: *mut u64,
        k: usize,
    ) -> u32;
    fn reach_write_outline(
        map: *const u8,
        n: usize,
        out: *mut u8,
        m: usize,
        length: *mut u64,
        k: usize,
    ) -> u32;
    fn reach_read_outline(
        text: *const u8,
        n: usize,
        out: *mut i64,
        m: usize,
        length: *mut u64,
        k: usize,
    ) -> u32;
    fn reach_area(map: *const u8, n: usize, place: u64, out: *mut i64, m: usize) -> u32;
    fn reach_mark(
        points: *const i64,
        n: usize,
        claim: *const u64,
        m: usize,
        out: *mut u64,
        k: usize,
    ) -> u32;
}

impl Comparison {
    pub fn null_lists(&mut self) -> Outcome {
        let file = reference::Map::empty().save();
        let former = reference::Map::empty().save_in(1);
        let text = [0; reference::TEXT_LIMIT + 1];
        let none = b"POLYGON EMPTY";
        let zeros = [0i64; 4];
        let mut printed = [0; 64];
        let mut length = [0];
        // every list has no elements, or is a slice with its own length
        let calls = unsafe {
            [
                ("reach_empty", 10, reach_empty(null_mut(), 0)),
                ("reach_check", 7, reach_check(null(), 0)),
                (
                    "reach_load, no version",
                    7,
                    reach_load(null(), 0, printed.as_mut_ptr(), 64, length.as_mut_ptr(), 1),
                ),
                ("reach_load, no version", 7, reach_load(null(), 0, null_mut(), 0, null_mut(), 0)),
                (
                    "reach_load, version 1",
                    10,
                    reach_load(former.as_ptr(), former.len(), null_mut(), 0, null_mut(), 0),
                ),
                (
                    "reach_load, version 2",
                    10,
                    reach_load(file.as_ptr(), file.len(), printed.as_mut_ptr(), 64, null_mut(), 0),
                ),
                (
                    "reach_load, version 2",
                    10,
                    reach_load(file.as_ptr(), file.len(), null_mut(), 0, length.as_mut_ptr(), 1),
                ),
                ("reach_counts", 7, reach_counts(null(), 0, null_mut(), 0)),
                ("reach_counts", 10, reach_counts(file.as_ptr(), file.len(), null_mut(), 0)),
                ("reach_line", 8, reach_line(null(), 0, null_mut(), 0)),
                ("reach_line", 10, reach_line(b"0 0".as_ptr(), 3, null_mut(), 0)),
                ("reach_report", 10, reach_report(null(), 0, null_mut(), 0, null_mut(), 0)),
                (
                    "reach_report",
                    9,
                    reach_report(text.as_ptr(), text.len(), null_mut(), 0, null_mut(), 0),
                ),
                (
                    "reach_report",
                    0,
                    reach_report(null(), 0, printed.as_mut_ptr(), 64, length.as_mut_ptr(), 1),
                ),
                (
                    "reach_write_outline",
                    7,
                    reach_write_outline(null(), 0, null_mut(), 0, null_mut(), 0),
                ),
                (
                    "reach_write_outline",
                    10,
                    reach_write_outline(file.as_ptr(), file.len(), null_mut(), 0, null_mut(), 0),
                ),
                (
                    "reach_read_outline",
                    11,
                    reach_read_outline(null(), 0, null_mut(), 0, null_mut(), 0),
                ),
                (
                    "reach_read_outline",
                    10,
                    reach_read_outline(none.as_ptr(), none.len(), null_mut(), 0, null_mut(), 0),
                ),
                (
                    "reach_read_outline",
                    0,
                    reach_read_outline(
                        none.as_ptr(),
                        none.len(),
                        null_mut(),
                        0,
                        length.as_mut_ptr(),
                        1,
                    ),
                ),
                ("reach_area", 7, reach_area(null(), 0, 0, null_mut(), 0)),
                ("reach_area", 10, reach_area(file.as_ptr(), file.len(), 0, null_mut(), 0)),
                ("reach_mark, right", 10, reach_mark(null(), 0, null(), 0, null_mut(), 0)),
                ("reach_mark, right", 0, reach_mark(null(), 0, null(), 0, length.as_mut_ptr(), 1)),
                ("reach_mark, wrong", 10, reach_mark(zeros.as_ptr(), 2, null(), 0, null_mut(), 0)),
                ("reach_mark, refused", 4, reach_mark(zeros.as_ptr(), 4, null(), 0, null_mut(), 0)),
            ]
        };
        for (entry, expected, got) in calls {
            if expected != got {
                let said =
                    format!("{entry} with null pointers\nexpected {expected}\n     got {got}");
                return Err(Difference(said));
            }
            self.tally.add(entry, got);
        }
        Ok(())
    }
}
