//! The engine's functions as they are, with slices for a pointer and a length.
//!
//! Each returns 0 where it is served, else the number of the refusal, and writes its values into
//! the lent lists: a list that is too short is refused as 10, a longer one keeps its tail, and a
//! refused call changes no list. The numbers behind each name stand in the order in which their
//! conditions are looked at. A map is lent in either version of the saved form. `reach.h` says what
//! each value means, and where it stands in a saved map.
//!
//! An empty slice is lent as Rust has it: a dangling pointer, not null, with the length 0.

mod engine {
    unsafe extern "C" {
        pub fn reach_orientation(
            ax: i64,
            ay: i64,
            bx: i64,
            by: i64,
            cx: i64,
            cy: i64,
            out: *mut i64,
            n: usize,
        ) -> u32;
        pub fn reach_empty(out: *mut u8, n: usize) -> u32;
        pub fn reach_offer(
            map: *const u8,
            n: usize,
            x: i64,
            y: i64,
            out: *mut u8,
            m: usize,
            arrival: *mut u64,
            k: usize,
        ) -> u32;
        pub fn reach_edge_orbit(
            map: *const u8,
            n: usize,
            dart: u64,
            out: *mut u64,
            m: usize,
        ) -> u32;
        pub fn reach_vertex_orbit(
            map: *const u8,
            n: usize,
            dart: u64,
            out: *mut u64,
            m: usize,
        ) -> u32;
        pub fn reach_face_orbit(
            map: *const u8,
            n: usize,
            dart: u64,
            out: *mut u64,
            m: usize,
        ) -> u32;
        pub fn reach_part_orbit(
            map: *const u8,
            n: usize,
            dart: u64,
            out: *mut u64,
            m: usize,
        ) -> u32;
        pub fn reach_counts(map: *const u8, n: usize, out: *mut u64, m: usize) -> u32;
        pub fn reach_walk(map: *const u8, n: usize, dart: u64, out: *mut u64, m: usize) -> u32;
        pub fn reach_walker(map: *const u8, n: usize, dart: u64, out: *mut u64, m: usize) -> u32;
        pub fn reach_walker_edge(
            map: *const u8,
            n: usize,
            dart: u64,
            out: *mut u64,
            m: usize,
        ) -> u32;
        pub fn reach_walker_point(
            map: *const u8,
            n: usize,
            dart: u64,
            out: *mut u64,
            m: usize,
        ) -> u32;
        pub fn reach_place(
            map: *const u8,
            n: usize,
            x: i64,
            y: i64,
            out: *mut u64,
            m: usize,
        ) -> u32;
        pub fn reach_corners(
            map: *const u8,
            n: usize,
            out: *mut u64,
            m: usize,
            length: *mut u64,
            k: usize,
        ) -> u32;
        pub fn reach_check(map: *const u8, n: usize) -> u32;
        pub fn reach_load(
            file: *const u8,
            n: usize,
            out: *mut u8,
            m: usize,
            length: *mut u64,
            k: usize,
        ) -> u32;
        pub fn reach_line(line: *const u8, n: usize, out: *mut i64, m: usize) -> u32;
        pub fn reach_report(
            text: *const u8,
            n: usize,
            out: *mut u8,
            m: usize,
            length: *mut u64,
            k: usize,
        ) -> u32;
        pub fn reach_write_outline(
            map: *const u8,
            n: usize,
            out: *mut u8,
            m: usize,
            length: *mut u64,
            k: usize,
        ) -> u32;
        pub fn reach_read_outline(
            text: *const u8,
            n: usize,
            out: *mut i64,
            m: usize,
            length: *mut u64,
            k: usize,
        ) -> u32;
        pub fn reach_area(map: *const u8, n: usize, place: u64, out: *mut i64, m: usize) -> u32;
        pub fn reach_mark(
            points: *const i64,
            n: usize,
            claim: *const u64,
            m: usize,
            out: *mut u64,
            k: usize,
        ) -> u32;
    }
}

// In every call below the pointers and lengths are those of slices that live through it, the lent
// lists are borrowed alone, and any bytes and numbers are allowed: that is all the engine asks.

/// 3, 10: the orientation of (a, b, c).
pub fn orientation(a: [i64; 2], b: [i64; 2], c: [i64; 2], out: &mut [i64]) -> u32 {
    let (list, n) = (out.as_mut_ptr(), out.len());
    unsafe { engine::reach_orientation(a[0], a[1], b[0], b[1], c[0], c[1], list, n) }
}

/// 10: the bytes of the map without points, in version 2.
pub fn empty(out: &mut [u8]) -> u32 {
    unsafe { engine::reach_empty(out.as_mut_ptr(), out.len()) }
}

/// 7, 1, 2, 3, 4, 10: the bytes of the map after the offer, in version 2; kind, left, right,
/// visible.
pub fn offer(map: &[u8], x: i64, y: i64, out: &mut [u8], arrival: &mut [u64]) -> u32 {
    let (list, m) = (out.as_mut_ptr(), out.len());
    let (values, k) = (arrival.as_mut_ptr(), arrival.len());
    unsafe { engine::reach_offer(map.as_ptr(), map.len(), x, y, list, m, values, k) }
}

macro_rules! from_a_dart {
    ($($(#[$doc:meta])* $name:ident is $function:ident;)*) => {$(
        $(#[$doc])*
        pub fn $name(map: &[u8], dart: u64, out: &mut [u64]) -> u32 {
            unsafe { engine::$function(map.as_ptr(), map.len(), dart, out.as_mut_ptr(), out.len()) }
        }
    )*};
}

from_a_dart! {
    /// 7, 1, 6, 10: sixteen words and the size.
    edge_orbit is reach_edge_orbit;
    /// 7, 1, 6, 10: sixteen words and the size.
    vertex_orbit is reach_vertex_orbit;
    /// 7, 1, 6, 10: sixteen words and the size.
    face_orbit is reach_face_orbit;
    /// 7, 1, 6, 10: sixteen words and the size.
    part_orbit is reach_part_orbit;
    /// 7, 1, 6, 10: last dart, ending, moves.
    walk is reach_walk;
    /// 7, 1, 6, 10: the dart.
    walker is reach_walker;
    /// 7, 1, 6, 10: the dart after one move by the edge link.
    walker_edge is reach_walker_edge;
    /// 7, 1, 6, 10: the dart after one move by the point link.
    walker_point is reach_walker_point;
}

/// 7, 1, 10: darts, vertices, edges, faces, parts.
pub fn counts(map: &[u8], out: &mut [u64]) -> u32 {
    unsafe { engine::reach_counts(map.as_ptr(), map.len(), out.as_mut_ptr(), out.len()) }
}

/// 7, 1, 3, 10: where it lies, and two values.
pub fn place(map: &[u8], x: i64, y: i64, out: &mut [u64]) -> u32 {
    unsafe { engine::reach_place(map.as_ptr(), map.len(), x, y, out.as_mut_ptr(), out.len()) }
}

/// 7, 1, 10: the corners; how many.
pub fn corners(map: &[u8], out: &mut [u64], length: &mut [u64]) -> u32 {
    let (list, m) = (out.as_mut_ptr(), out.len());
    let (values, k) = (length.as_mut_ptr(), length.len());
    unsafe { engine::reach_corners(map.as_ptr(), map.len(), list, m, values, k) }
}

/// 7, 1: whether a file loads.
pub fn check(map: &[u8]) -> u32 {
    unsafe { engine::reach_check(map.as_ptr(), map.len()) }
}

/// 7, 1, 10: the bytes of the version 2 file of a file's map; how many.
pub fn load(file: &[u8], out: &mut [u8], length: &mut [u64]) -> u32 {
    let (list, m) = (out.as_mut_ptr(), out.len());
    let (values, k) = (length.as_mut_ptr(), length.len());
    unsafe { engine::reach_load(file.as_ptr(), file.len(), list, m, values, k) }
}

/// 8, 10: x, y.
pub fn line(line: &[u8], out: &mut [i64]) -> u32 {
    unsafe { engine::reach_line(line.as_ptr(), line.len(), out.as_mut_ptr(), out.len()) }
}

/// 9, 10: the report's bytes; how many.
pub fn report(text: &[u8], out: &mut [u8], length: &mut [u64]) -> u32 {
    let (list, m) = (out.as_mut_ptr(), out.len());
    let (values, k) = (length.as_mut_ptr(), length.len());
    unsafe { engine::reach_report(text.as_ptr(), text.len(), list, m, values, k) }
}

/// 7, 1, 10: the bytes of the outline's text; how many.
pub fn write_outline(map: &[u8], out: &mut [u8], length: &mut [u64]) -> u32 {
    let (list, m) = (out.as_mut_ptr(), out.len());
    let (values, k) = (length.as_mut_ptr(), length.len());
    unsafe { engine::reach_write_outline(map.as_ptr(), map.len(), list, m, values, k) }
}

/// 9, 11, 3, 12, 10: x, y of each corner; how many numbers.
pub fn read_outline(text: &[u8], out: &mut [i64], length: &mut [u64]) -> u32 {
    let (list, m) = (out.as_mut_ptr(), out.len());
    let (values, k) = (length.as_mut_ptr(), length.len());
    unsafe { engine::reach_read_outline(text.as_ptr(), text.len(), list, m, values, k) }
}

/// 7, 1, 6, 10: twice the outline's area.
pub fn area(map: &[u8], place: u64, out: &mut [i64]) -> u32 {
    unsafe { engine::reach_area(map.as_ptr(), map.len(), place, out.as_mut_ptr(), out.len()) }
}

/// 2, 3, 4 of each point in turn, 10: whether a claim on points, x and y in turn, is right.
pub fn mark(points: &[i64], claim: &[u64], out: &mut [u64]) -> u32 {
    let (numbers, m) = (claim.as_ptr(), claim.len());
    let (list, k) = (out.as_mut_ptr(), out.len());
    unsafe { engine::reach_mark(points.as_ptr(), points.len(), numbers, m, list, k) }
}
