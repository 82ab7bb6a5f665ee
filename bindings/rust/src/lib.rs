//! The convex outline of marks in the plane, built point after point as a linked map of darts.
//!
//! The engine is written in Rattle and proved: every function meets its contract for every
//! argument. This crate calls it safely. [`Map`] is where to begin, with [`Map::survey`] where the
//! marks are a text; [`orientation`], [`read_line`], [`read_outline`], [`report`] and [`mark`] need
//! no map. What cannot be served is a [`Refusal`], which has a number and words.
//!
//! ```
//! use reach::{Map, Point};
//!
//! let mut map = Map::new();
//! let session = [(0, 0), (4, 0), (1, 3), (5, 4), (2, 1), (6, 7)];
//! for point in session.map(Point::from) {
//!     map.offer(point)?;
//! }
//! assert_eq!(map.corners(), [0, 1, 5, 2]);
//! assert_eq!(map.walk(0)?.moves, 8);
//! # Ok::<(), reach::Refusal>(())
//! ```
//!
//! Coordinates are whole numbers of thousandths of a millimetre, from -1,000,000,000 to
//! 1,000,000,000. A map has at most 512 points.
//!
//! The engine keeps its work on the stack. A thread of Rust's usual 2 MiB has room for every call;
//! a smaller one needs [`CALL_STACK`], or [`REPORT_STACK`] for a report or a survey.

#![warn(missing_debug_implementations)]

mod map;
pub mod raw;
mod refusal;

pub use map::{
    Arrival, ArrivalKind, Counts, Ending, Kind, Map, Orbit, Placed, Record, Survey, Walk, Walker,
};
pub use refusal::Refusal;

/// A map has at most so many points.
pub const POINT_LIMIT: usize = 512;

/// Coordinates are from minus this to this.
pub const COORDINATE_LIMIT: i64 = 1_000_000_000;

/// A text of more bytes is refused.
pub const TEXT_LIMIT: usize = 65_536;

/// A map has at most so many bytes in the saved form: 9, and 18 for each point.
pub const MAP_BYTES: usize = 9_225;

/// An outline's text has at most so many bytes: 12 of its words, 2 between each two of at most 513
/// positions, and at most 23 of each of them.
pub const OUTLINE_BYTES: usize = 12_835;

/// The bytes of stack that [`report`] and [`Map::survey`] need of their thread.
pub const REPORT_STACK: usize = 524_288;

/// The bytes of stack that every other call needs of its thread.
pub const CALL_STACK: usize = 262_144;

/// A point of the plane. It may be out of range: the engine looks.
#[derive(Clone, Copy, Debug, PartialEq, Eq, PartialOrd, Ord, Hash)]
pub struct Point {
    pub x: i64,
    pub y: i64,
}

/// x and y.
///
/// ```
/// use reach::Point;
///
/// assert_eq!(Point::from((4, 0)), Point { x: 4, y: 0 });
/// ```
impl From<(i64, i64)> for Point {
    fn from((x, y): (i64, i64)) -> Self {
        Point { x, y }
    }
}

/// The orientation of (a, b, c): positive where c is left of the line from a to b, zero where it is
/// in line with them, negative where it is right.
///
/// # Errors
///
/// [`Refusal::OutOfRange`] where a coordinate is out of range.
///
/// ```
/// use reach::{Point, orientation};
///
/// let [a, b, c] = [(0, 0), (4, 0), (1, 3)].map(Point::from);
/// assert_eq!(orientation(a, b, c), Ok(12));
/// assert_eq!(orientation(b, a, c), Ok(-12));
/// ```
///
/// It is from -4 × 10^18 to 4 × 10^18, which the corners of the range have:
///
/// ```
/// use reach::{COORDINATE_LIMIT as FAR, Point, Refusal, orientation};
///
/// let [a, b, c] = [(-FAR, -FAR), (FAR, -FAR), (FAR, FAR)].map(Point::from);
/// assert_eq!(orientation(a, b, c), Ok(4_000_000_000_000_000_000));
/// assert_eq!(orientation(a, b, Point { x: FAR + 1, y: 0 }), Err(Refusal::OutOfRange));
/// ```
pub fn orientation(a: Point, b: Point, c: Point) -> Result<i64, Refusal> {
    let mut out = [0];
    Refusal::of(raw::orientation([a.x, a.y], [b.x, b.y], [c.x, c.y], &mut out))?;
    Ok(out[0])
}

/// The point that a text line names, with its one line feed or without it. It may be out of range.
///
/// # Errors
///
/// [`Refusal::BadLine`] where the line is not two numbers of 1 to 10 digits with one space between,
/// or something follows its feed.
///
/// ```
/// use reach::{Point, Refusal, read_line};
///
/// assert_eq!(read_line(b"-3 40"), Ok(Point { x: -3, y: 40 }));
/// assert_eq!(read_line(b"-3 40\n"), Ok(Point { x: -3, y: 40 }));
/// assert_eq!(read_line(b"-3  40"), Err(Refusal::BadLine));
/// assert_eq!(read_line(b"-3 40\n\n"), Err(Refusal::BadLine));
/// ```
pub fn read_line(line: &[u8]) -> Result<Point, Refusal> {
    let mut out = [0; 2];
    Refusal::of(raw::line(line, &mut out))?;
    let [x, y] = out;
    Ok(Point { x, y })
}

/// What the text program prints for a survey text.
///
/// # Errors
///
/// [`Refusal::LongText`] where the text has more than [`TEXT_LIMIT`] bytes.
///
/// ```
/// let report = reach::report(b"0 0\n4 0\n")?;
/// assert_eq!(report, b"OUTLINE 1\n0 first\n1 second\ncorners 0 1\ncounts 4 2 2 2 1\n");
/// # Ok::<(), reach::Refusal>(())
/// ```
pub fn report(text: &[u8]) -> Result<Vec<u8>, Refusal> {
    // No report is longer: `report-most` of crates/reports/proofs/Lengths.antt.
    let mut printed = vec![0; 16 * text.len().min(TEXT_LIMIT) + 4096];
    let mut length = [0];
    Refusal::of(raw::report(text, &mut printed, &mut length))?;
    printed.truncate(usize::try_from(length[0]).expect("the length of a list"));
    Ok(printed)
}

/// The corners of an outline's text, as [`Map::outline_text`] writes it. A text is accepted if and
/// only if some survey writes it.
///
/// # Errors
///
/// The first that applies of [`Refusal::LongText`], where the text has more than [`TEXT_LIMIT`]
/// bytes, [`Refusal::BadOutline`], where it is spelt otherwise, [`Refusal::OutOfRange`], where a
/// coordinate is out of range, and [`Refusal::NoSurvey`], where no survey lists these corners in
/// this order: there are more than [`POINT_LIMIT`], the first is not the lowest, or they do not go
/// round once, turning left at each.
///
/// ```
/// use reach::{Point, Refusal, read_outline};
///
/// let corners = [(0, 0), (4, 0), (1, 3)].map(Point::from);
/// assert_eq!(read_outline(b"POLYGON ((0 0, 4 0, 1 3, 0 0))"), Ok(corners.to_vec()));
/// assert_eq!(read_outline(b"POLYGON EMPTY"), Ok(vec![]));
/// assert_eq!(read_outline(b"POLYGON ((0 0,4 0,1 3,0 0))"), Err(Refusal::BadOutline));
/// assert_eq!(read_outline(b"POLYGON ((0 0, 4 0, 1 3))"), Err(Refusal::BadOutline));
/// assert_eq!(read_outline(b"POINT (1000000001 0)"), Err(Refusal::OutOfRange));
/// assert_eq!(read_outline(b"POLYGON ((0 0, 1 3, 4 0, 0 0))"), Err(Refusal::NoSurvey));
/// ```
pub fn read_outline(text: &[u8]) -> Result<Vec<Point>, Refusal> {
    let mut numbers = vec![0; 2 * POINT_LIMIT];
    let mut length = [0];
    Refusal::of(raw::read_outline(text, &mut numbers, &mut length))?;
    let numbers = &numbers[..usize::try_from(length[0]).expect("the length of a list")];
    Ok(numbers.chunks_exact(2).map(|pair| Point { x: pair[0], y: pair[1] }).collect())
}

/// Whether a claim on points is right: it lists the corners of the map that these points build,
/// offered one after another, as [`Map::corners`] does or begun at another corner. Without points
/// the empty claim is right. No map is built.
///
/// # Errors
///
/// The first refusal met where the points are not all accepted: [`Refusal::Full`],
/// [`Refusal::OutOfRange`] or [`Refusal::Repeated`], whatever is claimed.
///
/// ```
/// use reach::{Point, Refusal, mark};
///
/// let session = [(0, 0), (4, 0), (1, 3), (5, 4), (2, 1), (6, 7)].map(Point::from);
/// assert_eq!(mark(&session, &[0, 1, 5, 2]), Ok(true));
/// assert_eq!(mark(&session, &[5, 2, 0, 1]), Ok(true));
/// assert_eq!(mark(&session, &[2, 5, 1, 0]), Ok(false));
/// assert_eq!(mark(&session, &[0, 1, 5, 6]), Ok(false));
/// assert_eq!(mark(&[], &[]), Ok(true));
/// assert_eq!(mark(&[session[0]; 2], &[0]), Err(Refusal::Repeated));
/// ```
pub fn mark(points: &[Point], claim: &[usize]) -> Result<bool, Refusal> {
    let coordinates: Vec<i64> = points.iter().flat_map(|point| [point.x, point.y]).collect();
    let claim: Vec<u64> = claim.iter().map(|&number| number as u64).collect();
    let mut out = [0];
    Refusal::of(raw::mark(&coordinates, &claim, &mut out))?;
    Ok(out[0] == 1)
}

#[cfg(doctest)]
#[doc = include_str!("../README.md")]
struct Readme;
