//! All of the requirements in plain Rust, to compare the proved engine with.
//!
//! Nothing here is shared with the engine, and where there is a choice another way is taken:
//! orientations are 128-bit, an outline is computed from the coordinates alone (Andrew's monotone
//! chain) instead of being read from the links, links stand in a hash map, orbits are sets that
//! grow until they are closed, parts are a union-find, a point in line with two others is between
//! them by the order of the coordinates, the farther of two corners by squared distances, an
//! outline's text is split at its separators and held to the text of its points' hull, an area is
//! worked out by the shoelace formula, not by triangles, and a claim is held to the listing of the
//! map that its points build, begun at each corner. A map is held to the one that its points build,
//! field by field, not byte by byte.
//!
//! Every function answers its value or the number of its refusal. A [`Map`] that comes out of
//! [`Map::load`] or was built by [`Map::offer`] from [`Map::empty`] is sound, and the functions
//! that read a map speak of sound maps; [`sound::is_sound`] judges any other.

pub mod area;
pub mod arrival;
pub mod map;
pub mod mark;
pub mod orbits;
pub mod outline;
pub mod place;
pub mod plane;
pub mod refusal;
pub mod saved;
pub mod sound;
pub mod text;
pub mod walk;

pub use arrival::Arrival;
pub use map::{DART_LIMIT, Map, NO_DART, POINT_LIMIT, Record};
pub use mark::mark;
pub use orbits::{Counts, Kind, Orbit};
pub use outline::read_outline;
pub use place::Placed;
pub use plane::{LIMIT, Point, orientation};
pub use text::{DIGIT_LIMIT, TEXT_LIMIT, read_line, report, report_or_refusal, survey};
pub use walk::{Ending, Walk};

/// A value, or the number of the refusal.
pub type Answer<T> = Result<T, u32>;

#[cfg(test)]
mod bullets;
#[cfg(test)]
mod questions;
