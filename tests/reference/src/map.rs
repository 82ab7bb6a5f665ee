//! The linked map of darts.

use crate::Point;
use std::collections::{BTreeSet, HashMap};

/// A map has at most so many points.
pub const POINT_LIMIT: usize = 512;

/// Darts are numbered below this.
pub const DART_LIMIT: usize = 2 * POINT_LIMIT;

/// The reference of a map that has none, and what stands for a dart that was not freed.
pub const NO_DART: usize = DART_LIMIT;

/// What is written down of a point's arrival.
#[derive(Clone, Copy, Debug, PartialEq, Eq)]
pub struct Record {
    /// "0 first, 1 second, 2 inside, 3 outside".
    pub arrival: usize,
    /// The dart that the left corner's own dart let go, and the one that the right corner's helper
    /// did.
    pub freed: [usize; 2],
}

/// The fields of a map, whatever they hold. A place without a point has none.
#[derive(Clone, Debug, PartialEq, Eq)]
pub struct Map {
    /// The points, by their numbers.
    pub points: Vec<Point>,
    /// The points that have a helper dart.
    pub helpers: BTreeSet<usize>,
    /// The edge link of each dart that it does not fix.
    pub edge: HashMap<usize, usize>,
    pub reference: usize,
    /// The record of each point.
    pub records: Vec<Record>,
}

impl Map {
    /// The sound map without points.
    pub fn empty() -> Self {
        Map {
            points: Vec::new(),
            helpers: BTreeSet::new(),
            edge: HashMap::new(),
            reference: NO_DART,
            records: Vec::new(),
        }
    }

    /// Whether a dart is present: the own dart of a point, or its helper where it has one.
    pub fn is_present(&self, dart: usize) -> bool {
        let k = dart / 2;
        k < self.points.len() && (dart.is_multiple_of(2) || self.helpers.contains(&k))
    }

    /// The darts that are present, in the order of their numbers.
    pub fn darts(&self) -> Vec<usize> {
        (0..2 * self.points.len()).filter(|&d| self.is_present(d)).collect()
    }

    pub fn edge_link(&self, dart: usize) -> usize {
        *self.edge.get(&dart).unwrap_or(&dart)
    }

    /// The point link joins the two darts of a point that has a helper, and fixes every other.
    pub fn point_link(&self, dart: usize) -> usize {
        if self.helpers.contains(&(dart / 2)) { dart ^ 1 } else { dart }
    }

    /// "Edge link, then point link".
    pub fn face_link(&self, dart: usize) -> usize {
        self.point_link(self.edge_link(dart))
    }

    /// Sets the edge link of one dart.
    pub fn set_edge(&mut self, dart: usize, link: usize) {
        if dart == link {
            self.edge.remove(&dart);
        } else {
            self.edge.insert(dart, link);
        }
    }

    /// Makes two darts each other's edge link.
    pub fn join(&mut self, a: usize, b: usize) {
        self.set_edge(a, b);
        self.set_edge(b, a);
    }
}
