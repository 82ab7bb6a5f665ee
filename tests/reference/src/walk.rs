//! Walks, and a walker moved by one link.

use crate::{Answer, Map};

#[derive(Clone, Copy, Debug, PartialEq, Eq)]
pub enum Ending {
    Home,
    Loose,
}

#[derive(Clone, Copy, Debug, PartialEq, Eq)]
pub struct Walk {
    pub last: usize,
    pub ending: Ending,
    pub moves: usize,
}

impl Map {
    /// The walk from a dart, edge, point, edge in turn.
    pub fn walk(&self, dart: u64) -> Answer<Walk> {
        let start = self.dart(dart)?;
        let mut last = start;
        let mut moves = 0;
        loop {
            if self.edge_link(last) == last {
                return Ok(Walk { last, ending: Ending::Loose, moves });
            }
            last = self.point_link(self.edge_link(last));
            moves += 2;
            if last == start {
                return Ok(Walk { last, ending: Ending::Home, moves });
            }
        }
    }

    /// Where a walker stands that starts at a dart.
    pub fn walker(&self, dart: u64) -> Answer<usize> {
        self.dart(dart)
    }

    /// Where it stands after one move by the edge link.
    pub fn walker_edge(&self, dart: u64) -> Answer<usize> {
        self.dart(dart).map(|d| self.edge_link(d))
    }

    /// Where it stands after one move by the point link.
    pub fn walker_point(&self, dart: u64) -> Answer<usize> {
        self.dart(dart).map(|d| self.point_link(d))
    }
}
