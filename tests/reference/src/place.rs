//! Placing a query point, and listing the corners.

use crate::plane::{cross, hull, is_strictly_between};
use crate::{Answer, Map, Point, refusal};

/// Where a query point lies.
#[derive(Clone, Copy, Debug, PartialEq, Eq)]
pub enum Placed {
    /// There is no outline.
    NoOutline,
    Corner(usize),
    Edge(usize, usize),
    Inside,
    /// With the number of strictly visible edges: one on whose line the point lies is not counted.
    Outside(usize),
}

impl Map {
    /// The corners, anticlockwise from the smallest y, then the smallest x. One point lists itself.
    pub fn corners(&self) -> Vec<usize> {
        hull(&self.points)
    }

    /// Places a query point.
    pub fn place(&self, p: Point) -> Answer<Placed> {
        if !p.in_range() {
            return Err(refusal::OUT_OF_RANGE);
        }
        if self.points.len() < 2 {
            return Ok(Placed::NoOutline);
        }
        let corners = self.corners();
        let edges: Vec<(usize, usize)> =
            (0..corners.len()).map(|i| (corners[i], corners[(i + 1) % corners.len()])).collect();
        let side = |(a, b): (usize, usize)| cross(self.points[a], self.points[b], p).signum();
        if let Some(&corner) = corners.iter().find(|&&a| self.points[a] == p) {
            return Ok(Placed::Corner(corner));
        }
        if let Some(&(a, b)) =
            edges.iter().find(|&&(a, b)| is_strictly_between(self.points[a], self.points[b], p))
        {
            return Ok(Placed::Edge(a, b));
        }
        if edges.iter().all(|&edge| side(edge) > 0) {
            return Ok(Placed::Inside);
        }
        let visible = edges.iter().filter(|&&edge| side(edge) < 0).count();
        Ok(Placed::Outside(visible))
    }
}
