//! Twice the area of an outline, by the shoelace formula round the corners of the hull: the place
//! that is asked for decides only whether there is an answer.

use crate::plane::hull;
use crate::{Answer, Map, Point, refusal};

/// x × y′ - x′ × y, added up over the corners and the next ones round.
fn shoelace(corners: &[Point]) -> i128 {
    let next = corners.iter().cycle().skip(1);
    let product = |x: i64, y: i64| i128::from(x) * i128::from(y);
    corners.iter().zip(next).map(|(p, q)| product(p.x, q.y) - product(q.x, p.y)).sum()
}

impl Map {
    /// Twice the outline's area: "Fewer than three points give 0 for any index. Otherwise an index
    /// that is no place of the listing counts as an absent dart, number 6."
    pub fn doubled_area(&self, place: u64) -> Answer<i64> {
        if self.points.len() < 3 {
            return Ok(0);
        }
        let corners: Vec<Point> = hull(&self.points).into_iter().map(|k| self.points[k]).collect();
        if place >= corners.len() as u64 {
            return Err(refusal::NO_DART);
        }
        Ok(i64::try_from(shoelace(&corners)).expect("twice an area fits 64 bits"))
    }
}
