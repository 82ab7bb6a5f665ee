//! Points of the plane: the range, orientation, what lies between two points and beside an edge,
//! and the hull computed from coordinates alone.

use crate::{Answer, refusal};

/// A coordinate is a whole number from -`LIMIT` to `LIMIT`.
pub const LIMIT: i64 = 1_000_000_000;

/// A point of the plane. It may be out of range.
#[derive(Clone, Copy, Debug, PartialEq, Eq, PartialOrd, Ord, Hash)]
pub struct Point {
    pub x: i64,
    pub y: i64,
}

impl Point {
    pub fn new(x: i64, y: i64) -> Self {
        Point { x, y }
    }

    pub fn in_range(self) -> bool {
        [self.x, self.y].iter().all(|z| (-LIMIT..=LIMIT).contains(z))
    }
}

/// (bx - ax) × (cy - ay) - (by - ay) × (cx - ax), of points in range.
pub fn cross(a: Point, b: Point, c: Point) -> i128 {
    let [ax, ay, bx, by, cx, cy] = [a.x, a.y, b.x, b.y, c.x, c.y].map(i128::from);
    (bx - ax) * (cy - ay) - (by - ay) * (cx - ax)
}

/// The orientation of three points, or number 3.
pub fn orientation(a: Point, b: Point, c: Point) -> Answer<i64> {
    if ![a, b, c].iter().all(|p| p.in_range()) {
        return Err(refusal::OUT_OF_RANGE);
    }
    Ok(i64::try_from(cross(a, b, c)).expect("an orientation fits 64 bits"))
}

/// p lies on the segment from a to b and is neither end.
pub fn is_strictly_between(a: Point, b: Point, p: Point) -> bool {
    let lies_between = |u: i64, v: i64, z: i64| u.min(v) <= z && z <= u.max(v);
    cross(a, b, p) == 0
        && p != a
        && p != b
        && lies_between(a.x, b.x, p.x)
        && lies_between(a.y, b.y, p.y)
}

/// "positive orientation, or zero and lie between the edge's ends": p is left of the edge from a to
/// b or on it.
pub fn is_beside(a: Point, b: Point, p: Point) -> bool {
    cross(a, b, p) > 0 || is_strictly_between(a, b, p)
}

/// The corners of the convex hull as indices, anticlockwise from the lowest, of these the one with
/// the smallest x. A point in line with two corners is no corner: of points on one rail the two
/// ends are the corners.
pub fn hull(points: &[Point]) -> Vec<usize> {
    let mut order: Vec<usize> = (0..points.len()).collect();
    order.sort_by_key(|&i| (points[i].y, points[i].x));
    if order.len() < 2 {
        return order;
    }
    let chain = |indices: &mut dyn Iterator<Item = usize>| {
        let mut corners: Vec<usize> = Vec::new();
        for i in indices {
            while let [.., a, b] = corners[..] {
                if cross(points[a], points[b], points[i]) > 0 {
                    break;
                }
                corners.pop();
            }
            corners.push(i);
        }
        corners.pop();
        corners
    };
    let mut corners = chain(&mut order.iter().copied());
    corners.extend(chain(&mut order.iter().rev().copied()));
    corners
}
