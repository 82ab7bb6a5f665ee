//! Offering a point: "Orientation and arrival".

use crate::plane::{cross, hull, is_beside};
use crate::{Answer, Map, NO_DART, POINT_LIMIT, Point, Record, refusal};

/// What an accepted point does.
#[derive(Clone, Copy, Debug, PartialEq, Eq)]
pub enum Arrival {
    First,
    Second,
    Inside,
    Outside { left: usize, right: usize, visible: usize },
}

impl Arrival {
    /// The number that stands for it in a record.
    pub fn number(self) -> usize {
        match self {
            Arrival::First => 0,
            Arrival::Second => 1,
            Arrival::Inside => 2,
            Arrival::Outside { .. } => 3,
        }
    }
}

fn squared_distance(p: Point, q: Point) -> i128 {
    let [across, up] = [q.x - p.x, q.y - p.y].map(i128::from);
    across * across + up * up
}

impl Map {
    /// Whether a sound map accepts a point: if not, the lowest number that applies.
    fn admits(&self, p: Point) -> Answer<()> {
        if self.points.len() == POINT_LIMIT {
            return Err(refusal::FULL);
        }
        if !p.in_range() {
            return Err(refusal::OUT_OF_RANGE);
        }
        if self.points.contains(&p) {
            return Err(refusal::REPEATED);
        }
        Ok(())
    }

    /// Offers a point to a sound map. A refused point leaves the map as it was.
    pub fn offer(&mut self, p: Point) -> Answer<Arrival> {
        self.admits(p)?;
        Ok(self.arrive(p))
    }

    /// What a point does that is let in, whether it may be or not: a wrong map for tests to refuse.
    pub fn arrive(&mut self, p: Point) -> Arrival {
        let k = self.points.len();
        let arrival = match k {
            0 => Arrival::First,
            1 => Arrival::Second,
            _ => self.later(p),
        };
        let mut freed = [NO_DART; 2];
        self.points.push(p);
        match arrival {
            Arrival::First | Arrival::Inside => {}
            Arrival::Second => {
                self.helpers.extend([0, 1]);
                self.join(0, 3);
                self.join(2, 1);
                self.reference = 2;
            }
            Arrival::Outside { left, right, .. } => {
                let (l, r) = (2 * left, 2 * right + 1);
                let partners = [l, r].map(|dart| self.edge_link(dart));
                // "1,024 where there was none or where the partners are l and r"
                if partners != [r, l] {
                    freed = partners;
                }
                for dart in [l, r].into_iter().chain(partners) {
                    self.edge.remove(&dart);
                }
                self.join(l, 2 * k + 1);
                self.join(2 * k, r);
                self.helpers.insert(k);
                self.reference = 2 * k;
            }
        }
        self.records.push(Record { arrival: arrival.number(), freed });
        arrival
    }

    /// The arrival of a point after two or more: the outline is the hull of the points, and an edge
    /// is visible unless the point is left of it or on it.
    fn later(&self, p: Point) -> Arrival {
        let corners = hull(&self.points);
        let h = corners.len();
        let at = |i: usize| self.points[corners[i % h]];
        let is_visible = |i: usize| !is_beside(at(i), at(i + 1), p);
        let starts: Vec<usize> = (0..h).filter(|&i| is_visible(i)).collect();
        let visible = starts.len();
        if visible == 0 {
            return Arrival::Inside;
        }
        // in line beyond one of two corners
        if h == 2 && cross(at(0), at(1), p) == 0 {
            let distance = |k: &&usize| squared_distance(self.points[**k], p);
            let farther = *corners.iter().max_by_key(distance).expect("two corners");
            return Arrival::Outside { left: farther, right: farther, visible };
        }
        let first = starts.iter().find(|&&i| !is_visible(i + h - 1));
        let last = starts.iter().find(|&&i| !is_visible(i + 1));
        let [first, last] = [first, last].map(|start| start.expect("some edge is not visible"));
        Arrival::Outside { left: corners[*first], right: corners[(last + 1) % h], visible }
    }
}
