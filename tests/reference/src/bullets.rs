//! Document 01's "A sound map", one function for each sentence. Since request 107 a map is sound
//! where its points build it; every such map keeps these sentences.

use crate::orbits::Partition;
use crate::plane::is_beside;
use crate::{DART_LIMIT, Map, NO_DART, POINT_LIMIT};
use std::collections::HashSet;

/// "Points are at most 512, in range, and no two are equal." A place without a point holds nothing
/// here.
fn points_fit(m: &Map) -> bool {
    let distinct: HashSet<_> = m.points.iter().collect();
    m.points.len() <= POINT_LIMIT
        && m.points.iter().all(|p| p.in_range())
        && distinct.len() == m.points.len()
}

/// "Dart 2k is present for every point k. A helper is present or not. No other dart is present."
fn darts_owned(m: &Map) -> bool {
    m.helpers.iter().all(|&k| k < m.points.len())
}

/// "The links of an absent dart are that dart."
fn absent_fixed(m: &Map) -> bool {
    m.edge.keys().all(|&d| m.is_present(d))
}

/// "Links of present darts are present darts"
fn links_present(m: &Map) -> bool {
    m.darts().iter().all(|&d| m.is_present(m.edge_link(d)) && m.is_present(m.point_link(d)))
}

/// "and either link taken twice comes back."
fn links_undo(m: &Map) -> bool {
    m.darts()
        .iter()
        .all(|&d| m.edge_link(m.edge_link(d)) == d && m.point_link(m.point_link(d)) == d)
}

/// "The edge link takes an own dart to a helper of another point or fixes it, and a helper to an
/// own dart of another point or fixes it."
fn edges_cross(m: &Map) -> bool {
    m.darts().iter().all(|&d| {
        let e = m.edge_link(d);
        e == d || (e % 2 != d % 2 && e / 2 != d / 2)
    })
}

/// "A point without helper has a fixed own dart."
fn lone_fixed(m: &Map) -> bool {
    (0..m.points.len()).all(|k| m.helpers.contains(&k) || m.edge_link(2 * k) == 2 * k)
}

/// The closed walks: the parts in which neither link fixes a dart, each as its darts.
fn closed_walks(m: &Map) -> Vec<Vec<usize>> {
    let is_closed =
        |part: &Vec<usize>| (part.iter()).all(|&d| m.edge_link(d) != d && m.point_link(d) != d);
    Partition::into_parts(m).into_classes().into_iter().filter(is_closed).collect()
}

/// "With two or more points, just one closed walk of edge and point links exists, the outline."
fn the_outline(m: &Map) -> Option<Vec<usize>> {
    let mut walks = closed_walks(m);
    if walks.len() == 1 { walks.pop() } else { None }
}

/// "The reference is an own dart on it."
fn reference_on_outline(m: &Map, outline: &[usize]) -> bool {
    m.reference < DART_LIMIT && m.reference.is_multiple_of(2) && outline.contains(&m.reference)
}

/// "Its edge from corner a to corner b links a's own dart with b's helper." The "other points now
/// have positive orientation, or zero and lie between the edge's ends."
fn others_beside(m: &Map, outline: &[usize]) -> bool {
    outline.iter().filter(|&&d| d % 2 == 0).all(|&d| {
        let (a, b) = (d / 2, m.edge_link(d) / 2);
        (0..m.points.len())
            .all(|c| c == a || c == b || is_beside(m.points[a], m.points[b], m.points[c]))
    })
}

/// "With fewer points there is no helper and no reference."
fn no_outline(m: &Map) -> bool {
    m.helpers.is_empty() && m.reference == NO_DART
}

/// All of it.
pub fn hold(m: &Map) -> bool {
    let linked = points_fit(m)
        && darts_owned(m)
        && absent_fixed(m)
        && links_present(m)
        && links_undo(m)
        && edges_cross(m)
        && lone_fixed(m);
    linked
        && if m.points.len() < 2 {
            no_outline(m)
        } else {
            the_outline(m).is_some_and(|outline| {
                reference_on_outline(m, &outline) && others_beside(m, &outline)
            })
        }
}
