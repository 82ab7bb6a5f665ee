//! Marking a claim: the points are offered one after another, and the claim is held to the listing
//! of the map that they build, begun at each of its corners.

use crate::{Answer, Map, Point, sound};

/// The map that these coordinates build, x and y in turn, or the first refusal met. An odd last
/// number names no point.
pub fn built(coordinates: &[i64]) -> Answer<Map> {
    let pairs = coordinates.chunks_exact(2);
    sound::built(&pairs.map(|pair| Point::new(pair[0], pair[1])).collect::<Vec<_>>())
}

impl Map {
    /// "the claim is the corner listing, begun at any corner": the empty one where there is none.
    pub fn has_listing(&self, claim: &[u64]) -> bool {
        let listing: Vec<u64> = self.corners().into_iter().map(|k| k as u64).collect();
        let begun_at = |i: usize| listing[i..].iter().chain(&listing[..i]);
        (0..=listing.len()).any(|i| begun_at(i).eq(claim))
    }
}

/// Whether a claim on points is right, or the first refusal met.
pub fn mark(coordinates: &[i64], claim: &[u64]) -> Answer<bool> {
    Ok(built(coordinates)?.has_listing(claim))
}
