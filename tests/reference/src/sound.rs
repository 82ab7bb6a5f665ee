//! "A sound map is from here on one that its points, offered in order, build, records included."

use crate::{Answer, Map, Point};

/// The map that these points build, offered in order to the empty map, or the first refusal met.
pub fn built(points: &[Point]) -> Answer<Map> {
    let mut map = Map::empty();
    for &p in points {
        map.offer(p)?;
    }
    Ok(map)
}

/// Whether its points build a map: all of them are accepted, and all fields are the same.
pub fn is_sound(m: &Map) -> bool {
    built(&m.points).is_ok_and(|built| built == *m)
}
