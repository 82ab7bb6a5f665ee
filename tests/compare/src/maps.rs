//! Drawn maps and files of both versions: built by offers, linked as no offers link them, with
//! changed fields, with changed bytes.

use crate::draw::Draw;
use crate::points::{self, FORMER_LIMIT};
use reference::saved::{HEAD, VERSION, VERSIONS, point_bytes, saved_length};
use reference::{LIMIT, Map, NO_DART, POINT_LIMIT, Point, Record};
use std::ops::Range;

/// The record of a point that arrives inside.
const INSIDE: Record = Record { arrival: 2, freed: [NO_DART; 2] };

/// The map after a survey.
pub fn built(points: &[Point]) -> Map {
    let mut map = Map::empty();
    for &p in points {
        let _ = map.offer(p);
    }
    map
}

/// The map after a survey in which every point is let in that a file can hold, also one that is
/// refused: an equal one, or one out of range.
pub fn let_in(points: &[Point]) -> Map {
    let mut map = Map::empty();
    let fits = |p: &&Point| [p.x, p.y].iter().all(|&z| i32::try_from(z).is_ok());
    for &p in points.iter().filter(fits).take(POINT_LIMIT) {
        map.arrive(p);
    }
    map
}

/// The same map with its points in another order.
fn renumbered(draw: &mut Draw, map: &Map) -> Map {
    let n = map.points.len();
    let mut place: Vec<usize> = (0..n).collect();
    for i in (1..n).rev() {
        place.swap(i, draw.below(i + 1));
    }
    let dart = |d: usize| if d < 2 * n { 2 * place[d / 2] + d % 2 } else { d };
    let mut points = map.points.clone();
    let mut records = map.records.clone();
    for k in 0..n {
        points[place[k]] = map.points[k];
        records[place[k]] = Record { freed: map.records[k].freed.map(dart), ..map.records[k] };
    }
    Map {
        points,
        records,
        helpers: map.helpers.iter().map(|&k| place[k]).collect(),
        edge: map.edge.iter().map(|(&d, &e)| (dart(d), dart(e))).collect(),
        reference: dart(map.reference),
    }
}

/// A map with an outline, but most often not the one that its points build: another reference,
/// other inner chains, idle helpers, points in another order. A point more that lies inside or on an
/// edge leaves it sound.
pub fn rearranged(draw: &mut Draw, mut map: Map) -> Map {
    for _ in 0..draw.below(5) {
        let n = map.points.len();
        if n < 2 {
            return map;
        }
        match draw.below(6) {
            0 => map.reference = 2 * draw.pick(&map.corners()),
            1 => {
                map.helpers.insert(draw.below(n));
            }
            2 => {
                let own = |k: &usize| map.edge_link(2 * k) == 2 * k;
                let helper = |k: &usize| map.edge_link(2 * k + 1) == 2 * k + 1;
                let starts: Vec<usize> = map.helpers.iter().copied().filter(own).collect();
                let ends: Vec<usize> = map.helpers.iter().copied().filter(helper).collect();
                if !starts.is_empty() && !ends.is_empty() {
                    let (start, end) = (draw.pick(&starts), draw.pick(&ends));
                    map.join(2 * start, 2 * end + 1);
                }
            }
            3 => {
                let dart = draw.below(2 * n);
                if !map.corners().contains(&(dart / 2)) {
                    let other = map.edge_link(dart);
                    map.edge.remove(&dart);
                    map.edge.remove(&other);
                }
            }
            4 if n < POINT_LIMIT => {
                let [a, b, c] = [0; 3].map(|_| map.points[draw.below(n)]);
                map.points.push(Point::new((a.x + b.x + 2 * c.x) / 4, (a.y + b.y + 2 * c.y) / 4));
                map.records.push(INSIDE);
            }
            _ => map = renumbered(draw, &map),
        }
    }
    map
}

/// A map with one or two fields changed: most often not sound.
pub fn changed(draw: &mut Draw, mut map: Map) -> Map {
    for _ in 0..1 + draw.below(2) {
        let n = map.points.len();
        if n == 0 {
            map.reference = draw.pick(&[0, 1, 1023, NO_DART, NO_DART + 1, 65_535]);
            return map;
        }
        let dart = draw.below(2 * n);
        let other = draw.below(2 * n + 3);
        match draw.below(16) {
            0 => {
                let i = draw.below(n);
                let limits = [
                    LIMIT,
                    LIMIT + 1,
                    -LIMIT - 1,
                    FORMER_LIMIT + 1,
                    i64::from(i32::MIN),
                    i64::from(i32::MAX),
                    0,
                ];
                map.points[i].x = draw.pick(&limits);
            }
            1 => {
                let i = draw.below(n);
                map.points[i].y += draw.between(-3, 3);
            }
            2 => {
                let [i, j] = [0; 2].map(|_| draw.below(n));
                map.points[i] = map.points[j];
            }
            3 => {
                let [i, j] = [0; 2].map(|_| draw.below(n));
                map.points.swap(i, j);
            }
            4 => {
                if !map.helpers.remove(&(dart / 2)) {
                    map.helpers.insert(dart / 2);
                }
            }
            5 => map.set_edge(dart, other),
            6 => map.join(dart, other.min(2 * n - 1)),
            7 => map.set_edge(dart, draw.pick(&[dart, dart ^ 1, 1023, 1024, 1025, 65_535])),
            8 => map.reference = draw.pick(&[dart, dart & !1, 2 * n, 1023, NO_DART, 65_535]),
            // in line with an edge: between its ends an inner point may lie, beyond them none
            9 | 10 => {
                let i = draw.below(n);
                let a = draw.pick(&map.corners());
                let b = (map.edge_link(2 * a) / 2).min(n - 1);
                let moved = points::on_line(draw, map.points[a], map.points[b]);
                if moved.in_range() {
                    map.points[i] = moved;
                }
            }
            11 => map.records[dart / 2].arrival = draw.pick(&[0, 1, 2, 3, 4, 255]),
            12 => {
                let darts = [dart, dart ^ 1, other, 1023, NO_DART, NO_DART + 1, 65_535];
                map.records[draw.below(n)].freed[draw.below(2)] = draw.pick(&darts);
            }
            13 => map.records[dart / 2].freed.reverse(),
            14 => map.records.swap(dart / 2, draw.below(n)),
            _ => {
                let most = i64::from(i32::MAX);
                map.points.iter_mut().for_each(|p| p.x = (-p.x).min(most));
            }
        }
    }
    map
}

/// The version of a file and its number of points, where it is as long as these say.
fn shape(file: &[u8]) -> Option<(u8, usize)> {
    let [.., version, high, low] = *file.first_chunk::<7>()?;
    let n = usize::from(u16::from_be_bytes([high, low]));
    let fits = VERSIONS.contains(&version) && file.len() == saved_length(version, n);
    fits.then_some((version, n))
}

/// Where the fields of a file stand: its length, the version, the number of points, the reference,
/// the coordinates, the helpers, the links and the records, of which version 1 has none.
fn regions(version: u8, n: usize) -> [Range<usize>; 8] {
    let widths = [4, 1, 2, 2, 8 * n, n, 4 * n, (point_bytes(version) - 13) * n];
    let mut start = 0;
    widths.map(|width| {
        start += width;
        start - width..start
    })
}

/// Sets the length field of a file for so many bytes in all.
pub fn set_length(file: &mut [u8], bytes: usize) {
    if let Some(field) = file.first_chunk_mut() {
        *field = (bytes as u32).wrapping_sub(4).to_be_bytes();
    }
}

/// A file of a version as it would be in the other: by its version byte, by its length field, by its
/// bytes, or by some of these.
fn mistaken(draw: &mut Draw, file: &mut Vec<u8>, version: u8, n: usize) {
    let other = 3 - version;
    let [has_byte, has_length, has_bytes] = [2; 3].map(|n| draw.one_in(n));
    if has_byte {
        file[4] = other;
    }
    if has_length {
        set_length(file, saved_length(other, n));
    }
    if has_bytes {
        let byte = draw.pick(&[0, 1, 4]);
        file.resize(saved_length(other, n), byte);
    }
}

/// A file with changed, missing or added bytes.
pub fn damaged(draw: &mut Draw, mut file: Vec<u8>) -> Vec<u8> {
    for _ in 0..1 + draw.below(2) {
        match (draw.below(14), shape(&file)) {
            (0 | 1, _) if !file.is_empty() => {
                let place = draw.below(file.len());
                file[place] = draw.byte();
            }
            (2, _) if !file.is_empty() => {
                let place = draw.below(file.len().min(HEAD));
                file[place] = file[place].wrapping_add(draw.pick(&[1, 255, 2, 128]));
            }
            (3, _) => file.truncate(draw.below(file.len() + 1)),
            (4, _) => file.truncate(file.len().saturating_sub(1 + draw.below(19))),
            (5, _) => {
                let added = 1 + draw.below(19);
                file.extend((0..added).map(|_| draw.byte()));
            }
            (6, _) if !file.is_empty() => {
                file.remove(draw.below(file.len()));
            }
            (7, _) => file.insert(draw.below(file.len() + 1), draw.byte()),
            (8, Some(_)) => file[4] = draw.pick(&[0, 1, 2, 3, 4, 255]),
            (9, Some((version, n))) => mistaken(draw, &mut file, version, n),
            (10, Some((_, n))) if n > 0 => {
                file[HEAD + 8 * n + draw.below(n)] = draw.pick(&[0, 1, 2, 3, 128, 255]);
            }
            (11, Some((VERSION, n))) if n > 0 => {
                let arrivals = [0, 1, 2, 3, 4, 5, 128, 255];
                file[HEAD + 13 * n + 5 * draw.below(n)] = draw.pick(&arrivals);
            }
            (_, Some((version, n))) => {
                let regions = regions(version, n);
                let region = draw.pick(&regions);
                if !region.is_empty() {
                    let place = region.start + draw.below(region.len());
                    file[place] = file[place].wrapping_add(draw.pick(&[1, 255, 2, 4, 128]));
                }
            }
            _ => {}
        }
    }
    file
}

/// Files that agree with their lengths but have more than 512 points.
pub fn oversized(version: u8, n: usize) -> Vec<u8> {
    let mut file = vec![0; saved_length(version, n)];
    set_length(&mut file, saved_length(version, n));
    file[4] = version;
    file[5..7].copy_from_slice(&(n as u16).to_be_bytes());
    file
}

/// Any file, of either version: of a map, sound or changed, with points that are refused, or
/// damaged; `pool` has maps that are dear to build.
pub fn file(draw: &mut Draw, pool: &[Map]) -> Vec<u8> {
    let map = match draw.below(16) {
        0 | 1 => draw.pick(pool),
        2 => {
            let offers = draw.size(20);
            return let_in(&points::survey(draw, offers)).save_in(draw.pick(&VERSIONS));
        }
        _ => {
            let offers = draw.size(60);
            built(&points::survey(draw, offers))
        }
    };
    let version = draw.pick(&VERSIONS);
    let map = if draw.one_in(4) { rearranged(draw, map) } else { map };
    match draw.below(3) {
        0 => damaged(draw, map.save_in(version)),
        1 => changed(draw, map).save_in(version),
        _ => {
            let map = changed(draw, map);
            damaged(draw, map.save_in(version))
        }
    }
}
