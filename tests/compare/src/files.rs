//! Files of both versions that are read whatever the seed: as they are saved, with each byte
//! changed, with each field changed, with a point that is refused, and as long as the other version
//! is.

use crate::entries::Comparison;
use crate::maps;
use crate::outlines::parabola;
use crate::tally::Outcome;
use reference::saved::{HEAD, VERSIONS, saved_length};
use reference::{LIMIT, Map, NO_DART, POINT_LIMIT, Point, Record};
use std::collections::BTreeSet;

/// Numbers of darts that no small map has.
const BEYOND: [usize; 4] = [NO_DART - 1, NO_DART, NO_DART + 1, 65_535];

/// Arrivals in form, and not.
const ARRIVALS: [usize; 7] = [0, 1, 2, 3, 4, 5, 255];

/// Maps that differ from one in a field, or in two that belong together.
fn changed(map: &Map) -> Vec<Map> {
    let n = map.points.len();
    let darts: Vec<usize> = (0..2 * n + 2).chain(BEYOND).collect();
    let mut maps = Vec::new();
    let mut with = |change: &dyn Fn(&mut Map)| {
        let mut other = map.clone();
        change(&mut other);
        maps.push(other);
    };
    for &dart in &darts {
        with(&|m| m.reference = dart);
    }
    for dart in 0..2 * n {
        // a link that does not come back, one that does, and none
        for &other in &darts {
            with(&|m| m.set_edge(dart, other));
        }
        for other in 0..dart {
            with(&|m| m.join(dart, other));
        }
        with(&|m| {
            let other = m.edge_link(dart);
            m.edge.remove(&dart);
            m.edge.remove(&other);
        });
    }
    for k in 0..n {
        with(&|m| {
            if !m.helpers.remove(&k) {
                m.helpers.insert(k);
            }
        });
        for arrival in ARRIVALS {
            with(&|m| m.records[k].arrival = arrival);
        }
        for &dart in &darts {
            with(&|m| m.records[k].freed[0] = dart);
            with(&|m| m.records[k].freed[1] = dart);
            with(&|m| m.records[k].freed = [dart; 2]);
        }
        with(&|m| m.records[k].freed.reverse());
        for j in 0..k {
            with(&|m| m.points[k] = m.points[j]);
            with(&|m| m.points.swap(j, k));
            with(&|m| m.records.swap(j, k));
            with(&|m| m.records[j] = m.records[k]);
        }
        let far = [LIMIT + 1, -LIMIT - 1, i64::from(i32::MAX), i64::from(i32::MIN)];
        for z in far.into_iter().chain([LIMIT, 0, 1, 2]) {
            with(&|m| m.points[k].x = z);
            with(&|m| m.points[k].y = z);
        }
        // 7 is looked at before 1
        with(&|m| {
            m.reference = 1;
            m.records[k].arrival = 4;
        });
    }
    maps
}

/// Maps of a survey with a point at each place that is refused, an equal one or one out of range,
/// as if it were let in; and with a last point that is refused and its place as one without a point
/// is.
fn with_refused(survey: &[Point]) -> Vec<Map> {
    let far = LIMIT + 1;
    let wide = [far, -far, i64::from(i32::MAX), i64::from(i32::MIN)];
    let beyond = wide.into_iter().flat_map(|z| [Point::new(z, 0), Point::new(0, z)]);
    let refused: Vec<Point> = survey.iter().copied().chain(beyond).collect();
    let mut maps = Vec::new();
    for place in 0..=survey.len() {
        let (before, after) = survey.split_at(place);
        maps.extend(refused.iter().map(|&p| maps::let_in(&[before, &[p], after].concat())));
    }
    for &p in &refused {
        let mut map = maps::built(survey);
        map.points.push(p);
        map.records.push(Record { arrival: 0, freed: [NO_DART; 2] });
        maps.push(map);
    }
    maps
}

/// A file with each byte changed in turn, cut off there, and with a byte more.
fn neighbours(file: &[u8]) -> Vec<Vec<u8>> {
    let mut near = Vec::new();
    for place in 0..file.len() {
        for byte in [0, 1, 2, 3, 4, 5, 128, 255].map(|change| file[place] ^ change) {
            let mut other = file.to_vec();
            other[place] = byte;
            near.push(other);
        }
        near.push(file[..place].to_vec());
    }
    near.extend([0, 1, 255].map(|byte| [file, &[byte]].concat()));
    near
}

/// A map's file of one version with the version byte, the length field and the bytes of that
/// version or of the other. Bytes that the other has more are its own, or zeros.
fn mistaken(map: &Map) -> Vec<Vec<u8>> {
    let n = map.points.len();
    let lengths = VERSIONS.map(|version| saved_length(version, n));
    let [former, latter] = VERSIONS.map(|version| map.save_in(version));
    let zeros = vec![0; latter.len() - former.len()];
    let bodies = [former.clone(), latter, [former, zeros].concat()];
    let mut files = Vec::new();
    for body in bodies {
        for version in [0, 1, 2, 3] {
            for length in lengths {
                let mut file = body.clone();
                file[4] = version;
                maps::set_length(&mut file, length);
                files.push(file);
            }
        }
    }
    files
}

/// Files of 18 points in version 1 and of 13 in version 2 have the same length: each as it is, and
/// with the version and the number of points of the other.
fn as_long_as_each_other(points: &[Point]) -> Vec<Vec<u8>> {
    let map = |n: usize| maps::built(&points[..n]);
    let files = [map(18).save_in(1), map(13).save_in(2)];
    let heads = [[1, 0, 18], [2, 0, 13]];
    assert_eq!(files[0].len(), files[1].len());
    let with_head = |file: &Vec<u8>| heads.map(|head| [&file[..4], &head, &file[7..]].concat());
    files.iter().flat_map(with_head).collect()
}

/// Surveys with chains and without: the session from no point on, marks along a rail, three edges
/// that a point sees at once, points that each hide the one before.
fn surveys() -> Vec<Vec<Point>> {
    let session = [(0, 0), (4, 0), (1, 3), (5, 4), (2, 1), (6, 7)];
    let rail = [(0, 0), (2, 0), (4, 0), (-2, 0), (1, 0)];
    let three = [(0, 0), (4, 0), (3, 1), (1, 1), (2, 9)];
    let hiding = [(0, 0), (4, 0), (2, 1), (2, 2), (2, 3), (9, 9)];
    let mut surveys: Vec<Vec<(i64, i64)>> = (0..6).map(|n| session[..n].into()).collect();
    surveys.extend([rail[..3].into(), rail.into(), three.into(), hiding.into(), session.into()]);
    let points = |survey: Vec<(i64, i64)>| survey.into_iter().map(|(x, y)| Point::new(x, y));
    surveys.into_iter().map(|survey| points(survey).collect()).collect()
}

/// As many points as there may be: all corners, all on a rail, all but three inside.
fn full() -> [Vec<Point>; 3] {
    let most = POINT_LIMIT as i64;
    let rail = (0..most).map(|i| Point::new(if i % 4 < 2 { i } else { -i }, 0)).collect();
    let corners = [(0, 0), (3 * most, 0), (0, 3 * most)].map(|(x, y)| Point::new(x, y));
    let inner = (1..most - 2).map(|i| Point::new(i, i * 7 % most + 1));
    [parabola(POINT_LIMIT), rail, corners.into_iter().chain(inner).collect()]
}

/// Full maps with a field of the last point changed, or the reference.
fn changed_at_the_end(map: &Map) -> Vec<Map> {
    let last = map.points.len() - 1;
    let changes: [fn(&mut Map, usize); 12] = [
        |_, _| (),
        |m, k| m.records[k].arrival = 1,
        |m, k| m.records[k].arrival = 4,
        |m, k| m.records[k].freed[0] ^= 1,
        |m, k| m.records[k].freed[1] ^= 1,
        |m, k| m.records[k].freed = [NO_DART + 1; 2],
        |m, k| m.points[k] = m.points[0],
        |m, k| m.points[k].x = LIMIT + 1,
        |m, k| m.set_edge(2 * k + 1, 0),
        |m, k| m.set_edge(2 * k + 1, 65_535),
        |m, _| m.reference ^= 2,
        |m, _| m.reference = NO_DART,
    ];
    changes
        .map(|change| {
            let mut other = map.clone();
            change(&mut other, last);
            other
        })
        .into()
}

impl Comparison {
    /// Checks and loads a file, in the archive and by the crate.
    fn loads(&mut self, file: &[u8]) -> Outcome {
        let map = Map::load(file);
        self.check(file, &map)?;
        self.load(file, &map)?;
        self.wrapper_load(file, &map)
    }

    /// What is loaded whatever the seed. One file in eight also goes through every function that
    /// reads a map.
    pub fn fixed_files(&mut self) -> Outcome {
        for survey in surveys() {
            let map = maps::built(&survey);
            let mut files: BTreeSet<Vec<u8>> = mistaken(&map).into_iter().collect();
            for version in VERSIONS {
                let file = map.save_in(version);
                self.wrapper(&file)?;
                self.file(&file, 8)?;
                files.extend(neighbours(&file));
                let others = [changed(&map), with_refused(&survey)].concat();
                files.extend(others.iter().map(|other| other.save_in(version)));
            }
            for (i, file) in files.iter().enumerate() {
                self.loads(file)?;
                if i % 8 == 0 {
                    self.file(file, 1)?;
                }
            }
        }
        for version in 0..=255 {
            for mut file in VERSIONS.map(|version| maps::built(&parabola(3)).save_in(version)) {
                file[4] = version;
                self.loads(&file)?;
            }
        }
        for points in [parabola(18), parabola(18).into_iter().rev().collect()] {
            for file in as_long_as_each_other(&points) {
                self.loads(&file)?;
                self.file(&file, 1)?;
            }
        }
        self.is_on_small_stacks = true;
        for points in full() {
            for other in changed_at_the_end(&maps::built(&points)) {
                for file in VERSIONS.map(|version| other.save_in(version)) {
                    self.loads(&file)?;
                }
            }
        }
        for version in [0, 1, 2, 3] {
            for n in [POINT_LIMIT + 1, 65_535] {
                self.file(&maps::oversized(version, n), 1)?;
            }
        }
        self.is_on_small_stacks = false;
        self.file(&[0; HEAD], 1)
    }
}
