//! Claims on points: those that are marked whatever the seed, and drawn ones.

use crate::draw::Draw;
use crate::entries::Comparison;
use crate::maps;
use crate::outlines::{lists_of, parabola, surveys};
use crate::points;
use crate::tally::Outcome;
use reference::plane::hull;
use reference::{LIMIT, Map, POINT_LIMIT, Point};
use std::collections::BTreeSet;

/// So many numbers or places are all tried, of more a few.
const MANY: usize = 12;

/// The coordinates of points, x and y in turn.
fn in_turn(points: &[Point]) -> Vec<i64> {
    points.iter().flat_map(|p| [p.x, p.y]).collect()
}

/// The corners' numbers of points that are all accepted.
fn listing(points: &[Point]) -> Vec<u64> {
    hull(points).into_iter().map(|k| k as u64).collect()
}

/// The numbers below n, or the first and the last of many.
fn some_below(n: usize) -> Vec<usize> {
    if n <= MANY { (0..n).collect() } else { vec![0, 1, n / 2, n - 2, n - 1] }
}

/// Claims on points that are all accepted: the empty one, a number that is 0 in 32 bits, and their
/// listing begun at each corner, as it is, the other way round, twice and three times round; cut
/// off, with a corner left out or exchanged with another, and with a number put in or in place of
/// another: of a point, of none, and of a corner in 32 bits.
fn claims(points: &[Point]) -> Vec<Vec<u64>> {
    let listing = listing(points);
    let beyond = [0, 1, 1 << 32, u64::MAX - points.len() as u64];
    let mut numbers: Vec<u64> = some_below(points.len()).into_iter().map(|k| k as u64).collect();
    numbers.extend(beyond.map(|more| points.len() as u64 + more));
    numbers.extend(listing.first().map(|corner| corner + (1 << 32)));
    let mut claims = vec![vec![], vec![1 << 32]];
    for place in some_below(listing.len() + 1) {
        let (last, first) = listing.split_at(place);
        let turned = [first, last].concat();
        let backwards = turned.iter().rev().copied().collect();
        claims.extend([turned.clone(), backwards, turned.repeat(2), turned.repeat(3)]);
        claims.extend([first.to_vec(), last.to_vec()]);
        for &number in &numbers {
            claims.push([last, &[number], first].concat());
        }
        let [corner, others @ ..] = first else {
            continue;
        };
        claims.push([last, others].concat());
        for &number in numbers.iter().chain([&(corner + (1 << 32))]) {
            claims.push([last, &[number], others].concat());
        }
        for other in some_below(listing.len()) {
            let mut exchanged = listing.clone();
            exchanged.swap(place, other);
            claims.push(exchanged);
        }
    }
    claims
}

/// Lists of points, x and y in turn, that are refused with 2, 3 or 4, some where two of these apply,
/// and lists at the ends of the range, of which some are served.
fn refused() -> Vec<Vec<i64>> {
    let far = Point::new(0, LIMIT + 1);
    let first = Point::new(0, 0);
    let with = |n: usize, place: usize, p: Point| {
        let mut points = parabola(n);
        points[place] = p;
        points
    };
    let mut lists = vec![
        vec![far],
        vec![far, far],
        vec![first, first],
        vec![first, far, first],
        vec![first, first, far],
        vec![first, far, first, far],
        parabola(POINT_LIMIT + 1),
        parabola(600),
        parabola(65_537),
        with(600, 3, Point::new(1, 1)),
        with(600, 3, far),
        [with(600, 3, far), vec![first; 3]].concat(),
    ];
    for p in [first, far] {
        for n in [POINT_LIMIT - 1, POINT_LIMIT] {
            lists.push(with(n, n - 1, p));
        }
        for place in [POINT_LIMIT, POINT_LIMIT + 1, 599] {
            lists.push(with(600, place, p));
        }
        lists.push(with(POINT_LIMIT + 1, POINT_LIMIT, p));
    }
    for end in points::ends() {
        for p in [Point::new(end, 0), Point::new(0, end)] {
            let near = [Point::new(0, 3), Point::new(2, 1)];
            lists.extend([vec![p], vec![p, near[0]], vec![near[0], near[1], p], vec![p, p]]);
        }
    }
    lists.iter().map(|points| in_turn(points)).collect()
}

impl Comparison {
    /// What is marked whatever the seed, into lists of no, one and two elements: every claim of the
    /// numbers of up to three points of a grid, with at most one number more than there are points;
    /// claims on the whole grid and on other surveys, also with a number after the last point;
    /// claims on refused points.
    pub fn fixed_marks(&mut self) -> Outcome {
        self.is_lent_every_length = true;
        let grid: Vec<Point> = (0..9).map(|i| Point::new(i % 3, i / 3)).collect();
        for n in 0..=3 {
            let numbers: Vec<u64> = (0..n as u64).collect();
            let claims: Vec<_> = (0..=n + 1).flat_map(|m| lists_of(&numbers, m)).collect();
            for points in lists_of(&grid, n) {
                self.marks(&in_turn(&points), &claims)?;
            }
        }
        for survey in surveys().into_iter().chain(thin()).chain([grid, mixed()]) {
            let points = maps::built(&survey).points;
            let claims = claims(&points);
            let few = &claims[..4];
            self.marks(&in_turn(&points), &claims)?;
            for claim in few {
                self.wrapper_mark(&in_turn(&points), claim)?;
            }
            self.is_on_small_stacks = true;
            for last in [7, i64::MAX] {
                self.marks(&[in_turn(&points), vec![last]].concat(), few)?;
            }
            self.is_on_small_stacks = false;
        }
        let full = (0..POINT_LIMIT as u64).collect();
        let claims = [vec![], vec![0], vec![0, 1], vec![u64::MAX], full];
        for coordinates in refused() {
            self.marks(&coordinates, &claims)?;
            self.wrapper_mark(&coordinates, &claims[2])?;
        }
        self.is_lent_every_length = false;
        Ok(())
    }
}

/// Triangles from end to end of the range, twice whose area is 1: the last point lies right of the
/// edge from the first to the second, and left of it.
fn thin() -> [Vec<Point>; 2] {
    let points = [(-LIMIT, -LIMIT), (LIMIT, LIMIT - 1), (LIMIT - 1, LIMIT - 2)];
    let exchanged = points.map(|(x, y)| (y, x));
    [points, exchanged].map(|points| points.map(|(x, y)| Point::new(x, y)).into())
}

/// As many corners as there may be, and none is next to the one before it.
fn mixed() -> Vec<Point> {
    let corners = parabola(POINT_LIMIT);
    (0..POINT_LIMIT).map(|i| corners[i * 37 % POINT_LIMIT]).collect()
}

/// Points, x and y in turn, and a claim on them: most often all points are accepted, and the claim
/// is their listing begun at any corner, or near it; `pool` has maps that are dear to build.
pub fn drawn(draw: &mut Draw, pool: &[Map]) -> (Vec<i64>, Vec<u64>) {
    let mut points = match draw.below(2000) {
        0 => {
            let offers = draw.pick(&[POINT_LIMIT - 1, POINT_LIMIT, POINT_LIMIT + 1, 600]);
            points::convex(draw, offers)
        }
        1..4 => draw.pick(pool).points,
        _ => {
            let offers = draw.size(30);
            points::survey(draw, offers)
        }
    };
    let mut seen = BTreeSet::new();
    points.retain(|&p| p.in_range() && seen.insert(p));
    let mut claim = listing(&points);
    if !claim.is_empty() {
        let start = draw.below(claim.len());
        claim.rotate_left(start);
        if draw.one_in(2) {
            rearrange(draw, points.len(), &mut claim);
        }
    }
    if draw.one_in(8) {
        let other = points::any_point(draw);
        let again = if points.is_empty() { other } else { draw.pick(&points) };
        points.insert(draw.below(points.len() + 1), draw.pick(&[other, again]));
    }
    let mut coordinates = in_turn(&points);
    if draw.one_in(4) {
        coordinates.push(points::any_coordinate(draw));
    }
    (coordinates, claim)
}

/// A claim on so many points, the other way round, twice round, cut off, or with a number left out,
/// put in, changed or exchanged with another.
fn rearrange(draw: &mut Draw, points: usize, claim: &mut Vec<u64>) {
    let n = claim.len();
    let i = draw.below(n);
    let any = draw.below(points + 2) as u64;
    let number = draw.pick(&[any, any, any, claim[i] + (1 << 32), u64::MAX]);
    match draw.below(8) {
        0 => claim.reverse(),
        1 => claim.extend(claim.clone()),
        2 => claim.truncate(i),
        3 => drop(claim.remove(i)),
        4 => claim.insert(draw.below(n + 1), number),
        5 => claim.swap(i, draw.below(n)),
        6 => claim[i] += 1 << 32,
        _ => claim[i] = number,
    }
}
