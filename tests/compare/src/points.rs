//! Drawn points: surveys of several shapes, and query points for a map.

use crate::draw::Draw;
use reference::{DIGIT_LIMIT, LIMIT, Map, Point};

/// The end of document 01's range: what lies beyond it is served since request 105, and request 110
/// keeps it for the lesson on rounding.
pub const FORMER_LIMIT: i64 = 1_000_000;

/// Coordinates at the ends of the range, as it is and as it was, of the digits and of the types,
/// where arithmetic goes wrong.
pub fn ends() -> Vec<i64> {
    let near = |z: i64| [z.saturating_sub(1), z, z.saturating_add(1)];
    let one_digit_too_many = 10i64.pow(DIGIT_LIMIT);
    [
        i64::MIN,
        i64::MAX,
        i64::from(i32::MIN),
        i64::from(i32::MAX),
        1 << 32,
        1 << 30,
        -one_digit_too_many,
        one_digit_too_many,
        -LIMIT,
        LIMIT,
        -FORMER_LIMIT,
        FORMER_LIMIT,
        0,
    ]
    .into_iter()
    .flat_map(near)
    .collect()
}

pub fn any_coordinate(draw: &mut Draw) -> i64 {
    match draw.below(4) {
        0 => draw.pick(&ends()),
        1 => {
            let limit = draw.pick(&[FORMER_LIMIT, LIMIT]);
            draw.between(-limit, limit)
        }
        2 => draw.between(-20, 20),
        _ => draw.word() as i64 >> draw.below(64),
    }
}

pub fn any_point(draw: &mut Draw) -> Point {
    Point::new(any_coordinate(draw), any_coordinate(draw))
}

/// A survey of so many offers, some of which will be refused. Those that reach the ends of a range
/// reach those of the range as it is or as it was.
pub fn survey(draw: &mut Draw, offers: usize) -> Vec<Point> {
    let limit = draw.pick(&[FORMER_LIMIT, LIMIT]);
    let far =
        |draw: &mut Draw| Point::new(draw.between(-limit, limit), draw.between(-limit, limit));
    match draw.below(10) {
        0 => (0..offers).map(|_| far(draw)).collect(),
        1 => grid(draw, offers),
        2 => convex(draw, offers),
        3 => collinear(draw, offers),
        4 => clustered(draw, offers),
        5 => (0..offers).map(|_| any_point(draw)).collect(),
        6 => {
            let ends = [-limit, -limit + 1, limit - 1, limit];
            (0..offers)
                .map(|_| {
                    let mut point = far(draw);
                    if draw.one_in(2) {
                        point.x = draw.pick(&ends);
                    } else {
                        point.y = draw.pick(&ends);
                    }
                    point
                })
                .collect()
        }
        7 => rail(draw, offers),
        8 => aligned(draw, offers),
        _ => spiral(draw, offers, limit),
    }
}

fn shuffle<T>(draw: &mut Draw, list: &mut [T]) {
    for i in (1..list.len()).rev() {
        list.swap(i, draw.below(i + 1));
    }
}

/// Points in convex position, in order or shuffled: a parabola, lying in one of four ways, near the
/// origin or from end to end of the range.
pub fn convex(draw: &mut Draw, offers: usize) -> Vec<Point> {
    let middle = offers as i64 / 2;
    let [flip, swap, mix, wide] = [2; 4].map(|n| draw.one_in(n));
    let most = middle.max(1);
    let (across, up) = if wide { (LIMIT / most, LIMIT / (most * most)) } else { (1, 1) };
    let mut points: Vec<Point> = (0..offers as i64)
        .map(|i| {
            let (x, y) = (across * (i - middle), up * (i - middle) * (i - middle));
            let y = if flip { -y } else { y };
            if swap { Point::new(y, x) } else { Point::new(x, y) }
        })
        .collect();
    if mix {
        shuffle(draw, &mut points);
    }
    points
}

/// Points of a grid, many of which are in line. The grid may reach the ends of the range.
fn grid(draw: &mut Draw, offers: usize) -> Vec<Point> {
    let width = draw.pick(&[1, 2, 3, 5, 10, 40, 1000]);
    let space = draw.pick(&[1, 1, 1, 7, LIMIT / width]);
    let mut coordinate = || space * draw.between(-width, width);
    (0..offers).map(|_| Point::new(coordinate(), coordinate())).collect()
}

/// Marks along one rail that is level, upright or slanted: near its start, or all the way to where
/// it leaves the range. They come in any order, from one end to the other, or from the middle on,
/// so that each is beyond an end. A few may lie beside the rail.
pub fn rail(draw: &mut Draw, offers: usize) -> Vec<Point> {
    let (across, up) =
        draw.pick(&[(1, 0), (0, 1), (-1, 0), (0, -1), (1, 1), (1, -1), (2, 3), (-999, 7)]);
    let mut start = || match draw.below(3) {
        0 => draw.between(-20, 20),
        1 => draw.between(-LIMIT, LIMIT),
        _ => draw.pick(&[-LIMIT, -LIMIT + 1, LIMIT - 1, LIMIT]),
    };
    let start = Point::new(start(), start());
    let steps_in_range = |z: i64, step: i64| match step {
        0 => i64::MAX,
        1.. => (LIMIT - z) / step,
        _ => (LIMIT + z) / -step,
    };
    let most = steps_in_range(start.x, across).min(steps_in_range(start.y, up));
    let last = if draw.one_in(2) { most } else { most.min(2 * offers as i64) };
    let mut steps: Vec<i64> = (0..offers)
        .map(|_| match draw.below(8) {
            0 => draw.pick(&[-1, 0, 1, last - 1, last, last + 1]),
            _ => draw.between(0, last),
        })
        .collect();
    match draw.below(3) {
        0 => {}
        1 => steps.sort_unstable(),
        _ => steps.sort_unstable_by_key(|step| (2 * step - last).abs()),
    }
    let beside = draw.pick(&[usize::MAX, usize::MAX, 30, 5]);
    steps
        .into_iter()
        .map(|step| {
            let mut point = Point::new(start.x + step * across, start.y + step * up);
            if draw.one_in(beside) {
                point.x += draw.between(-1, 1);
            }
            point
        })
        .collect()
}

/// Points on the lines of two earlier ones, between them or beyond: they come to lie on outline
/// edges, on the lines of these, and in line inside.
fn aligned(draw: &mut Draw, offers: usize) -> Vec<Point> {
    let (width, space) = draw.pick(&[(2, 6), (20, 60), (8, LIMIT / 8)]);
    let mut points: Vec<Point> = Vec::new();
    for _ in 0..offers {
        let mut coordinate = || space * draw.between(-width, width);
        let mut point = Point::new(coordinate(), coordinate());
        if points.len() > 2 && !draw.one_in(4) {
            let [a, b] = [0; 2].map(|_| draw.pick(&points));
            let other = on_line(draw, a, b);
            if other.in_range() {
                point = other;
            }
        }
        points.push(point);
    }
    points
}

/// Points on a few lines.
fn collinear(draw: &mut Draw, offers: usize) -> Vec<Point> {
    let lines: Vec<[i64; 4]> = (0..1 + draw.below(4))
        .map(|_| {
            let start = [draw.between(-900, 900), draw.between(-900, 900)];
            [start[0], start[1], draw.between(-30, 30), draw.between(-30, 30)]
        })
        .collect();
    (0..offers)
        .map(|_| {
            let [x, y, across, up] = draw.pick(&lines);
            let step = draw.between(-20, 20);
            Point::new(x + step * across, y + step * up)
        })
        .collect()
}

/// Points near a few centres.
fn clustered(draw: &mut Draw, offers: usize) -> Vec<Point> {
    let mut far = || draw.between(-LIMIT + 50, LIMIT - 50);
    let centres: Vec<Point> = (0..4).map(|_| Point::new(far(), far())).collect();
    (0..offers)
        .map(|_| {
            let centre = draw.pick(&centres);
            Point::new(centre.x + draw.between(-50, 50), centre.y + draw.between(-50, 50))
        })
        .collect()
}

/// Points that lie ever further out, so that nearly all become corners and hide earlier ones.
/// Most often they stay in range.
fn spiral(draw: &mut Draw, offers: usize, limit: i64) -> Vec<Point> {
    let step = draw.between(1, limit / 550);
    (0..offers as i64)
        .map(|i| {
            let width = (i + 1) * step;
            let along = draw.between(-width, width);
            match i % 4 {
                0 => Point::new(width, along),
                1 => Point::new(along, width),
                2 => Point::new(-width, along),
                _ => Point::new(along, -width),
            }
        })
        .collect()
}

/// A point that tells cases of placing and offering apart: a point of the map, on the line of two
/// of them, near one, or any.
pub fn query(draw: &mut Draw, map: &Map) -> Point {
    let corners = if draw.one_in(2) { map.corners() } else { (0..map.points.len()).collect() };
    if corners.is_empty() {
        return any_point(draw);
    }
    let i = draw.below(corners.len());
    let j = if draw.one_in(4) { draw.below(corners.len()) } else { (i + 1) % corners.len() };
    let [a, b] = [i, j].map(|i| map.points[corners[i]]);
    match draw.below(6) {
        0 => a,
        1 => Point::new(a.x + draw.between(-2, 2), a.y + draw.between(-2, 2)),
        2 => Point::new((a.x + b.x) / 2, (a.y + b.y) / 2),
        3 | 4 => on_line(draw, a, b),
        _ => any_point(draw),
    }
}

/// A point with whole coordinates on the line of two points, between them or beyond.
pub fn on_line(draw: &mut Draw, a: Point, b: Point) -> Point {
    let (mut x, mut y) = (b.x - a.x, b.y - a.y);
    let (mut divisor, mut rest) = (x.abs(), y.abs());
    while rest != 0 {
        (divisor, rest) = (rest, divisor % rest);
    }
    let parts = divisor.max(1);
    (x, y) = (x / parts, y / parts);
    let step = draw.between(-parts.min(3), 2 * parts);
    Point::new(a.x + step * x, a.y + step * y)
}
