//! The texts and the maps that are measured.

use reach::COORDINATE_LIMIT;

/// Points in convex position: each becomes a corner.
pub fn convex(points: usize) -> Vec<(i64, i64)> {
    let middle = points as i64 / 2;
    (0..points as i64).map(|i| (i - middle, (i - middle) * (i - middle))).collect()
}

/// Points over the whole range, as a small generator of numbers draws them: few become corners.
pub fn random(points: usize) -> Vec<(i64, i64)> {
    let mut state = 1u64;
    let mut coordinate = || {
        state =
            state.wrapping_mul(6_364_136_223_846_793_005).wrapping_add(1_442_695_040_888_963_407);
        ((state >> 32) as i64 * (2 * COORDINATE_LIMIT + 1) >> 32) - COORDINATE_LIMIT
    };
    (0..points).map(|_| (coordinate(), coordinate())).collect()
}

pub fn text(points: &[(i64, i64)]) -> Vec<u8> {
    points.iter().flat_map(|(x, y)| format!("{x} {y}\n").into_bytes()).collect()
}

/// The texts whose reports are measured.
pub fn texts() -> Vec<(&'static str, Vec<u8>)> {
    let repeated = b"0 0\n".repeat(16_384);
    let mut filled = text(&convex(500));
    filled.extend(b"0 0\n".repeat(14_000));
    let before_the_last: Vec<_> = convex(511).into_iter().filter(|&p| p != (0, 0)).collect();
    let mut slow = text(&before_the_last);
    slow.extend(b"0 0\n".repeat(1 + 15_000));
    vec![
        ("512 convex points", text(&convex(512))),
        ("512 random points", text(&random(512))),
        ("65,536 blank lines", vec![b'\n'; 65_536]),
        ("16,384 repeats of a point", repeated),
        ("500 convex points, 14,000 repeats", filled),
        ("511 convex points, 15,000 repeats of the last", slow),
    ]
}

/// The map after these points, none of which is refused.
fn map(points: &[(i64, i64)]) -> reach::Map {
    let mut map = reach::Map::new();
    for &(x, y) in points {
        map.offer(reach::Point { x, y }).expect("a point that is accepted");
    }
    map
}

/// Its file.
pub fn file(points: &[(i64, i64)]) -> Vec<u8> {
    map(points).into_bytes()
}

/// A file of version 2 in version 1.
pub fn in_version_1(file: &[u8]) -> Vec<u8> {
    let bytes = 9 + (file.len() - 9) / 18 * 13;
    let length = (bytes as u32 - 4).to_be_bytes();
    [&length[..], &[1], &file[5..bytes]].concat()
}

/// A file of version 2 whose last record has another dart.
pub fn with_wrong_record(file: &[u8]) -> Vec<u8> {
    let mut wrong = file.to_vec();
    *wrong.last_mut().expect("a file has bytes") ^= 1;
    wrong
}

/// The text of its outline.
pub fn outline(points: &[(i64, i64)]) -> Vec<u8> {
    map(points).outline_text().into_bytes()
}

/// These points, x and y in turn, and a right claim on them.
pub fn claim(points: &[(i64, i64)]) -> (Vec<i64>, Vec<u64>) {
    let corners = map(points).corners().into_iter().map(|k| k as u64).collect();
    (points.iter().flat_map(|&(x, y)| [x, y]).collect(), corners)
}
