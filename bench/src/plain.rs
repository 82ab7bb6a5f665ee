//! The engine's functions in plain Rust written for speed: the yardstick.
//!
//! The boundary is the engine's: saved bytes in, numbers and lent lists out, soundness looked at in
//! every call. Points and links stand in arrays, products are 64-bit, and the loops over points
//! have no branches: the compiler vectorises those that compare coordinates, while products are
//! taken one by one. As in the engine, the points of a file are offered one after another, and the
//! map that they build is held to the file; a later arrival looks at every outline edge once, going
//! from own dart to own dart. A map grows in place, and it is compared with the file where that
//! stands. Other than in the engine, a new point is compared with all points, four at a time. The
//! positions of an outline's text are read from its front on, and its corners are tested by their
//! turns, as in the engine. An area is the sum over a fan of triangles, as it is there, and a claim
//! is tested edge by edge against every point, without a map.

const POINT_LIMIT: usize = 512;
const DART_LIMIT: usize = 2 * POINT_LIMIT;
const NO_DART: usize = DART_LIMIT;
const TEXT_LIMIT: usize = 65_536;
const LIMIT: i64 = 1_000_000_000;
const DIGIT_LIMIT: usize = 10;
const HEAD: usize = 9;

const NOT_SOUND: u32 = 1;
const FULL: u32 = 2;
const OUT_OF_RANGE: u32 = 3;
const REPEATED: u32 = 4;
const NO_SUCH_DART: u32 = 6;
const BAD_FILE: u32 = 7;
const BAD_LINE: u32 = 8;
const LONG_TEXT: u32 = 9;
const SHORT_LIST: u32 = 10;
const BAD_OUTLINE: u32 = 11;
const NO_SURVEY: u32 = 12;

/// Version 2 is written, version 1 read too.
const VERSION: u8 = 2;

/// An arrival, 0 to 3, and the two freed darts.
type Record = (u8, [u16; 2]);

const NONE_FREED: [u16; 2] = [NO_DART as u16; 2];

struct Map {
    xs: [i32; POINT_LIMIT],
    ys: [i32; POINT_LIMIT],
    helpers: [bool; POINT_LIMIT],
    edge: [u16; DART_LIMIT],
    records: [Record; POINT_LIMIT],
    count: usize,
    reference: usize,
}

enum Arrival {
    First,
    Second,
    Inside,
    Outside(usize, usize, usize),
}

fn in_range(z: i64) -> bool {
    (-LIMIT..=LIMIT).contains(&z)
}

/// The product of two coordinates, or of two differences of coordinates, which fit 32 bits too.
fn product(a: i32, b: i32) -> i64 {
    i64::from(a) * i64::from(b)
}

/// The determinant with rows (x, y, 1), expanded along its last column, as the engine works it out.
fn determinant([ax, ay]: [i32; 2], [bx, by]: [i32; 2], [cx, cy]: [i32; 2]) -> i64 {
    let without_a = product(bx, cy) - product(by, cx);
    let without_b = product(ax, cy) - product(ay, cx);
    let without_c = product(ax, by) - product(ay, bx);
    without_a - without_b + without_c
}

/// Whether a and b lie on opposite sides of p, which is in line with them: it is strictly between.
fn are_opposite([ax, ay]: [i32; 2], [bx, by]: [i32; 2], [px, py]: [i32; 2]) -> bool {
    product(ax - px, bx - px) + product(ay - py, by - py) < 0
}

/// Whether p is left of the edge from a to b, or on it between its ends.
fn is_beside(a: [i32; 2], b: [i32; 2], p: [i32; 2]) -> bool {
    match determinant(a, b, p) {
        0 => are_opposite(a, b, p),
        side => side > 0,
    }
}

/// Whether all points but a and b are left of the edge from a to b or on it. Most often all are
/// strictly left: with its ends exchanged, so many determinants are negative. The sign bit is added
/// up, since a comparison of 64-bit numbers costs more. As a call of its own it takes half as long
/// again.
#[inline(always)]
fn is_supporting_edge(xs: &[i32], ys: &[i32], a: usize, b: usize) -> bool {
    let (start, end) = ([xs[a], ys[a]], [xs[b], ys[b]]);
    let others = xs.len() - 1 - usize::from(a != b);
    let left = |(&x, &y): (&i32, &i32)| determinant(end, start, [x, y]) as u64 >> 63;
    let beside = |&(&x, &y): &(&i32, &i32)| is_beside(start, end, [x, y]);
    xs.iter().zip(ys).map(left).sum::<u64>() == others as u64
        || xs.iter().zip(ys).filter(beside).count() == others
}

/// Whether a point is accepted after these, or why it is refused.
fn admission(xs: &[i32], ys: &[i32], x: i64, y: i64) -> u32 {
    if xs.len() == POINT_LIMIT {
        return FULL;
    }
    if !in_range(x) || !in_range(y) {
        return OUT_OF_RANGE;
    }
    let (x, y) = (x as i32, y as i32);
    let is_at = |(&px, &py): (&i32, &i32)| (px ^ x) | (py ^ y) == 0;
    if xs.iter().zip(ys).map(is_at).fold(false, |is_repeated, is_at| is_repeated | is_at) {
        return REPEATED;
    }
    0
}

/// A record as its five bytes.
fn group_of((arrival, [left, right]): Record) -> [u8; 5] {
    let ([a, b], [c, d]) = (left.to_be_bytes(), right.to_be_bytes());
    [arrival, a, b, c, d]
}

/// What stands in a file that is in form, of either version.
struct Fields<'a> {
    reference: usize,
    points: &'a [[u8; 8]],
    helpers: &'a [u8],
    edges: &'a [[u8; 2]],
    /// Version 1 has none.
    records: &'a [[u8; 5]],
}

impl<'a> Fields<'a> {
    fn of(file: &'a [u8]) -> Option<Self> {
        let (head, rest) = file.split_first_chunk::<HEAD>()?;
        let length = u32::from_be_bytes([head[0], head[1], head[2], head[3]]) as usize;
        let count = usize::from(u16::from_be_bytes([head[5], head[6]]));
        let point_bytes = match head[4] {
            1 => 13,
            VERSION => 18,
            _ => return None,
        };
        let fits = rest.len() == point_bytes * count && length + 4 == file.len();
        if !fits || count > POINT_LIMIT {
            return None;
        }
        let (points, rest) = rest.split_at(8 * count);
        let (helpers, rest) = rest.split_at(count);
        let (edges, records) = rest.split_at(4 * count);
        let records = records.as_chunks::<5>().0;
        let all_helpers = helpers.iter().fold(0, |all, helper| all | helper);
        let all_arrivals = records.iter().fold(0, |all, group| all | group[0]);
        if all_helpers > 1 || all_arrivals > 3 {
            return None;
        }
        let reference = usize::from(u16::from_be_bytes([head[7], head[8]]));
        let (points, edges) = (points.as_chunks().0, edges.as_chunks().0);
        Some(Fields { reference, points, helpers, edges, records })
    }

    /// Whether a map is the one that stands here, which has its points.
    fn are_of(&self, map: &Map) -> bool {
        let has_helper = |(byte, helper): (&u8, &bool)| *byte == u8::from(*helper);
        let has_link = |(bytes, link): (&[u8; 2], &u16)| *bytes == link.to_be_bytes();
        let has_record = |(group, record): (&[u8; 5], &Record)| *group == group_of(*record);
        self.reference == map.reference
            && self.helpers.iter().zip(&map.helpers).all(has_helper)
            && self.edges.iter().zip(&map.edge).all(has_link)
            && self.records.iter().zip(&map.records).all(has_record)
    }
}

/// What the links of a map lead to, from its reference.
struct Outline {
    corners: [u16; POINT_LIMIT],
    length: usize,
}

impl Outline {
    fn list(&self) -> &[u16] {
        &self.corners[..self.length]
    }
}

impl Map {
    fn empty() -> Self {
        Map {
            xs: [0; POINT_LIMIT],
            ys: [0; POINT_LIMIT],
            helpers: [false; POINT_LIMIT],
            edge: [0; DART_LIMIT],
            records: [(0, [0; 2]); POINT_LIMIT],
            count: 0,
            reference: NO_DART,
        }
    }

    // ---- the saved form

    /// The map that the points of a file build, where it is the one in the file.
    fn load(file: &[u8]) -> Result<Self, u32> {
        let Some(fields) = Fields::of(file) else {
            return Err(BAD_FILE);
        };
        let mut map = Map::empty();
        for &[a, b, c, d, e, f, g, h] in fields.points {
            let (x, y) = (i32::from_be_bytes([a, b, c, d]), i32::from_be_bytes([e, f, g, h]));
            if map.offer(i64::from(x), i64::from(y)).is_err() {
                return Err(NOT_SOUND);
            }
        }
        if fields.are_of(&map) { Ok(map) } else { Err(NOT_SOUND) }
    }

    fn saved_length(&self) -> usize {
        HEAD + 18 * self.count
    }

    /// Writes version 2 of the saved form into a list of its length.
    fn save(&self, out: &mut [u8]) {
        let n = self.count;
        let (head, rest) = out.split_at_mut(HEAD);
        let (points, rest) = rest.split_at_mut(8 * n);
        let (helpers, rest) = rest.split_at_mut(n);
        let (edges, records) = rest.split_at_mut(4 * n);
        head[..4].copy_from_slice(&(self.saved_length() as u32 - 4).to_be_bytes());
        head[4] = VERSION;
        head[5..7].copy_from_slice(&(n as u16).to_be_bytes());
        head[7..].copy_from_slice(&(self.reference as u16).to_be_bytes());
        for (k, p) in points.as_chunks_mut::<8>().0.iter_mut().enumerate() {
            p[..4].copy_from_slice(&self.xs[k].to_be_bytes());
            p[4..].copy_from_slice(&self.ys[k].to_be_bytes());
        }
        for (byte, helper) in helpers.iter_mut().zip(&self.helpers) {
            *byte = u8::from(*helper);
        }
        for (bytes, link) in edges.as_chunks_mut::<2>().0.iter_mut().zip(&self.edge) {
            *bytes = link.to_be_bytes();
        }
        for (group, record) in records.as_chunks_mut::<5>().0.iter_mut().zip(&self.records) {
            *group = group_of(*record);
        }
    }

    /// The end of the edge that leaves a corner.
    fn next(&self, corner: usize) -> usize {
        usize::from(self.edge[2 * corner % DART_LIMIT] / 2)
    }

    fn has_fixed_edge(&self, dart: usize) -> bool {
        usize::from(self.edge[dart]) == dart
    }

    fn point(&self, k: usize) -> [i32; 2] {
        [self.xs[k], self.ys[k]]
    }

    /// The outline.
    fn outline(&self) -> Outline {
        let mut outline = Outline { corners: [0; POINT_LIMIT], length: 0 };
        if self.count < 2 {
            return outline;
        }
        let start = self.reference / 2;
        let mut corner = start;
        loop {
            outline.corners[outline.length] = corner as u16;
            outline.length += 1;
            corner = self.next(corner);
            if corner == start {
                return outline;
            }
        }
    }

    // ---- offering

    fn join(&mut self, a: usize, b: usize) {
        self.edge[a] = b as u16;
        self.edge[b] = a as u16;
    }

    fn offer(&mut self, x: i64, y: i64) -> Result<Arrival, u32> {
        let k = self.count;
        match admission(&self.xs[..k], &self.ys[..k], x, y) {
            0 => {}
            refusal => return Err(refusal),
        }
        self.xs[k] = x as i32;
        self.ys[k] = y as i32;
        self.edge[2 * k] = 2 * k as u16;
        self.edge[2 * k + 1] = 2 * k as u16 + 1;
        self.count = k + 1;
        Ok(match k {
            0 => {
                self.records[0] = (0, NONE_FREED);
                Arrival::First
            }
            1 => {
                self.records[1] = (1, NONE_FREED);
                self.helpers[0] = true;
                self.helpers[1] = true;
                self.join(0, 3);
                self.join(2, 1);
                self.reference = 2;
                Arrival::Second
            }
            _ => self.later(k),
        })
    }

    fn later(&mut self, k: usize) -> Arrival {
        let p = self.point(k);
        let start = self.reference / 2;
        let (mut left, mut right, mut visible) = (start, start, 0);
        let (mut corner, mut from) = (start, self.point(start));
        // an own dart stands before the helper that leads to it: the next link waits for no division
        let mut own = 2 * start;
        let mut first = false;
        let mut entering = false;
        loop {
            let helper = usize::from(self.edge[own % DART_LIMIT]);
            let next = helper / 2;
            let to = self.point(next);
            let leaving = !is_beside(from, to, p);
            if corner == start {
                first = leaving;
            } else if leaving != entering {
                if leaving {
                    left = corner;
                } else {
                    right = corner;
                }
            }
            visible += usize::from(leaving);
            entering = leaving;
            corner = next;
            from = to;
            own = helper.wrapping_sub(1);
            if corner == start {
                break;
            }
        }
        if first && !entering {
            left = start;
        } else if !first && entering {
            right = start;
        }
        if visible == 0 {
            self.records[k] = (2, NONE_FREED);
            return Arrival::Inside;
        }
        if left == right {
            // no edge is hidden: p is in line beyond one of two corners, and the other is farther
            let end = self.next(start);
            let is_beyond_end = are_opposite(self.point(start), p, self.point(end));
            left = if is_beyond_end { start } else { end };
            right = left;
        }
        let (l, r) = (2 * left, 2 * right + 1);
        let partners = [self.edge[l], self.edge[r]];
        for dart in partners {
            self.edge[usize::from(dart)] = dart;
        }
        // of one visible edge the partners are l and r
        self.records[k] = (3, if visible == 1 { NONE_FREED } else { partners });
        self.join(l, 2 * k + 1);
        self.join(2 * k, r);
        self.helpers[k] = true;
        self.reference = 2 * k;
        Arrival::Outside(left, right, visible)
    }

    // ---- reading

    fn dart(&self, dart: u64) -> Result<usize, u32> {
        match usize::try_from(dart) {
            Ok(d) if d / 2 < self.count && (d % 2 == 0 || self.helpers[d / 2]) => Ok(d),
            _ => Err(NO_SUCH_DART),
        }
    }

    fn edge_link(&self, dart: usize) -> usize {
        usize::from(self.edge[dart])
    }

    fn point_link(&self, dart: usize) -> usize {
        dart ^ usize::from(self.helpers[dart / 2])
    }

    /// Darts, vertices, edges, faces, parts. A part that is not the outline is a point without
    /// helper or a chain, which has two darts with fixed edges.
    fn counts(&self) -> [u64; 5] {
        let n = self.count;
        let helpers = self.helpers[..n].iter().filter(|helper| **helper).count();
        let darts = n + helpers;
        let present = |d: usize| d.is_multiple_of(2) || self.helpers[d / 2];
        let mut fixed = 0;
        let mut faces = 0;
        let mut visited = [false; DART_LIMIT];
        for d in (0..2 * n).filter(|&d| present(d)) {
            fixed += usize::from(self.has_fixed_edge(d));
            faces += usize::from(!visited[d]);
            let mut on_face = d;
            while !visited[on_face] {
                visited[on_face] = true;
                on_face = self.point_link(self.edge_link(on_face));
            }
        }
        let alone = n - helpers;
        let parts = usize::from(n > 1) + alone + (fixed - alone) / 2;
        let edges = fixed + (darts - fixed) / 2;
        [darts, n, edges, faces, parts].map(|number| number as u64)
    }

    /// Last dart, ending (0 home, 1 loose), moves.
    fn walk(&self, start: usize) -> [u64; 3] {
        let mut dart = start;
        let mut moves = 0;
        loop {
            if self.has_fixed_edge(dart) {
                return [dart as u64, 1, moves];
            }
            dart = self.edge_link(dart) ^ 1;
            moves += 2;
            if dart == start {
                return [dart as u64, 0, moves];
            }
        }
    }

    /// The connected part of a dart: sixteen words and the size.
    fn part(&self, dart: usize) -> [u64; 17] {
        let mut out = [0; 17];
        let mut put = |d: usize| {
            let is_new = out[d / 64] >> (d % 64) & 1 == 0;
            out[d / 64] |= 1 << (d % 64);
            out[16] += u64::from(is_new);
            is_new
        };
        for start in [dart, self.point_link(dart)] {
            let mut d = start;
            while put(d) | put(self.edge_link(d)) && !self.has_fixed_edge(d) {
                d = self.point_link(self.edge_link(d));
            }
        }
        out
    }

    fn is_lower(&self, a: usize, b: usize) -> bool {
        (self.ys[a], self.xs[a]) < (self.ys[b], self.xs[b])
    }

    /// The corners, to be listed from the place that comes with them.
    fn corners(&self) -> (Outline, usize) {
        let mut outline = self.outline();
        if self.count == 1 {
            outline.length = 1;
        }
        let mut lowest = 0;
        for i in 1..outline.length {
            let [a, b] = [i, lowest].map(|i| usize::from(outline.corners[i]));
            if self.is_lower(a, b) {
                lowest = i;
            }
        }
        (outline, lowest)
    }

    /// Twice the outline's area, by the triangles from the corner at a place of the listing to each
    /// edge.
    fn area(&self, place: u64) -> Result<i64, u32> {
        if self.count < 3 {
            return Ok(0);
        }
        let (outline, lowest) = self.corners();
        let corners = outline.list();
        if place >= corners.len() as u64 {
            return Err(NO_SUCH_DART);
        }
        let at = |i: usize| self.point(usize::from(corners[i]));
        let start = at((lowest + place as usize) % corners.len());
        let (mut from, mut sum) = (at(corners.len() - 1), 0);
        for i in 0..corners.len() {
            let to = at(i);
            sum += determinant(start, from, to);
            from = to;
        }
        Ok(sum)
    }

    /// Where it lies, and two values.
    fn place(&self, x: i64, y: i64) -> Result<[u64; 3], u32> {
        if !in_range(x) || !in_range(y) {
            return Err(OUT_OF_RANGE);
        }
        if self.count < 2 {
            return Ok([0; 3]);
        }
        let p = [x as i32, y as i32];
        let (mut on_edge, mut visible, mut is_inside) = (None, 0, true);
        let start = self.reference / 2;
        let mut a = start;
        loop {
            let b = self.next(a);
            let (from, to) = (self.point(a), self.point(b));
            let side = determinant(from, to, p);
            visible += u64::from(side < 0);
            is_inside &= side > 0;
            if side == 0 {
                if from == p {
                    return Ok([1, a as u64, 0]);
                }
                if to == p {
                    return Ok([1, b as u64, 0]);
                }
                // of two opposite edges the one from the lower corner is listed first
                let is_listed = self.next(b) != a || self.is_lower(a, b);
                if are_opposite(from, to, p) && is_listed {
                    on_edge = Some([2, a as u64, b as u64]);
                }
            }
            a = b;
            if a == start {
                break;
            }
        }
        Ok(match on_edge {
            Some(values) => values,
            None if is_inside => [3, 0, 0],
            None => [4, visible, 0],
        })
    }
}

// ---- lines and reports

/// The number at the front of some bytes, and what follows it.
fn number(bytes: &[u8]) -> Option<(i64, &[u8])> {
    let (is_negative, digits) = match bytes {
        [b'-', digits @ ..] => (true, digits),
        _ => (false, bytes),
    };
    let mut value = 0;
    let mut length = 0;
    while let Some(digit @ b'0'..=b'9') = digits.get(length) {
        length += 1;
        if length > DIGIT_LIMIT {
            return None;
        }
        value = 10 * value + i64::from(digit - b'0');
    }
    let leads_with_zero = length > 0 && digits[0] == b'0';
    if length == 0 || leads_with_zero && (length > 1 || is_negative) {
        return None;
    }
    Some((if is_negative { -value } else { value }, &digits[length..]))
}

/// The line at the front of a text, and what follows it. A feed is sought only where the line is
/// not in form.
fn read_line(text: &[u8]) -> (Result<(i64, i64), u32>, &[u8]) {
    if let Some((x, [b' ', second @ ..])) = number(text) {
        match number(second) {
            Some((y, [])) => return (Ok((x, y)), &[]),
            Some((y, [b'\n', rest @ ..])) => return (Ok((x, y)), rest),
            _ => {}
        }
    }
    let feed = text.iter().position(|&b| b == b'\n');
    (Err(BAD_LINE), feed.map_or(&[], |feed| &text[feed + 1..]))
}

/// Appends a number in decimal.
fn put(out: &mut Vec<u8>, mut number: usize) {
    let mut digits = [0; 20];
    let mut start = digits.len();
    loop {
        start -= 1;
        digits[start] = b'0' + (number % 10) as u8;
        number /= 10;
        if number == 0 {
            break;
        }
    }
    out.extend_from_slice(&digits[start..]);
}

fn put_after_space(out: &mut Vec<u8>, number: usize) {
    out.push(b' ');
    put(out, number);
}

fn printed(text: &[u8]) -> Vec<u8> {
    let mut map = Map::empty();
    let mut out = Vec::with_capacity(2 * text.len() + 4096);
    out.extend_from_slice(b"OUTLINE 1\n");
    let mut rest = text;
    let mut line_number = 0;
    while !rest.is_empty() {
        let (line, others) = read_line(rest);
        let arrival = line.and_then(|(x, y)| map.offer(x, y));
        rest = others;
        put(&mut out, line_number);
        line_number += 1;
        match arrival {
            Ok(Arrival::First) => out.extend_from_slice(b" first"),
            Ok(Arrival::Second) => out.extend_from_slice(b" second"),
            Ok(Arrival::Inside) => out.extend_from_slice(b" inside"),
            Ok(Arrival::Outside(left, right, visible)) => {
                out.extend_from_slice(b" outside");
                put_after_space(&mut out, left);
                put_after_space(&mut out, right);
                put_after_space(&mut out, visible);
            }
            Err(refusal) => {
                out.extend_from_slice(b" refused");
                put_after_space(&mut out, refusal as usize);
            }
        }
        out.push(b'\n');
    }
    out.extend_from_slice(b"corners");
    let (outline, lowest) = map.corners();
    let (last, first) = outline.list().split_at(lowest);
    for &corner in first.iter().chain(last) {
        put_after_space(&mut out, usize::from(corner));
    }
    out.extend_from_slice(b"\ncounts");
    for count in map.counts() {
        put_after_space(&mut out, count as usize);
    }
    out.push(b'\n');
    out
}

// ---- outlines

fn put_coordinate(out: &mut Vec<u8>, z: i32) {
    if z < 0 {
        out.push(b'-');
    }
    put(out, z.unsigned_abs() as usize);
}

fn put_position(out: &mut Vec<u8>, [x, y]: [i32; 2]) {
    put_coordinate(out, x);
    out.push(b' ');
    put_coordinate(out, y);
}

fn outline_text(map: &Map) -> Vec<u8> {
    let (outline, lowest) = map.corners();
    let (last, first) = outline.list().split_at(lowest);
    let (opening, closing): (&[u8], &[u8]) = match outline.length {
        0 => return b"POLYGON EMPTY".into(),
        1 => (b"POINT (", b")"),
        2 => (b"LINESTRING (", b")"),
        _ => (b"POLYGON ((", b"))"),
    };
    let mut out = Vec::with_capacity(35 + 25 * outline.length);
    out.extend_from_slice(opening);
    let repeated = &first[..usize::from(outline.length > 2)];
    for (i, &corner) in first.iter().chain(last).chain(repeated).enumerate() {
        if i > 0 {
            out.extend_from_slice(b", ");
        }
        put_position(&mut out, map.point(usize::from(corner)));
    }
    out.extend_from_slice(closing);
    out
}

/// Positions as they are read: how many, whether all are in range, and the first 512 of them where
/// they are.
struct Positions {
    xs: [i32; POINT_LIMIT],
    ys: [i32; POINT_LIMIT],
    count: usize,
    in_range: bool,
}

impl Positions {
    /// Reads the corners that a text spells, or answers the first number that applies.
    fn read(&mut self, text: &[u8]) -> Result<(), u32> {
        if text.len() > TEXT_LIMIT {
            return Err(LONG_TEXT);
        }
        if !self.are_spelt(text) {
            return Err(BAD_OUTLINE);
        }
        if !self.in_range {
            return Err(OUT_OF_RANGE);
        }
        if self.are_listed() { Ok(()) } else { Err(NO_SURVEY) }
    }

    fn are_spelt(&mut self, text: &[u8]) -> bool {
        if let Some(rest) = text.strip_prefix(b"POLYGON ((") {
            let is_closed = self.are_between(rest, b"))") == Some(true);
            // the last is the first again
            self.count = self.count.saturating_sub(1);
            return is_closed && self.count >= 3;
        }
        if let Some(rest) = text.strip_prefix(b"LINESTRING (") {
            return self.are_between(rest, b")").is_some() && self.count == 2;
        }
        if let Some(rest) = text.strip_prefix(b"POINT (") {
            return self.are_between(rest, b")").is_some() && self.count == 1;
        }
        text == b"POLYGON EMPTY"
    }

    /// Reads the positions of a text up to its closing; answers whether the last is the first.
    fn are_between(&mut self, mut rest: &[u8], closing: &[u8]) -> Option<bool> {
        let mut first = (0, 0);
        loop {
            let (x, [b' ', second @ ..]) = number(rest)? else {
                return None;
            };
            let (y, after) = number(second)?;
            self.in_range &= in_range(x) & in_range(y);
            if self.count == 0 {
                first = (x, y);
            }
            if self.count < POINT_LIMIT {
                self.xs[self.count] = x as i32;
                self.ys[self.count] = y as i32;
            }
            self.count += 1;
            match after {
                [b',', b' ', others @ ..] => rest = others,
                _ => return (after == closing).then_some(first == (x, y)),
            }
        }
    }

    /// Whether some survey lists these: not too many, the first lower than each other one, and a
    /// left turn to each from the two before it, and from the first and the one before it.
    fn are_listed(&self) -> bool {
        let n = self.count;
        if n > POINT_LIMIT {
            return false;
        }
        let (xs, ys) = (&self.xs[..n], &self.ys[..n]);
        let is_higher = |(&x, &y): (&i32, &i32)| (ys[0], xs[0]) < (y, x);
        if !xs.iter().zip(ys).skip(1).all(is_higher) {
            return false;
        }
        let at = |k: usize| [xs[k], ys[k]];
        let turns = |from, k| determinant(at(from), at(k - 1), at(k)) > 0;
        (2..n).all(|k| turns(0, k) && turns(k - 2, k))
    }
}

// ---- marks

/// Whether a claim on these points is right: no number is beyond them, the first does not come
/// again, and each edge has all other points beside it.
fn is_outline(xs: &[i32], ys: &[i32], claim: &[u64]) -> bool {
    let n = xs.len() as u64;
    let Some(&first) = claim.first() else {
        return n == 0;
    };
    let next = claim.iter().skip(1).chain([&first]);
    claim.iter().zip(next).enumerate().all(|(i, (&a, &b))| {
        let is_in_place = a < n && b < n && (i == 0 || a != first);
        is_in_place && is_supporting_edge(xs, ys, a as usize, b as usize)
    })
}

// ---- the boundary, as the engine has it

/// Writes a result into a lent list, or answers number 10.
fn write<T: Copy>(result: &[T], out: &mut [T]) -> u32 {
    match out.get_mut(..result.len()) {
        Some(list) => {
            list.copy_from_slice(result);
            0
        }
        None => SHORT_LIST,
    }
}

/// The number of an answer whose value is its own number.
fn answer(result: Result<u32, u32>) -> u32 {
    result.unwrap_or_else(|refusal| refusal)
}

#[inline(never)]
pub fn orientation(a: [i64; 2], b: [i64; 2], c: [i64; 2], out: &mut [i64]) -> u32 {
    if ![a, b, c].iter().flatten().all(|&z| in_range(z)) {
        return OUT_OF_RANGE;
    }
    let [a, b, c] = [a, b, c].map(|p| p.map(|z| z as i32));
    write(&[determinant(a, b, c)], out)
}

#[inline(never)]
pub fn offer(file: &[u8], x: i64, y: i64, out: &mut [u8], arrival: &mut [u64]) -> u32 {
    answer(Map::load(file).and_then(|mut map| {
        let values = match map.offer(x, y)? {
            Arrival::First => [0; 4],
            Arrival::Second => [1, 0, 0, 0],
            Arrival::Inside => [2, 0, 0, 0],
            Arrival::Outside(l, r, visible) => [3, l as u64, r as u64, visible as u64],
        };
        match out.get_mut(..map.saved_length()) {
            Some(list) if arrival.len() >= 4 => {
                map.save(list);
                Ok(write(&values, arrival))
            }
            _ => Err(SHORT_LIST),
        }
    }))
}

#[inline(never)]
pub fn check(file: &[u8]) -> u32 {
    answer(Map::load(file).map(|_| 0))
}

#[inline(never)]
pub fn load(file: &[u8], out: &mut [u8], length: &mut [u64]) -> u32 {
    answer(Map::load(file).and_then(|map| {
        let bytes = map.saved_length();
        let (Some(list), Some(length)) = (out.get_mut(..bytes), length.first_mut()) else {
            return Err(SHORT_LIST);
        };
        *length = bytes as u64;
        map.save(list);
        Ok(0)
    }))
}

#[inline(never)]
pub fn counts(file: &[u8], out: &mut [u64]) -> u32 {
    answer(Map::load(file).map(|map| write(&map.counts(), out)))
}

#[inline(never)]
pub fn walk(file: &[u8], dart: u64, out: &mut [u64]) -> u32 {
    answer(Map::load(file).and_then(|map| Ok(write(&map.walk(map.dart(dart)?), out))))
}

#[inline(never)]
pub fn part_orbit(file: &[u8], dart: u64, out: &mut [u64]) -> u32 {
    answer(Map::load(file).and_then(|map| Ok(write(&map.part(map.dart(dart)?), out))))
}

#[inline(never)]
pub fn place(file: &[u8], x: i64, y: i64, out: &mut [u64]) -> u32 {
    answer(Map::load(file).and_then(|map| Ok(write(&map.place(x, y)?, out))))
}

#[inline(never)]
pub fn corners(file: &[u8], out: &mut [u64], length: &mut [u64]) -> u32 {
    answer(Map::load(file).and_then(|map| {
        let (outline, lowest) = map.corners();
        let (Some(list), Some(length)) = (out.get_mut(..outline.length), length.first_mut()) else {
            return Err(SHORT_LIST);
        };
        *length = outline.length as u64;
        let (last, first) = outline.list().split_at(lowest);
        for (place, &corner) in list.iter_mut().zip(first.iter().chain(last)) {
            *place = u64::from(corner);
        }
        Ok(0)
    }))
}

#[inline(never)]
pub fn line(line: &[u8], out: &mut [i64]) -> u32 {
    match read_line(line) {
        (Ok((x, y)), []) => write(&[x, y], out),
        _ => BAD_LINE,
    }
}

#[inline(never)]
pub fn report(text: &[u8], out: &mut [u8], length: &mut [u64]) -> u32 {
    if text.len() > TEXT_LIMIT {
        return LONG_TEXT;
    }
    let printed = printed(text);
    if out.len() < printed.len() || length.is_empty() {
        return SHORT_LIST;
    }
    length[0] = printed.len() as u64;
    write(&printed, out)
}

#[inline(never)]
pub fn write_outline(file: &[u8], out: &mut [u8], length: &mut [u64]) -> u32 {
    answer(Map::load(file).and_then(|map| {
        let text = outline_text(&map);
        let (Some(list), Some(length)) = (out.get_mut(..text.len()), length.first_mut()) else {
            return Err(SHORT_LIST);
        };
        *length = text.len() as u64;
        list.copy_from_slice(&text);
        Ok(0)
    }))
}

#[inline(never)]
pub fn read_outline(text: &[u8], out: &mut [i64], length: &mut [u64]) -> u32 {
    let (xs, ys) = ([0; POINT_LIMIT], [0; POINT_LIMIT]);
    let mut corners = Positions { xs, ys, count: 0, in_range: true };
    if let Err(refusal) = corners.read(text) {
        return refusal;
    }
    let n = corners.count;
    let (Some(list), Some(length)) = (out.get_mut(..2 * n), length.first_mut()) else {
        return SHORT_LIST;
    };
    *length = 2 * n as u64;
    let points = corners.xs.iter().zip(&corners.ys);
    for (pair, (&x, &y)) in list.as_chunks_mut::<2>().0.iter_mut().zip(points) {
        *pair = [i64::from(x), i64::from(y)];
    }
    0
}

#[inline(never)]
pub fn area(file: &[u8], place: u64, out: &mut [i64]) -> u32 {
    answer(Map::load(file).and_then(|map| Ok(write(&[map.area(place)?], out))))
}

#[inline(never)]
pub fn mark(points: &[i64], claim: &[u64], out: &mut [u64]) -> u32 {
    let (mut xs, mut ys) = ([0; POINT_LIMIT], [0; POINT_LIMIT]);
    let points = points.as_chunks::<2>().0;
    for (k, &[x, y]) in points.iter().enumerate() {
        match admission(&xs[..k], &ys[..k], x, y) {
            0 => {}
            refusal => return refusal,
        }
        xs[k] = x as i32;
        ys[k] = y as i32;
    }
    let n = points.len();
    write(&[u64::from(is_outline(&xs[..n], &ys[..n], claim))], out)
}
