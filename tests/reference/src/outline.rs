//! Outlines as text: written corner after corner, read by splitting at the separators. What is read
//! is accepted where the hull of its points is written so.

use crate::plane::hull;
use crate::text::read_bytes;
use crate::{Answer, Map, POINT_LIMIT, Point, TEXT_LIMIT, refusal};
use std::collections::BTreeSet;

/// How the outline of these points is written, which are all different.
fn written(points: &[Point]) -> String {
    let corners: Vec<String> =
        hull(points).into_iter().map(|k| format!("{} {}", points[k].x, points[k].y)).collect();
    match &corners[..] {
        [] => "POLYGON EMPTY".into(),
        [one] => format!("POINT ({one})"),
        [one, other] => format!("LINESTRING ({one}, {other})"),
        [first, ..] => format!("POLYGON (({}, {first}))", corners.join(", ")),
    }
}

impl Map {
    /// The outline's text: by the corners, so that of points on a rail the two ends are written.
    pub fn outline_text(&self) -> String {
        written(&self.points)
    }
}

/// The positions between the first word of a text and its last, where it has both and these are in
/// form.
fn positions(text: &str, opening: &str, closing: &str) -> Option<Vec<Point>> {
    let inner = text.strip_prefix(opening)?.strip_suffix(closing)?;
    inner.split(", ").map(|position| read_bytes(position.as_bytes()).ok()).collect()
}

/// The corners that a text spells, if it spells any: "the same spelling, and only that".
fn spelt(text: &[u8]) -> Option<Vec<Point>> {
    let text = str::from_utf8(text).ok()?;
    if text == "POLYGON EMPTY" {
        return Some(Vec::new());
    }
    if let Some(point) = positions(text, "POINT (", ")") {
        return (point.len() == 1).then_some(point);
    }
    if let Some(line) = positions(text, "LINESTRING (", ")") {
        return (line.len() == 2).then_some(line);
    }
    let mut ring = positions(text, "POLYGON ((", "))")?;
    let last = ring.pop()?;
    (ring.len() >= 3 && ring[0] == last).then_some(ring)
}

/// The corners of an outline's text, or the first that applies of numbers 9, 11, 3 and 12.
pub fn read_outline(text: &[u8]) -> Answer<Vec<Point>> {
    if text.len() > TEXT_LIMIT {
        return Err(refusal::LONG_TEXT);
    }
    let corners = spelt(text).ok_or(refusal::BAD_OUTLINE)?;
    if !corners.iter().all(|p| p.in_range()) {
        return Err(refusal::OUT_OF_RANGE);
    }
    // "if and only if some survey would write it": the survey of its points, each once
    let survey: Vec<Point> = BTreeSet::from_iter(corners.clone()).into_iter().collect();
    if survey.len() > POINT_LIMIT || written(&survey).as_bytes() != text {
        return Err(refusal::NO_SURVEY);
    }
    Ok(corners)
}
