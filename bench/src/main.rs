//! Measures the proved engine beside plain Rust written for speed, on the same inputs and through
//! the same boundary, in one process. Prints a Markdown table: the median times of a call and their
//! ratio.
//!
//!     bench [--samples N]
//!     bench --stack
//!
//! The second form prints the least stack in which each call ends.
//!
//! Both answer first, and the answers must be equal. Each call on a map takes its saved bytes and
//! looks at soundness: it builds the map of its points and compares. Saving has no call of its own:
//! it is part of a load and of an offer.

mod inputs;
mod measure;
mod plain;
mod stack;
#[cfg(test)]
mod tests;

use reach::{COORDINATE_LIMIT as LIMIT, MAP_BYTES, OUTLINE_BYTES, raw};
use std::hint::black_box;

/// The line that is read by itself.
const LINE: &[u8] = b"-1000000000 999999999";

struct Table {
    samples: usize,
}

impl Table {
    /// One line: the same call on both sides, each with lists of its own. It is served.
    fn line<T: Clone + PartialEq + std::fmt::Debug>(
        &self,
        name: &str,
        lists: T,
        proved: impl Fn(&mut T) -> u32,
        plain: impl Fn(&mut T) -> u32,
    ) {
        self.answered(0, name, lists, proved, plain);
    }

    /// One line of a call that answers this number.
    fn answered<T: Clone + PartialEq + std::fmt::Debug>(
        &self,
        number: u32,
        name: &str,
        lists: T,
        proved: impl Fn(&mut T) -> u32,
        plain: impl Fn(&mut T) -> u32,
    ) {
        let mut ours = lists.clone();
        let mut theirs = lists;
        let numbers = [proved(&mut ours), plain(&mut theirs)];
        assert!(numbers == [number; 2] && ours == theirs, "{name}: the answers are {numbers:?}");
        let mut first = || {
            black_box(proved(black_box(&mut ours)));
        };
        let mut second = || {
            black_box(plain(black_box(&mut theirs)));
        };
        let [proved, plain] = measure::medians(self.samples, [&mut first, &mut second]);
        let ratio = proved / plain;
        println!(
            "| {name} | {} | {} | {ratio:.2} |",
            measure::shown(proved),
            measure::shown(plain)
        );
    }

    fn reports(&self) {
        for (name, text) in &inputs::texts() {
            self.line(
                &format!("report, {name}"),
                (vec![0; 16 * text.len() + 4096], [0]),
                |(out, length)| raw::report(text, out, length),
                |(out, length)| plain::report(text, out, length),
            );
        }
    }

    /// The calls on a map of so many points, the last of which is the one that is offered.
    fn calls(&self, shape: &str, points: &[(i64, i64)]) {
        let [before @ .., (x, y)] = points else {
            return;
        };
        let (x, y) = (*x, *y);
        let smaller = &inputs::file(before);
        let file = &inputs::file(points);
        let (former, wrong) = (&inputs::in_version_1(file), &inputs::with_wrong_record(file));
        let (first, last) = (points[0], points[points.len() / 2]);
        let (inner_x, inner_y) = ((first.0 + last.0) / 2, (first.1 + last.1) / 2);
        let dart = u64::from(file[7]) << 8 | u64::from(file[8]);
        let named = |call: &str| format!("{call} {} {shape} points", points.len());
        self.line(
            &named("check,"),
            (),
            |()| raw::check(black_box(file)),
            |()| plain::check(black_box(file)),
        );
        self.answered(
            1,
            &named("refuse the last record of"),
            (),
            |()| raw::check(black_box(wrong)),
            |()| plain::check(black_box(wrong)),
        );
        for (name, file) in [("load,", file), ("load version 1,", former)] {
            self.line(
                &named(name),
                (vec![0; MAP_BYTES], [0]),
                |(out, length)| raw::load(file, out, length),
                |(out, length)| plain::load(file, out, length),
            );
        }
        self.line(
            &named("place,"),
            [0; 3],
            |out| raw::place(file, inner_x, inner_y, out),
            |out| plain::place(file, inner_x, inner_y, out),
        );
        self.line(
            &named("walk,"),
            [0; 3],
            |out| raw::walk(file, dart, out),
            |out| plain::walk(file, dart, out),
        );
        self.line(
            &named("part,"),
            [0; 17],
            |out| raw::part_orbit(file, dart, out),
            |out| plain::part_orbit(file, dart, out),
        );
        self.line(
            &named("counts,"),
            [0; 5],
            |out| raw::counts(file, out),
            |out| plain::counts(file, out),
        );
        self.line(
            &named("corners,"),
            ([0; 512], [0]),
            |(out, length)| raw::corners(file, out, length),
            |(out, length)| plain::corners(file, out, length),
        );
        self.line(
            &named("write the outline,"),
            (vec![0; OUTLINE_BYTES], [0]),
            |(out, length)| raw::write_outline(file, out, length),
            |(out, length)| plain::write_outline(file, out, length),
        );
        self.line(
            &named("area,"),
            [0],
            |out| raw::area(file, 0, out),
            |out| plain::area(file, 0, out),
        );
        self.line(
            &named("offer and save the last of"),
            (vec![0; file.len()], [0; 4]),
            |(out, arrival)| raw::offer(smaller, x, y, out, arrival),
            |(out, arrival)| plain::offer(smaller, x, y, out, arrival),
        );
    }

    /// An outline's text of so many corners.
    fn outlines(&self) {
        for corners in [8, 64, 512] {
            let text = &inputs::outline(&inputs::convex(corners));
            self.line(
                &format!("read the outline, {corners} corners"),
                ([0; 1024], [0]),
                |(out, length)| raw::read_outline(text, out, length),
                |(out, length)| plain::read_outline(text, out, length),
            );
        }
    }

    /// A right claim on so many points, each a corner.
    fn marks(&self) {
        for corners in [8, 64, 512] {
            let (points, claim) = &inputs::claim(&inputs::convex(corners));
            self.line(
                &format!("mark a right claim, {corners} corners"),
                [0],
                |out| raw::mark(points, claim, out),
                |out| plain::mark(points, claim, out),
            );
        }
    }

    /// The calls that take no map.
    fn small(&self) {
        let corners = [[-LIMIT, LIMIT - 1], [LIMIT, -3], [7, LIMIT]];
        self.line(
            "orientation",
            [0],
            |out| {
                let [a, b, c] = black_box(corners);
                raw::orientation(a, b, c, out)
            },
            |out| {
                let [a, b, c] = black_box(corners);
                plain::orientation(a, b, c, out)
            },
        );
        self.line(
            "line",
            [0; 2],
            |out| raw::line(black_box(LINE), out),
            |out| plain::line(black_box(LINE), out),
        );
    }
}

fn main() {
    let words: Vec<String> = std::env::args().skip(1).collect();
    let done = match words.iter().map(String::as_str).collect::<Vec<_>>()[..] {
        [] => times("11"),
        ["--samples", samples] => times(samples),
        ["--stack"] => {
            stack::table();
            Some(())
        }
        // what `--stack` calls for each try
        ["--stack-of", name, pages] => pages.parse().ok().and_then(|pages| stack::one(name, pages)),
        _ => None,
    };
    if done.is_none() {
        eprintln!("bench [--samples N] or bench --stack");
        std::process::exit(2);
    }
}

/// Prints the table of times.
fn times(samples: &str) -> Option<()> {
    let samples = samples.parse().ok().filter(|&samples| samples > 0)?;
    let table = Table { samples };
    println!("| call | proved | plain | ratio |");
    println!("|---|---:|---:|---:|");
    table.reports();
    for points in [8, 64, 512] {
        table.calls("convex", &inputs::convex(points));
        table.calls("random", &inputs::random(points));
    }
    table.outlines();
    table.marks();
    table.small();
    Some(())
}
