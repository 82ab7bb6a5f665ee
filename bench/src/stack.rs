//! The least stack of a thread in which a call ends, found by halving. Each try is a process of its
//! own, since too little stack ends it.

use crate::{LINE, inputs};
use reach::{OUTLINE_BYTES, raw};
use std::process::{Command, Stdio};

/// A thread's stack is a number of such pages.
const PAGE: usize = 4096;

/// As few as the system gives, and more than any call needs.
const LEAST_PAGES: usize = 4;
const MOST_PAGES: usize = 1024;

const CALLS: [&str; 15] = [
    "report, 65,536 bytes",
    "report, 65,537 bytes (number 9)",
    "check, 512 points",
    "load, 512 points",
    "offer, 511 points",
    "place, 512 points",
    "part, 512 points",
    "walk, 512 points",
    "counts, 512 points",
    "corners, 512 points",
    "write the outline, 512 corners",
    "read the outline, 512 corners",
    "area, 512 points",
    "mark a right claim, 512 corners",
    "line",
];

/// The call of that name, with inputs and lists that are made before it.
fn call(name: &str) -> Option<Box<dyn FnOnce() -> u32 + Send>> {
    let points = inputs::convex(512);
    let (x, y) = points[511];
    let smaller = inputs::file(&points[..511]);
    let file = inputs::file(&points);
    let report = |bytes: usize| {
        let text = vec![b'\n'; bytes];
        let (mut out, mut length) = (vec![0; 16 * bytes + 4096], [0]);
        Box::new(move || raw::report(&text, &mut out, &mut length))
    };
    Some(match name {
        "report, 65,536 bytes" => report(65_536),
        "report, 65,537 bytes (number 9)" => report(65_537),
        "check, 512 points" => Box::new(move || raw::check(&file)),
        "load, 512 points" => {
            let (mut out, mut length) = (vec![0; file.len()], [0]);
            Box::new(move || raw::load(&file, &mut out, &mut length))
        }
        "offer, 511 points" => {
            let (mut out, mut arrival) = (vec![0; file.len()], [0; 4]);
            Box::new(move || raw::offer(&smaller, x, y, &mut out, &mut arrival))
        }
        "place, 512 points" => Box::new(move || raw::place(&file, 0, 0, &mut [0; 3])),
        "part, 512 points" => Box::new(move || raw::part_orbit(&file, 0, &mut [0; 17])),
        "walk, 512 points" => Box::new(move || raw::walk(&file, 0, &mut [0; 3])),
        "counts, 512 points" => Box::new(move || raw::counts(&file, &mut [0; 5])),
        "corners, 512 points" => {
            let (mut out, mut length) = (vec![0; 512], [0]);
            Box::new(move || raw::corners(&file, &mut out, &mut length))
        }
        "write the outline, 512 corners" => {
            let (mut out, mut length) = (vec![0; OUTLINE_BYTES], [0]);
            Box::new(move || raw::write_outline(&file, &mut out, &mut length))
        }
        "read the outline, 512 corners" => {
            let (text, mut out, mut length) = (inputs::outline(&points), vec![0; 1024], [0]);
            Box::new(move || raw::read_outline(&text, &mut out, &mut length))
        }
        "area, 512 points" => Box::new(move || raw::area(&file, 0, &mut [0])),
        "mark a right claim, 512 corners" => {
            let (points, claim) = inputs::claim(&points);
            Box::new(move || raw::mark(&points, &claim, &mut [0]))
        }
        "line" => Box::new(|| raw::line(LINE, &mut [0; 2])),
        _ => return None,
    })
}

/// Makes one call in a thread of that many pages; it ends this process where they are too few.
pub fn one(name: &str, pages: usize) -> Option<()> {
    let call = call(name)?;
    let thread = std::thread::Builder::new().stack_size(pages * PAGE);
    thread.spawn(call).ok()?.join().ok().map(|_| ())
}

fn ends(name: &str, pages: usize) -> bool {
    let program = std::env::current_exe().expect("this program's path");
    Command::new(program)
        .args(["--stack-of", name, &pages.to_string()])
        .stderr(Stdio::null())
        .status()
        .is_ok_and(|status| status.success())
}

/// Prints a line for each call.
pub fn table() {
    println!("| call | least stack |");
    println!("|---|---:|");
    for name in CALLS {
        let (mut few, mut enough) = (LEAST_PAGES - 1, MOST_PAGES);
        assert!(ends(name, enough), "{name} needs more than {} KB", MOST_PAGES * PAGE / 1024);
        while few + 1 < enough {
            let middle = few.midpoint(enough);
            if ends(name, middle) { enough = middle } else { few = middle }
        }
        println!("| {name} | {} KB |", enough * PAGE / 1024);
    }
}
