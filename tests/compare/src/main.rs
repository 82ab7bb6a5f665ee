//! Compares every function of the engine's archive, the safe Rust crate over it, and the built
//! program, with the reference, on inputs drawn from a seed.
//!
//!     compare [--seed N] [--seconds S | --texts N --files N --maps N]
//!             [--program PATH | --without-program]
//!     compare [--seed N] --outlines N
//!
//! A text is reported, a line is read, so is an outline's text, and a claim is marked; a file of
//! either version, damaged or with changed fields, goes through every function that reads a map; a
//! map is built point after point and then read in every way, in both versions, and rearranged. One
//! text in fifty, or in a thousand of a hundred thousand and more, also goes through the program, in
//! reads of drawn sizes. One call in sixty-one, and each call on a full map, is made on as little
//! stack as `reach.h` says that it needs.
//!
//! First come inputs that are the same whatever the seed. The clock of `--seconds` starts after
//! them, and at least `LEAST` inputs of each kind are drawn, whatever it says.
//!
//! The seed, the calls of each entry by the number they answer, how many inputs of each kind were
//! drawn and the number of differences are printed; the same seed gives the same inputs, and a
//! longer run begins with those of a shorter one. The exit status is 1 on a difference, with the
//! input that shows it, or where other numbers of inputs were drawn than asked for, and 2 where the
//! arguments are wrong or the program is not there.
//!
//! The second form compares nothing: it prints a line for each of so many surveys, its points and
//! after a tab the text of their outline, as the archive writes it, for others to read.

mod draw;
mod entries;
mod files;
mod header;
mod lent;
mod maps;
mod marks;
mod null;
mod outlines;
mod points;
mod program;
mod stack;
mod tally;
mod texts;
mod wrapper;

use entries::Comparison;
use program::Input;
use reference::saved::VERSIONS;
use reference::{LIMIT, Map, POINT_LIMIT, Point, TEXT_LIMIT};
use std::fmt;
use std::path::PathBuf;
use std::process::ExitCode;
use std::time::{Duration, Instant, SystemTime, UNIX_EPOCH};
use tally::{Difference, Outcome};

/// At least so many inputs of each kind are drawn in a run by the clock.
const LEAST: u64 = 300;

/// So many inputs are drawn in turn in a run by the clock, maps the fewest.
const ROUND: Numbers = Numbers { texts: 20, files: 10, maps: 2 };

/// How many inputs there are of each kind.
#[derive(Clone, Copy, Default, PartialEq)]
struct Numbers {
    texts: u64,
    files: u64,
    maps: u64,
}

impl fmt::Display for Numbers {
    fn fmt(&self, f: &mut fmt::Formatter<'_>) -> fmt::Result {
        write!(f, "{} texts, {} files, {} maps", self.texts, self.files, self.maps)
    }
}

/// How much is drawn: for so long and at least `LEAST` of each kind, or so many of each kind.
enum Extent {
    For(Duration),
    Numbers(Numbers),
}

impl Extent {
    /// Whether these are as many as are asked for.
    fn is_met(&self, drawn: Numbers) -> bool {
        match *self {
            Extent::For(_) => [drawn.texts, drawn.files, drawn.maps].iter().all(|&n| n >= LEAST),
            Extent::Numbers(asked) => drawn == asked,
        }
    }
}

impl fmt::Display for Extent {
    fn fmt(&self, f: &mut fmt::Formatter<'_>) -> fmt::Result {
        match self {
            Extent::For(_) => write!(f, "at least {LEAST} of each kind"),
            Extent::Numbers(asked) => asked.fmt(f),
        }
    }
}

struct Arguments {
    seed: u64,
    extent: Extent,
    program: Option<PathBuf>,
    /// So many outlines are printed, and nothing is compared.
    outlines: Option<u64>,
}

fn arguments() -> Result<Arguments, String> {
    let clock = SystemTime::now().duration_since(UNIX_EPOCH).map_or(0, |t| t.as_nanos() as u64);
    let mut seed = clock % 1_000_000_007;
    let mut seconds = None;
    let mut numbers = [None; 3];
    let mut outlines = None;
    let built = concat!(env!("CARGO_MANIFEST_DIR"), "/../../target/bin/outline");
    let mut program = Some(PathBuf::from(built));
    let mut words = std::env::args().skip(1);
    while let Some(word) = words.next() {
        let mut value = || words.next().ok_or(format!("{word} needs a value"));
        let number =
            |value: String| value.parse::<u64>().map_err(|_| format!("{value} is no number"));
        match word.as_str() {
            "--seed" => seed = number(value()?)?,
            "--seconds" => seconds = Some(number(value()?)?),
            "--texts" => numbers[0] = Some(number(value()?)?),
            "--files" => numbers[1] = Some(number(value()?)?),
            "--maps" => numbers[2] = Some(number(value()?)?),
            "--program" => program = Some(value()?.into()),
            "--without-program" => program = None,
            "--outlines" => outlines = Some(number(value()?)?),
            _ => return Err(format!("{word} is not an argument")),
        }
    }
    let extent = match (seconds, numbers) {
        (None, [None, None, None]) => Extent::For(Duration::from_secs(10)),
        (Some(seconds), [None, None, None]) => Extent::For(Duration::from_secs(seconds)),
        (None, [texts, files, maps]) => Extent::Numbers(Numbers {
            texts: texts.unwrap_or(0),
            files: files.unwrap_or(0),
            maps: maps.unwrap_or(0),
        }),
        (Some(_), _) => return Err("--seconds stands alone".into()),
    };
    if outlines.is_some() && (seconds.is_some() || numbers != [None; 3]) {
        return Err("--outlines compares nothing, and stands alone".into());
    }
    match &program {
        Some(path) if outlines.is_none() && !path.is_file() => {
            Err(format!("there is no {}: build it, or --without-program", path.display()))
        }
        _ => Ok(Arguments { seed, extent, program, outlines }),
    }
}

/// What is compared whatever the seed: the header's constants, short lines, the ends of the range as
/// it is and as it was, rails across it, files of both versions, outlines, their areas and claims on
/// them, full maps, long texts.
fn fixed(c: &mut Comparison) -> Outcome {
    c.header()?;
    c.header_words()?;
    c.null_lists()?;
    for _ in 0..40 {
        c.empty()?;
    }
    lines_up_to(c, &mut Vec::new(), 5)?;
    for end in points::ends() {
        for line in [format!("{end} 0"), format!("0 {end}")].map(String::into_bytes) {
            c.line(&line)?;
            c.report(&line)?;
        }
    }
    for end in points::ends().into_iter().filter(|&end| i32::try_from(end).is_ok()) {
        let one = maps::built(&[Point::new(0, 0)]);
        for p in [Point::new(end, 0), Point::new(0, end)] {
            for version in VERSIONS {
                c.file(&Map { points: vec![p], ..one.clone() }.save_in(version), 1)?;
            }
        }
    }
    let near = |limit: i64| [-limit - 1, -limit, limit, limit + 1];
    let ends = [near(points::FORMER_LIMIT), near(LIMIT)].concat();
    let corners: Vec<Point> =
        ends.iter().flat_map(|&x| ends.iter().map(move |&y| Point::new(x, y))).collect();
    for &a in &corners {
        for &b in &corners {
            for &p in &corners {
                c.orientation([a, b, p])?;
            }
        }
    }
    for rail in rails() {
        let map = c.survey(&rail)?;
        for version in VERSIONS {
            c.file(&map.save_in(version), 20)?;
        }
    }
    c.fixed_files()?;
    c.fixed_outlines()?;
    c.fixed_marks()?;
    let convex = (0..POINT_LIMIT as i64).map(|i| Point::new(i, i * i));
    // each beyond an end, twice in turn beyond the same
    let rail = (0..POINT_LIMIT as i64).map(|i| Point::new(if i % 4 < 2 { i } else { -i }, 0));
    let refused =
        [Point::new(512, 512 * 512), Point::new(0, 0), Point::new(1, 2), Point::new(LIMIT + 1, 0)];
    c.is_on_small_stacks = true;
    for full in [convex.collect::<Vec<_>>(), rail.collect()] {
        let map = c.survey(&[&full[..], &refused].concat())?;
        for version in VERSIONS {
            c.file(&map.save_in(version), 4)?;
        }
    }
    for length in [0, 1, 2, TEXT_LIMIT - 1, TEXT_LIMIT, TEXT_LIMIT + 1, 2 * TEXT_LIMIT] {
        for byte in [b'\n', b'1', b' '] {
            c.report(&vec![byte; length])?;
            c.wrapper_report(&vec![byte; length])?;
        }
    }
    // as many points as there can be, and then as many refused lines
    let mut full: Vec<u8> =
        (0..POINT_LIMIT).flat_map(|i| format!("{i} {}\n", i * i).into_bytes()).collect();
    full.extend(b"0 0\n".iter().cycle().take(TEXT_LIMIT - full.len()));
    c.report(&full)?;
    c.wrapper_report(&full)?;
    c.is_on_small_stacks = false;
    Ok(())
}

/// Rails from one end of the range to the other, level, upright and slanted: marks beyond the end
/// that came last and beyond the other, up to the ends of the range, and marks between.
fn rails() -> [[Point; 12]; 5] {
    let steps = [0, 1, 3, -1, -3, 2, LIMIT - 1, LIMIT, 1 - LIMIT, -LIMIT, LIMIT + 1, -2];
    let marks: [fn(i64) -> Point; 5] = [
        |z| Point::new(z, 0),
        |z| Point::new(z, LIMIT),
        |z| Point::new(-LIMIT, z),
        |z| Point::new(z, z),
        |z| Point::new(z, -z),
    ];
    marks.map(|mark| steps.map(mark))
}

/// Every line of so many bytes that matter.
fn lines_up_to(c: &mut Comparison, line: &mut Vec<u8>, more: usize) -> Outcome {
    c.line(line)?;
    if more > 0 {
        for byte in *b"019- \n/" {
            line.push(byte);
            lines_up_to(c, line, more - 1)?;
            line.pop();
        }
    }
    Ok(())
}

struct Session {
    comparison: Comparison,
    /// Maps that are dear to build.
    pool: Vec<Map>,
    program: Option<PathBuf>,
    /// The drawn inputs on which calls were compared.
    drawn: Numbers,
}

impl Session {
    fn new(arguments: &Arguments) -> Result<Self, Difference> {
        let mut comparison = Comparison::new(arguments.seed);
        fixed(&mut comparison)?;
        if let Some(program) = &arguments.program {
            comparison.fixed_program(program)?;
        }
        let draw = &mut comparison.draw;
        let mut pool: Vec<Map> = [100, 200, 300, 511, 512, 700, 1500]
            .into_iter()
            .map(|offers| maps::built(&points::survey(draw, offers)))
            .collect();
        pool.push(maps::built(&points::rail(draw, 700)));
        let program = arguments.program.clone();
        Ok(Session { comparison, pool, program, drawn: Numbers::default() })
    }

    /// One text; one in `sample` goes through the program.
    fn text(&mut self, sample: usize) -> Outcome {
        let c = &mut self.comparison;
        let text = if c.draw.one_in(2000) {
            texts::long_text(&mut c.draw)
        } else {
            texts::text(&mut c.draw)
        };
        c.report(&text)?;
        let line = texts::lent_line(&mut c.draw);
        c.line(&line)?;
        if c.draw.one_in(50) {
            c.wrapper_report(&text)?;
        }
        let survey = points::survey(&mut c.draw, 3);
        c.orientation([survey[0], survey[1], survey[2]])?;
        let outline = outlines::text(&mut c.draw, &self.pool);
        c.read_outline(&outline)?;
        if c.draw.one_in(50) {
            c.wrapper_outline(&outline)?;
        }
        let (coordinates, claim) = marks::drawn(&mut c.draw, &self.pool);
        if c.draw.one_in(50) {
            c.wrapper_mark(&coordinates, &claim)?;
        }
        c.marks(&coordinates, &[claim])?;
        if c.draw.one_in(sample)
            && let Some(program) = &self.program
        {
            let sizes = (0..3).map(|_| 1 + c.draw.size(text.len())).collect();
            let input = if c.draw.one_in(3) { Input::Piped(sizes) } else { Input::Apart(sizes) };
            c.program(program, &text, &input)?;
        }
        Ok(())
    }

    /// One file, most often refused.
    fn file(&mut self) -> Outcome {
        let file = maps::file(&mut self.comparison.draw, &self.pool);
        self.comparison.file(&file, 1)?;
        if self.comparison.draw.one_in(4) {
            self.comparison.wrapper(&file)?;
        }
        Ok(())
    }

    /// One map, built by offers and then read in every way, in both versions, and rearranged.
    fn map(&mut self) -> Outcome {
        let c = &mut self.comparison;
        let most = if c.draw.one_in(300) { 700 } else { 60 };
        let offers = c.draw.size(most);
        let survey = points::survey(&mut c.draw, offers);
        let mut map = c.survey(&survey)?;
        if c.draw.one_in(20) {
            map = c.draw.pick(&self.pool);
        }
        for version in VERSIONS {
            c.file(&map.save_in(version), 3)?;
        }
        let version = c.draw.pick(&VERSIONS);
        c.wrapper(&map.save_in(version))?;
        let file = maps::rearranged(&mut c.draw, map).save_in(version);
        c.file(&file, 1)
    }

    /// Draws an input: 1 where calls on it were compared, else 0.
    fn compared(&mut self, input: impl FnOnce(&mut Self) -> Outcome) -> Result<u64, Difference> {
        let calls = self.comparison.tally.total();
        input(self)?;
        Ok(u64::from(self.comparison.tally.total() > calls))
    }

    /// Draws so many inputs; one text in `sample` goes through the program.
    fn draw(&mut self, numbers: Numbers, sample: usize) -> Outcome {
        for _ in 0..numbers.texts {
            self.drawn.texts += self.compared(|session| session.text(sample))?;
        }
        for _ in 0..numbers.files {
            self.drawn.files += self.compared(Session::file)?;
        }
        for _ in 0..numbers.maps {
            self.drawn.maps += self.compared(Session::map)?;
        }
        Ok(())
    }

    fn compare(&mut self, extent: &Extent) -> Outcome {
        match *extent {
            Extent::For(duration) => {
                // by the rounds and not by what was drawn: else a run that draws nothing has no end
                let (start, least) = (Instant::now(), LEAST.div_ceil(ROUND.maps));
                let mut rounds = 0;
                while rounds < least || start.elapsed() < duration {
                    self.draw(ROUND, 50)?;
                    rounds += 1;
                }
                Ok(())
            }
            Extent::Numbers(numbers) => {
                self.draw(numbers, if numbers.texts < 100_000 { 50 } else { 1000 })
            }
        }
    }
}

fn main() -> ExitCode {
    let arguments = match arguments() {
        Ok(arguments) => arguments,
        Err(message) => {
            eprintln!("compare: {message}");
            return ExitCode::from(2);
        }
    };
    if let Some(number) = arguments.outlines {
        let printed = outlines::print(arguments.seed, number);
        return if printed.is_ok() { ExitCode::SUCCESS } else { ExitCode::FAILURE };
    }
    println!("seed {}", arguments.seed);
    let start = Instant::now();
    let session = Session::new(&arguments).and_then(|mut session| {
        let calls = session.comparison.tally.total();
        println!("fixed inputs: {calls} calls in {:.1} s", start.elapsed().as_secs_f64());
        session.compare(&arguments.extent)?;
        Ok(session)
    });
    match session {
        Ok(Session { comparison, drawn, .. }) => {
            println!("{}", comparison.tally);
            println!("drawn inputs: {drawn}");
            if !arguments.extent.is_met(drawn) {
                println!("NOT AS ASKED FOR: {}", arguments.extent);
                return ExitCode::FAILURE;
            }
            println!("0 differences");
            ExitCode::SUCCESS
        }
        Err(Difference(shown)) => {
            println!("DIFFERENCE in {shown}");
            ExitCode::FAILURE
        }
    }
}
