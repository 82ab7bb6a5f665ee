//! Texts through the built program: what it prints, however its input comes, and that it ends where
//! its output is closed or the system fails.

use crate::entries::Comparison;
use crate::tally::{Difference, Outcome, parting};
use reference::TEXT_LIMIT;
use std::fs::File;
use std::io::{self, Read, Write};
use std::os::fd::OwnedFd;
use std::os::unix::net::UnixDatagram;
use std::path::Path;
use std::process::{Child, Command, ExitStatus, Output, Stdio};
use std::thread;
use std::time::{Duration, Instant};

/// How a text comes to the program, in pieces of these sizes in turn.
#[derive(Clone, Debug)]
pub enum Input {
    /// Through a pipe: a read gets what has come by then.
    Piped(Vec<usize>),
    /// By a socket that keeps the pieces apart: a read gets one of them, and at last an empty one.
    Apart(Vec<usize>),
}

/// The program ends well before this.
const PATIENCE: Duration = Duration::from_secs(60);

/// Sends a text in pieces of these sizes, in turn, and then an empty piece. A program that has read
/// enough may close its input: the rest is then not sent.
fn feed(text: &[u8], sizes: &[usize], mut send: impl FnMut(&[u8]) -> io::Result<()>) {
    let mut rest = text;
    for &size in sizes.iter().cycle() {
        let (piece, more) = rest.split_at(size.min(rest.len()));
        if send(piece).is_err() || piece.is_empty() {
            return;
        }
        rest = more;
    }
}

/// How the program ends. It is ended where it takes too long.
fn ended(child: &mut Child) -> io::Result<ExitStatus> {
    let start = Instant::now();
    let mut pause = Duration::from_micros(50);
    loop {
        if let Some(status) = child.try_wait()? {
            return Ok(status);
        }
        if start.elapsed() > PATIENCE {
            child.kill()?;
            child.wait()?;
            return Err(io::ErrorKind::TimedOut.into());
        }
        thread::sleep(pause);
        pause = (2 * pause).min(Duration::from_millis(2));
    }
}

fn read(mut output: impl Read) -> Vec<u8> {
    let mut bytes = Vec::new();
    output.read_to_end(&mut bytes).expect("a pipe is read");
    bytes
}

/// Runs the program while `feed` feeds it, takes so many bytes of what it prints, and then closes
/// its output.
fn run(mut program: Command, feed: impl FnOnce() + Send, taken: usize) -> io::Result<Output> {
    let mut child = program.stderr(Stdio::piped()).spawn()?;
    drop(program); // and with it this side's copy of the input, which the child alone reads
    let printed = child.stdout.take();
    let said = child.stderr.take();
    thread::scope(|scope| {
        scope.spawn(feed);
        let stdout =
            scope.spawn(move || printed.map_or(Vec::new(), |p| read(p.take(taken as u64))));
        let stderr = scope.spawn(move || said.map_or(Vec::new(), read));
        let status = ended(&mut child)?;
        let [stdout, stderr] = [stdout, stderr].map(|bytes| bytes.join().expect("a pipe is read"));
        Ok(Output { status, stdout, stderr })
    })
}

fn command(program: &Path, input: impl Into<Stdio>, output: impl Into<Stdio>) -> Command {
    let mut command = Command::new(program);
    command.stdin(input).stdout(output);
    command
}

/// Runs the program on a text that comes in this way, and takes so many bytes of what it prints.
fn run_on(program: &Path, text: &[u8], input: &Input, taken: usize) -> io::Result<Output> {
    match input {
        Input::Piped(sizes) => {
            let (theirs, mut ours) = io::pipe()?;
            let send = move |piece: &[u8]| ours.write_all(piece);
            let program = command(program, theirs, Stdio::piped());
            run(program, || feed(text, sizes, send), taken)
        }
        Input::Apart(sizes) => {
            let (theirs, ours) = UnixDatagram::pair()?;
            let send = move |piece: &[u8]| ours.send(piece).map(drop);
            let program = command(program, OwnedFd::from(theirs), Stdio::piped());
            run(program, || feed(text, sizes, send), taken)
        }
    }
}

impl Comparison {
    /// What the program prints for a text that comes in this way.
    pub fn program(&mut self, program: &Path, text: &[u8], input: &Input) -> Outcome {
        let failed = |what: String| {
            Difference(format!(
                "{}\n{input:?}\ntext of {} bytes \"{}\"\n{what}",
                program.display(),
                text.len(),
                text.escape_ascii()
            ))
        };
        let output = run_on(program, text, input, usize::MAX)
            .map_err(|error| failed(format!("does not start or end: {error}")))?;
        let expected = reference::report(text);
        if !output.status.success() || output.stdout != expected || !output.stderr.is_empty() {
            let said = output.stderr.escape_ascii();
            let parting = parting(&expected, &output.stdout);
            return Err(failed(format!(
                "{parting}\n{}, on standard error \"{said}\"",
                output.status
            )));
        }
        self.tally.add("the program", 0);
        Ok(())
    }

    /// What the program is given whatever the seed: short texts in reads of every size, long texts
    /// in some.
    pub fn fixed_program(&mut self, program: &Path) -> Outcome {
        let short = [
            "",
            "\n",
            "\n\n",
            "0 0",
            "0 0\n",
            "0 0\n4 0\n1 3\n5 4\n2 1\n6 7\n",
            "0 0\n4 0\n1 3\n5 4\n2 1\n6 7",
            "1000000001 0\n-0 1\n10000000000 2\n",
            "7 7\n7 7\n8 8\n9 9\n",
        ];
        for text in short.map(str::as_bytes) {
            for size in 1..=text.len() + 1 {
                self.program(program, text, &Input::Apart(vec![size]))?;
                self.program(program, text, &Input::Piped(vec![size]))?;
            }
        }
        for length in [TEXT_LIMIT - 1, TEXT_LIMIT, TEXT_LIMIT + 1, 10 * TEXT_LIMIT] {
            let blank = vec![b'\n'; length];
            let lines: Vec<u8> = b"12 345\n".iter().copied().cycle().take(length).collect();
            for sizes in [vec![1], vec![2, 3, 5], vec![4096], vec![TEXT_LIMIT, 1]] {
                self.program(program, &lines, &Input::Apart(sizes))?;
            }
            self.program(program, &lines, &Input::Piped(vec![TEXT_LIMIT, 1]))?;
            self.program(program, &blank, &Input::Piped(vec![1000]))?;
            self.program(program, &blank, &Input::Apart(vec![1, TEXT_LIMIT - 1]))?;
        }
        self.closed_output(program)?;
        self.failing_system(program)
    }

    /// The program ends where nobody reads on, and has printed the beginning of its report.
    fn closed_output(&mut self, program: &Path) -> Outcome {
        let text = [b'\n'; TEXT_LIMIT];
        let report = reference::report(&text);
        for taken in [0, 1, 1000, 70_000, report.len() - 1] {
            let failed = |what: String| {
                let shown = program.display();
                Difference(format!("{shown}\nits output is closed after {taken} bytes\n{what}"))
            };
            let output = run_on(program, &text, &Input::Piped(vec![TEXT_LIMIT]), taken)
                .map_err(|error| failed(format!("does not start or end: {error}")))?;
            if output.stdout != report[..taken] {
                return Err(failed(parting(&report[..taken], &output.stdout)));
            }
            self.tally.add("the program, its output closed", 0);
        }
        Ok(())
    }

    /// The program says on standard error that it cannot read or write.
    fn failing_system(&mut self, program: &Path) -> Outcome {
        let failed = |what: String| Difference(format!("{}\n{what}", program.display()));
        let unread = File::open("/")
            .and_then(|folder| run(command(program, folder, Stdio::piped()), || (), usize::MAX));
        let unwritten = File::create("/dev/full")
            .and_then(|full| run(command(program, Stdio::null(), full), || (), 0));
        for (what, output) in [("standard input", unread), ("standard output", unwritten)] {
            let output = output.map_err(|error| failed(format!("{what}: {error}")))?;
            if !output.stdout.is_empty() || output.stderr.is_empty() {
                return Err(failed(format!("{what} fails, and it says {output:?}")));
            }
            self.tally.add("the program, the system failing", 0);
        }
        Ok(())
    }
}
