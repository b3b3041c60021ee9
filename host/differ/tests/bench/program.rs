//! Runs the bench program, and holds what it writes to the simulator's listing.

use sim::listing;
use std::collections::BTreeMap;
use std::fs::File;
use std::io::{ErrorKind, Write};
use std::path::{Path, PathBuf};
use std::process::{Command, Output, Stdio};
use std::thread;
use std::time::Duration;

fn top() -> PathBuf {
    Path::new(env!("CARGO_MANIFEST_DIR")).join("../..")
}

/// The folder of the stored inputs and listings.
pub fn examples() -> PathBuf {
    top().join("examples")
}

fn bench(stdin: Stdio) -> Command {
    let program = top().join("target/bin/bench");
    assert!(
        program.is_file(),
        "{} is missing: `make host` makes it",
        program.display()
    );
    let mut command = Command::new(program);
    command
        .stdin(stdin)
        .stdout(Stdio::piped())
        .stderr(Stdio::piped());
    command
}

/// What the program wrote. It has nothing to say beside its listing, and always ends well.
#[track_caller]
fn written(output: Output) -> Vec<u8> {
    assert!(output.status.success(), "{:?}", output.status);
    assert!(output.stderr.is_empty(), "{:?}", text(&output.stderr));
    output.stdout
}

/// The listing of an input that is a file.
#[track_caller]
pub fn from_file(path: &Path) -> Vec<u8> {
    let file = File::open(path).expect("the input is there");
    let output = bench(file.into()).output().expect("the program runs");
    written(output)
}

/// The listing of an input that comes through a pipe in pieces of this size, with a pause after
/// each but the last.
#[track_caller]
pub fn from_pipe(input: &[u8], size: usize) -> Vec<u8> {
    let mut child = bench(Stdio::piped()).spawn().expect("the program runs");
    let mut pipe = child.stdin.take().expect("its input is a pipe");
    let output = thread::scope(|scope| {
        scope.spawn(move || {
            for (place, piece) in input.chunks(size).enumerate() {
                if place > 0 {
                    thread::sleep(Duration::from_millis(2));
                }
                match pipe.write_all(piece) {
                    // It needn't read on when it has seen enough.
                    Err(error) if error.kind() == ErrorKind::BrokenPipe => return,
                    result => result.expect("the pipe takes the input"),
                }
            }
        });
        child.wait_with_output().expect("the program ends")
    });
    written(output)
}

pub fn text(bytes: &[u8]) -> String {
    String::from_utf8_lossy(bytes).into_owned()
}

/// Counts the inputs put to both sides, and the lines on which they agreed, by what they say.
#[derive(Default)]
pub struct Both {
    inputs: u64,
    lines: BTreeMap<String, u64>,
}

impl Both {
    pub fn new() -> Both {
        Both::default()
    }

    /// The program's listing of the input, which must be the simulator's byte by byte.
    #[track_caller]
    pub fn list(&mut self, input: &[u8]) -> String {
        self.list_in_pieces(input, input.len().max(1))
    }

    #[track_caller]
    pub fn list_in_pieces(&mut self, input: &[u8], size: usize) -> String {
        let wanted = text(&listing(input));
        let got = text(&from_pipe(input, size));
        if got != wanted {
            panic!("{}", first_difference(input, &got, &wanted));
        }
        self.inputs += 1;
        for line in wanted.lines() {
            *self.lines.entry(said(line)).or_default() += 1;
        }
        wanted
    }

    /// Wants such a line at least so often, as "run", "idle", "plan" or "refused 12".
    #[track_caller]
    pub fn wants(&self, said: &str, least: u64) {
        let times = self.lines.get(said).copied().unwrap_or(0);
        assert!(times >= least, "{said:?} only {times} times");
    }

    /// Wants so many inputs, and prints what came of them.
    #[track_caller]
    pub fn saw(&self, what: &str, least: u64) {
        println!("{what}: {} inputs, {:?}", self.inputs, self.lines);
        assert!(self.inputs >= least, "only {} inputs", self.inputs);
    }
}

/// What kind of line it is.
fn said(line: &str) -> String {
    let words: Vec<&str> = line.split(' ').collect();
    match words[0] {
        "plan" => "plan".into(),
        "refused" => line.into(),
        _ => words[1].into(),
    }
}

fn first_difference(input: &[u8], got: &str, wanted: &str) -> String {
    let beginning = &input[..input.len().min(80)];
    let place = got
        .split('\n')
        .zip(wanted.split('\n'))
        .position(|(one, other)| one != other);
    let line = |text: &str| place.and_then(|place| text.split('\n').nth(place).map(String::from));
    format!(
        "line {place:?}: {:?} instead of {:?}; {} bytes of input: {beginning:02x?}",
        line(got),
        line(wanted),
        input.len()
    )
}
