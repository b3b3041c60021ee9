//! `pack`: speeds, a plan and passes in plain text to a bench input, and back; and the pairs of the plan
//! to the list that starting takes.

use std::env;
use std::ffi::{OsStr, OsString};
use std::process::ExitCode;
use tools::command::{end, read_input, write_output, Stop};
use tools::script::Script;
use tools::{bench, refusal, text};

const USAGE: &str =
    "usage: pack to-bytes [FILE] | pack to-text [FILE] | pack to-pairs [FILE] | pack --help";

const HELP: &str = "\
pack: speeds, a plan and passes in plain text to a bench input, and back

  pack to-bytes [FILE]   text form to bench input, on standard output
  pack to-text [FILE]    bench input to text form, on standard output
  pack to-pairs [FILE]   the pairs of the text form as the bytes that starting
                         takes, on standard output

Without FILE, or with -, standard input is read.

The text form, line by line:

  speeds S1 S2 ..        the levels' speeds, before all else; without this line
                         10 20 30 40 50 60 80 100
  task PERIOD WORST [FIXED [FLOOR]]
                         a task, FIXED being its fixed ticks and FLOOR the lowest
                         level that it is run at, each 0 where it is left out; all
                         tasks come before the passes
  before EARLIER LATER   a pair: task LATER reads what task EARLIER wrote; all
                         pairs come before the passes, and before or after the
                         tasks
  pass D                 D ticks went by, the running job has not finished
  finish D               D ticks went by, the running job finished at their end
  # ...                  a comment, also after one of the above

Blank lines are ignored. Numbers are decimal: a speed 0 to 1023, PERIOD 0 to
65535, WORST 0 to 1048575, FIXED 0 to 255, FLOOR 0 to 7, EARLIER and LATER 0 to
255, D 0 to 32767; at most 15 speeds and 31 tasks. The plan block is of edition 2
if a task has fixed ticks or a floor, else of edition 1. The bench program takes
no pairs: to-bytes leaves them out, with a warning, and to-text knows of none.
What the dispatcher would refuse can be packed too, as long as it fits; a warning
then names the refusal.

Errors name the line of the text (from 1) or the byte of the input (from 0).
";

fn main() -> ExitCode {
    let arguments: Vec<OsString> = env::args_os().skip(1).collect();
    end("pack", USAGE, run(&arguments))
}

fn run(arguments: &[OsString]) -> Result<(), Stop> {
    let words: Vec<&OsStr> = arguments.iter().map(OsString::as_os_str).collect();
    if words.iter().any(|word| *word == "--help" || *word == "-h") {
        return write_output(HELP.as_bytes());
    }
    let (action, file) = match words[..] {
        [action] => (action, None),
        [action, file] => (action, Some(file)),
        _ => return Err(Stop::Usage("one action and at most one file".to_string())),
    };
    match action.to_str() {
        Some("to-bytes") => to_bytes(file),
        Some("to-text") => to_text(file),
        Some("to-pairs") => to_pairs(file),
        _ => Err(Stop::Usage(format!("unknown action {action:?}"))),
    }
}

fn read_text(file: Option<&OsStr>) -> Result<Script, Stop> {
    let input = read_input(file)?;
    // A comment may have any bytes in it.
    text::parse(&String::from_utf8_lossy(&input)).map_err(|error| failure(file, error))
}

fn to_bytes(file: Option<&OsStr>) -> Result<(), Stop> {
    let script = read_text(file)?;
    warn(&script);
    if !script.pairs.is_empty() {
        eprintln!("pack: warning: the bench program takes no pairs; they are left out");
    }
    if bench::start_refusal(&script) == Some(22) {
        warn_of_start(22);
    }
    write_output(&bench::to_bytes(&script))
}

/// What starting would ask before 22 it asks of the plan, so that is named too.
fn to_pairs(file: Option<&OsStr>) -> Result<(), Stop> {
    let script = read_text(file)?;
    if let Some(number) = bench::start_refusal(&script) {
        warn_of_start(number);
    }
    write_output(&bench::to_pairs(&script))
}

fn to_text(file: Option<&OsStr>) -> Result<(), Stop> {
    let input = read_input(file)?;
    let script = bench::from_bytes(&input).map_err(|error| failure(file, error))?;
    warn(&script);
    write_output(text::write(&script).as_bytes())
}

fn failure(file: Option<&OsStr>, error: impl std::fmt::Display) -> Stop {
    let place = match file {
        Some(path) if path != "-" => path.to_string_lossy().into_owned(),
        _ => "standard input".to_string(),
    };
    Stop::Failure(format!("{place}: {error}"))
}

/// Names the refusal of a start with the pairs.
fn warn_of_start(number: u32) {
    let meaning = refusal::meaning(number);
    eprintln!("pack: warning: starting refuses this with {number}: {meaning}");
}

/// Names the refusal if the bench program would take no pass of this.
fn warn(script: &Script) {
    if let Some(number) = bench::refusal(script) {
        let meaning = refusal::meaning(number);
        eprintln!("pack: warning: the bench program refuses this with {number}: {meaning}");
    }
}
