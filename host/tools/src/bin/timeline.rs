//! `timeline`: a bench input as an SVG picture of its run.

use std::env;
use std::ffi::{OsStr, OsString};
use std::path::Path;
use std::process::ExitCode;
use tools::command::{end, read_input, write_output, Stop};
use tools::{picture, refusal, run};

const USAGE: &str =
    "usage: timeline [--from T] [--to T] [--pairs LIST] [FILE] > OUT.svg | timeline --help";

const HELP: &str = "\
timeline: a bench input as an SVG picture of its run

  timeline [--from T] [--to T] [--pairs LIST] [FILE] > OUT.svg

Without FILE, or with -, standard input is read. The picture goes from tick 0
to the end of the last order's hold; --from and --to cut out another part, up
to one hyperperiod past that end. Long runs are scaled down to fit.

Each task has a row: its jobs as bars where they ran, as high as the level is
fast among the loaded speeds, and beneath them the canonical (\"plain\")
schedule. Fixed ticks are hatched in both. A task with a floor has a line through
its bars, at the height of the lowest level that it is run at. Refused passes are
marked at their tick with their number. The legend tells the rest.

--pairs takes the file of a list of pairs, as pack to-pairs writes it. An arrow
then goes from the finish of each earlier task's job to the first bar of the
later task's job that arrived at the same tick.
";

#[derive(Default)]
struct Options {
    file: Option<OsString>,
    from: Option<u64>,
    to: Option<u64>,
    pairs: Option<OsString>,
    help: bool,
}

fn main() -> ExitCode {
    end("timeline", USAGE, run(env::args_os().skip(1)))
}

fn run(arguments: impl Iterator<Item = OsString>) -> Result<(), Stop> {
    let options = read_options(arguments)?;
    if options.help {
        return write_output(HELP.as_bytes());
    }
    let file = options.file.as_deref();
    let pairs = read_pairs(&options)?;
    let input = read_input(file)?;
    let run = run::follow_with_pairs(&input, &pairs).map_err(|number| {
        let meaning = refusal::meaning(number);
        Stop::Failure(format!("the input is refused with {number}: {meaning}"))
    })?;
    let window = picture::window(&run, options.from, options.to).map_err(Stop::Failure)?;
    write_output(picture::draw(&run, window, name_of(file).as_deref()).as_bytes())
}

/// The list of pairs, which is empty if none is given.
fn read_pairs(options: &Options) -> Result<Vec<u8>, Stop> {
    let list = match options.pairs.as_deref() {
        Some(list) => list,
        None => return Ok(Vec::new()),
    };
    let input = options.file.as_deref().unwrap_or(OsStr::new("-"));
    if list == "-" && input == "-" {
        let message = "standard input is the pairs or the input, not both";
        return Err(Stop::Usage(message.to_string()));
    }
    read_input(Some(list))
}

/// The file's own name, for the heading.
fn name_of(file: Option<&OsStr>) -> Option<String> {
    let name = Path::new(file.filter(|path| *path != "-")?).file_name()?;
    Some(name.to_string_lossy().into_owned())
}

fn read_options(mut arguments: impl Iterator<Item = OsString>) -> Result<Options, Stop> {
    let mut options = Options::default();
    while let Some(word) = arguments.next() {
        match word.to_str() {
            Some("--help" | "-h") => options.help = true,
            Some("--from") => options.from = Some(tick("--from", arguments.next())?),
            Some("--to") => options.to = Some(tick("--to", arguments.next())?),
            Some("--pairs") => options.pairs = Some(list(arguments.next())?),
            Some(other) if other.starts_with('-') && other != "-" => {
                return Err(Stop::Usage(format!("unknown option {other:?}")));
            }
            _ if options.file.is_some() => {
                return Err(Stop::Usage("at most one file".to_string()));
            }
            _ => options.file = Some(word),
        }
    }
    Ok(options)
}

fn list(word: Option<OsString>) -> Result<OsString, Stop> {
    word.ok_or_else(|| Stop::Usage("--pairs wants a file after it".to_string()))
}

fn tick(option: &str, word: Option<OsString>) -> Result<u64, Stop> {
    let number = word.as_deref().and_then(OsStr::to_str).map(str::parse);
    match number {
        Some(Ok(number)) => Ok(number),
        _ => Err(Stop::Usage(format!("{option} wants a tick after it"))),
    }
}
