//! The text form: a `speeds S1 S2 ..` line if the speeds are not 01's, `task PERIOD WORST [FIXED [FLOOR]]`
//! and `before EARLIER LATER` lines, then `pass D` and `finish D` lines. `#` starts a comment, and blank
//! lines say nothing.

use crate::script::{largest, Pass, Script, D_BITS, NUMBER_BITS};
use sim::block::{COUNT_BITS, FIXED_BITS, FLOOR_BITS, PERIOD_BITS, WORST_BITS};
use sim::level_block::{self, SPEED_BITS};
use sim::pairs::Pair;
use sim::plan::Task;
use std::fmt;

/// What is wrong with a line.
#[derive(Clone, PartialEq, Eq, Debug)]
pub enum Mistake {
    UnknownWord(String),
    Missing(&'static str),
    NotANumber(&'static str, String),
    OutOfRange(&'static str, String, usize),
    LeftOver(String),
    TooManySpeeds,
    SpeedsNotFirst,
    TooManyTasks,
    TaskAfterPass,
    PairAfterPass,
}

/// A mistake and its line, the first line being 1.
#[derive(Clone, PartialEq, Eq, Debug)]
pub struct TextError {
    pub line: usize,
    pub mistake: Mistake,
}

impl fmt::Display for Mistake {
    fn fmt(&self, out: &mut fmt::Formatter) -> fmt::Result {
        match self {
            Mistake::UnknownWord(word) => write!(
                out,
                "unknown word {word:?}; a line begins with speeds, task, before, pass or finish"
            ),
            Mistake::Missing(field) => write!(out, "the {field} is missing"),
            Mistake::NotANumber(field, word) => {
                write!(out, "the {field} {word:?} is not a decimal number")
            }
            Mistake::OutOfRange(field, word, bits) => write!(
                out,
                "the {field} {word} is out of range: its {bits} bits hold 0 to {}",
                largest(*bits)
            ),
            Mistake::LeftOver(word) => write!(out, "{word:?} is one word too many"),
            Mistake::TooManySpeeds => too_many(out, "speed", level_block::COUNT_BITS),
            Mistake::SpeedsNotFirst => write!(out, "the speeds come once, and before all else"),
            Mistake::TooManyTasks => too_many(out, "task", COUNT_BITS),
            Mistake::TaskAfterPass => write!(out, "a task after a pass; all tasks come first"),
            Mistake::PairAfterPass => write!(out, "a pair after a pass; all pairs come first"),
        }
    }
}

fn too_many(out: &mut fmt::Formatter, what: &str, bits: usize) -> fmt::Result {
    let most = largest(bits);
    write!(
        out,
        "one {what} too many: the {bits} bits of the count hold 0 to {most}"
    )
}

impl fmt::Display for TextError {
    fn fmt(&self, out: &mut fmt::Formatter) -> fmt::Result {
        write!(out, "line {}: {}", self.line, self.mistake)
    }
}

/// Reads the text form. The first mistake ends it.
pub fn parse(text: &str) -> Result<Script, TextError> {
    let mut script = Script::default();
    let mut first = true;
    for (place, line) in text.lines().enumerate() {
        let words: Vec<&str> = before_comment(line).split_whitespace().collect();
        enter_line(&mut script, &words, first).map_err(|mistake| TextError {
            line: place + 1,
            mistake,
        })?;
        first = first && words.is_empty();
    }
    Ok(script)
}

/// Writes the text form: the speeds if they are not 01's, the tasks, the pairs, a blank line, the
/// passes.
pub fn write(script: &Script) -> String {
    let mut text = String::new();
    if script.speeds != Script::default().speeds {
        text += "speeds";
        for speed in &script.speeds {
            text += &format!(" {speed}");
        }
        text += "\n";
    }
    for task in &script.tasks {
        text += &format!("task {} {}", task.period, task.worst);
        // A floor comes after the fixed ticks, so with one they are said even where there are none.
        if task.has_addition() {
            text += &format!(" {}", task.fixed);
        }
        if task.floor != 0 {
            text += &format!(" {}", task.floor);
        }
        text += "\n";
    }
    for pair in &script.pairs {
        text += &format!("before {} {}\n", pair.earlier, pair.later);
    }
    let has_plan = !script.tasks.is_empty() || !script.pairs.is_empty();
    if has_plan && !script.passes.is_empty() {
        text += "\n";
    }
    for pass in &script.passes {
        let word = if pass.finished { "finish" } else { "pass" };
        text += &format!("{word} {}\n", pass.d);
    }
    text
}

/// Enters what the words of a line say. No line before the first has said anything.
fn enter_line(script: &mut Script, words: &[&str], first: bool) -> Result<(), Mistake> {
    let mut words = words.iter().copied();
    match words.next() {
        None => return Ok(()),
        Some("speeds") if !first => return Err(Mistake::SpeedsNotFirst),
        Some("speeds") => enter_speeds(script, &mut words)?,
        Some("task") => enter_task(script, &mut words)?,
        Some("before") => enter_pair(script, &mut words)?,
        Some("pass") => enter_pass(script, &mut words, false)?,
        Some("finish") => enter_pass(script, &mut words, true)?,
        Some(other) => return Err(Mistake::UnknownWord(other.to_string())),
    }
    match words.next() {
        Some(word) => Err(Mistake::LeftOver(word.to_string())),
        None => Ok(()),
    }
}

fn before_comment(line: &str) -> &str {
    line.split('#').next().unwrap_or("")
}

/// As many as there are words; none at all is a count of 0.
fn enter_speeds<'a>(
    script: &mut Script,
    words: &mut impl Iterator<Item = &'a str>,
) -> Result<(), Mistake> {
    script.speeds.clear();
    for word in words {
        if script.speeds.len() as u64 == largest(level_block::COUNT_BITS) {
            return Err(Mistake::TooManySpeeds);
        }
        let speed = number(&mut [word].into_iter(), "speed", SPEED_BITS)?;
        script.speeds.push(speed);
    }
    Ok(())
}

/// Without the last number the task has no floor, and without the last two no fixed ticks either.
fn enter_task<'a>(
    script: &mut Script,
    words: &mut impl Iterator<Item = &'a str>,
) -> Result<(), Mistake> {
    if !script.passes.is_empty() {
        return Err(Mistake::TaskAfterPass);
    }
    if script.tasks.len() as u64 == largest(COUNT_BITS) {
        return Err(Mistake::TooManyTasks);
    }
    let period = number(words, "period", PERIOD_BITS)?;
    let worst = number(words, "worst case", WORST_BITS)?;
    let fixed = number_or_none(words, "number of fixed ticks", FIXED_BITS)?;
    let floor = number_or_none(words, "floor", FLOOR_BITS)?;
    script.tasks.push(Task {
        period,
        worst,
        fixed,
        floor,
    });
    Ok(())
}

/// As many as there are, and before or after the tasks that they name: a list that is refused can be
/// said too.
fn enter_pair<'a>(
    script: &mut Script,
    words: &mut impl Iterator<Item = &'a str>,
) -> Result<(), Mistake> {
    if !script.passes.is_empty() {
        return Err(Mistake::PairAfterPass);
    }
    let earlier = number(words, "earlier task", NUMBER_BITS)? as usize;
    let later = number(words, "later task", NUMBER_BITS)? as usize;
    script.pairs.push(Pair { earlier, later });
    Ok(())
}

fn enter_pass<'a>(
    script: &mut Script,
    words: &mut impl Iterator<Item = &'a str>,
    finished: bool,
) -> Result<(), Mistake> {
    let d = number(words, "d", D_BITS)? as u32;
    script.passes.push(Pass { d, finished });
    Ok(())
}

/// The next word as a number, or 0 if there is none.
fn number_or_none<'a>(
    words: &mut impl Iterator<Item = &'a str>,
    field: &'static str,
    bits: usize,
) -> Result<u64, Mistake> {
    match words.next() {
        Some(word) => number(&mut [word].into_iter(), field, bits),
        None => Ok(0),
    }
}

/// The next word as a number of at most so many bits. Digits only: no sign, no separators.
fn number<'a>(
    words: &mut impl Iterator<Item = &'a str>,
    field: &'static str,
    bits: usize,
) -> Result<u64, Mistake> {
    let word = words.next().ok_or(Mistake::Missing(field))?;
    if !word.bytes().all(|byte| byte.is_ascii_digit()) {
        return Err(Mistake::NotANumber(field, word.to_string()));
    }
    // Digits that are too many even for the parser are out of range as well.
    match word.parse::<u64>() {
        Ok(number) if number <= largest(bits) => Ok(number),
        _ => Err(Mistake::OutOfRange(field, word.to_string(), bits)),
    }
}
