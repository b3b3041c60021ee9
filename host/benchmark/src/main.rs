//! Measures the dispatcher's calls, and the one for the damping.
//!
//! - `benchmark time`: for each call and count of tasks, the nanoseconds of the proved call, of the
//!   one written by hand, and their ratio; `<2` and no ratio where there are fewer than can be told.
//! - `benchmark stack`: the same with the bytes of stack.
//! - `benchmark calls`: how many inputs each measurement has, and how many calls `count` makes of them.
//! - `benchmark count CALL TASKS WHICH`: makes these calls, for a tool that counts instructions.
//!   WHICH is proved, hand or none; the count for none, taken off, leaves what the calls cost.

use benchmark::calls::{Calls, BY_HAND, PROVED};
use benchmark::inputs::inputs;
use benchmark::measure::{round, times, Call, CALLS, COUNTS};
use benchmark::stack::most_used;
use std::env::args;
use std::process::ExitCode;

const TIMED_ROUNDS: usize = 400;
const COUNTED_ROUNDS: usize = 4;

/// Nanoseconds. Rounds without calls differ by as much, so less cannot be told.
const LEAST_TIME: f64 = 2.0;

fn main() -> ExitCode {
    let words: Vec<String> = args().skip(1).collect();
    let words: Vec<&str> = words.iter().map(String::as_str).collect();
    let is_done = match words[..] {
        ["time"] => print_times(),
        ["stack"] => print_stack(),
        ["calls"] => print_calls(),
        ["count", call, tasks, which] => count(call, tasks, which).is_some(),
        _ => false,
    };
    if is_done {
        return ExitCode::SUCCESS;
    }
    eprintln!("usage: benchmark time | stack | calls | count CALL TASKS WHICH");
    ExitCode::FAILURE
}

fn print_times() -> bool {
    for call in CALLS {
        for &tasks in call.counts() {
            let (proved, hand) = times(call, &inputs(tasks), TIMED_ROUNDS);
            println!("{} {tasks} {}", call.name(), compared(proved, hand));
        }
    }
    true
}

/// Both times and their ratio. There is none of a time that is too short to be told.
fn compared(proved: f64, hand: f64) -> String {
    if proved.min(hand) < LEAST_TIME {
        return format!("{} {} -", told(proved), told(hand));
    }
    format!("{} {} {:.2}", told(proved), told(hand), proved / hand)
}

fn told(time: f64) -> String {
    if time < LEAST_TIME {
        format!("<{LEAST_TIME}")
    } else {
        format!("{time:.0}")
    }
}

fn print_stack() -> bool {
    for call in CALLS {
        for &tasks in call.counts() {
            let inputs = inputs(tasks);
            let [proved, hand] = [PROVED, BY_HAND].map(|calls| most_used(call, &calls, &inputs));
            println!("{} {tasks} {proved} {hand}", call.name());
        }
    }
    true
}

fn print_calls() -> bool {
    let inputs = inputs(COUNTS[0]).len();
    println!("{inputs} {}", COUNTED_ROUNDS * inputs);
    true
}

fn count(call: &str, tasks: &str, which: &str) -> Option<()> {
    let (call, calls) = (Call::named(call)?, Calls::named(which)?);
    let tasks = tasks
        .parse()
        .ok()
        .filter(|tasks| (1..=16).contains(tasks))?;
    let inputs = inputs(tasks);
    for _ in 0..COUNTED_ROUNDS {
        round(call, &calls, &inputs);
    }
    Some(())
}
