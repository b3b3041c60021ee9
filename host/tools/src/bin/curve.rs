//! `curve`: the damping curve as an SVG picture, as the proved library answers it.

use sim::knee::{LARGEST_ANGLE, POINTS, SMALLEST_ANGLE};
use std::env;
use std::process::ExitCode;
use tools::command::{end, write_output, Stop};
use tools::curve::{draw, Curve};

const USAGE: &str = "usage: curve > OUT.svg";

fn main() -> ExitCode {
    end("curve", USAGE, run())
}

fn run() -> Result<(), Stop> {
    if env::args_os().len() > 1 {
        return Err(Stop::Usage("it takes no arguments".to_string()));
    }
    let dampings: Result<Vec<u64>, u32> = (SMALLEST_ANGLE..=LARGEST_ANGLE)
        .map(differ::proved::damping)
        .collect();
    let dampings =
        dampings.map_err(|number| Stop::Failure(format!("an angle is refused with {number}")))?;
    let curve = Curve {
        lowest: SMALLEST_ANGLE,
        dampings: &dampings,
    };
    write_output(draw(&curve, &POINTS).as_bytes())
}
