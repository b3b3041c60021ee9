//! The bench program, run as a process, held to the simulator's listing and to the stored examples.
//! Every input is a run of its own; `--nocapture` prints how many there were.

mod examples;
mod inputs;
mod program;
