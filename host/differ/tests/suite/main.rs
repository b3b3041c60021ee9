//! The proved library held to the cases of documents 01 and 02 and, call by call, to the simulator.
//! Over 9,000,000 calls are put to both, with 01's speeds and with those of random boards. What each
//! test has seen is printed with `--nocapture`.

mod blocks;
mod both;
mod buffers;
mod clocks;
mod dispatch;
mod document;
mod floored;
mod floors;
mod gaps;
mod knee;
mod lent;
mod levels;
mod lone;
mod made;
mod orders;
mod pairs;
mod passes;
mod plans;
mod queues;
mod refreshes;
mod refusals;
mod relations;
mod rounding;
mod runs;
mod starts;
mod states;
mod sums;
mod totals;
mod turns;
mod view;
