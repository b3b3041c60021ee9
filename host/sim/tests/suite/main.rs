//! The simulator held to the cases and examples of documents 01 and 02, and to itself in random runs.

mod astray;
mod base;
mod bench;
mod blocks;
mod books;
mod common;
mod edges;
mod fixed_plans;
mod fixed_ticks;
mod floors;
mod generators;
mod knee;
mod level_blocks;
mod lone;
mod pairs;
mod passes;
mod refusals;
mod runs;
mod soundness;
mod tables;
mod total;
