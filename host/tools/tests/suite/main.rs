//! The tools held to document 01's example, to the simulator, and to each other.

mod arrows;
mod canonical;
mod commands;
mod common;
mod curves;
mod pack_bytes;
mod pack_text;
mod pictures;
mod refusals;
mod round_trips;
mod runs;
mod told;
mod xml;
mod xml_cases;
