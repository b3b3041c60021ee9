//! What the tools are made of: for the bench `pack` (text to bench input and back) and `timeline` (the
//! picture of a run), with the simulator's answers; and `curve` (the picture of the damping), with those
//! of the proved library.

pub mod bench;
pub mod canonical;
pub mod command;
pub mod curve;
pub mod picture;
pub mod refusal;
pub mod run;
pub mod script;
pub mod svg;
pub mod text;
