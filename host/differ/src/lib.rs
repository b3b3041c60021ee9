//! The proved library as Rust sees it. The tests beside it hold it to the simulator.

pub mod dispatcher;
pub mod proved;
