//! The proved dispatcher and the damping measured against ones written by hand to be fast.

#![warn(unsafe_op_in_unsafe_fn)]

pub mod calls;
pub mod fast;
pub mod inputs;
pub mod measure;
pub mod stack;
