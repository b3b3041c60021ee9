//! What is drawn.

use super::scale::Scale;
use crate::canonical::Turn;
use crate::run::{Run, Span};

/// The run, the window on it, and the canonical schedule in that window.
pub struct View<'a> {
    pub run: &'a Run,
    pub window: Span,
    pub scale: Scale,
    pub turns: Vec<Turn>,
}
