//! From ticks to pixels.

use super::style::text_width;
use crate::run::Span;
use sim::numbers::div_ceil;

const WIDEST_TICK: f64 = 36.0;
const NARROWEST_PLOT: f64 = 520.0;
const WIDEST_PLOT: f64 = 1160.0;

pub const AXIS_SIZE: f64 = 11.0;

pub struct Scale {
    window: Span,
    left: f64,
    per_tick: f64,
}

impl Scale {
    /// Short runs get wide ticks; long ones are scaled down to the widest plot.
    pub fn new(window: Span, left: f64) -> Scale {
        let ticks = window.ticks() as f64;
        let width = (ticks * WIDEST_TICK).clamp(NARROWEST_PLOT, WIDEST_PLOT);
        Scale {
            window,
            left,
            per_tick: width / ticks,
        }
    }

    /// Where a tick of the window begins.
    pub fn x(&self, tick: u64) -> f64 {
        self.left + (tick - self.window.from) as f64 * self.per_tick
    }

    pub fn width(&self, ticks: u64) -> f64 {
        ticks as f64 * self.per_tick
    }

    pub fn left(&self) -> f64 {
        self.left
    }

    pub fn right(&self) -> f64 {
        self.x(self.window.to)
    }

    /// Whether the marks of two jobs that finish one tick apart can be told apart.
    pub fn has_room_for_finishes(&self) -> bool {
        self.per_tick >= 3.0
    }

    /// The ticks from one number on the axis to the next: 1, 2 or 5 times a power of ten, so that
    /// the numbers keep apart.
    pub fn step(&self) -> u64 {
        let room = text_width(&self.window.to.to_string(), AXIS_SIZE) + 16.0;
        let mut power = 1;
        loop {
            for step in [power, 2 * power, 5 * power] {
                if self.width(step) >= room {
                    return step;
                }
            }
            power *= 10;
        }
    }

    /// The ticks between the small marks of the axis: as fine as can be told apart.
    pub fn fine_step(&self) -> u64 {
        let step = self.step();
        for parts in [10, 5, 2] {
            if step % parts == 0 && self.width(step / parts) >= 5.0 {
                return step / parts;
            }
        }
        step
    }

    /// The multiples of a step in the window, both its ends included.
    pub fn multiples(&self, step: u64) -> impl Iterator<Item = u64> {
        let first = div_ceil(self.window.from, step);
        let last = self.window.to / step;
        (first..=last).map(move |nth| nth * step)
    }
}
