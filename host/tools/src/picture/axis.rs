//! The axis of ticks, the grid, and where the run ends.

use super::scale::AXIS_SIZE;
use super::style::{line, rectangle, soft_words, text_width, triangle, words, GRID, INK, SHADE};
use super::view::View;
use crate::svg::Element;

pub const HEIGHT: f64 = 58.0;

/// How far to the right the last number can reach.
pub fn right(view: &View) -> f64 {
    view.scale.right() + half_number(view.window.to)
}

/// Half the width of a number on the axis.
fn half_number(tick: u64) -> f64 {
    text_width(&tick.to_string(), AXIS_SIZE) / 2.0
}

/// The part of the plot that lies after the run, in a soft shade.
pub fn after_the_run(view: &View, top: f64, bottom: f64) -> Element {
    let from = view.run.clock.max(view.window.from);
    let mut group = Element::new("g").set("class", "after-the-run");
    if from < view.window.to {
        let x = view.scale.x(from);
        let shade = rectangle(x, top, view.scale.right() - x, bottom - top);
        group.add(shade.set("fill", SHADE));
    }
    group
}

/// Faint lines down to the numbers of the axis.
pub fn grid(view: &View, top: f64, bottom: f64) -> Element {
    let mut group = Element::new("g").set("class", "grid");
    for tick in view.scale.multiples(view.scale.step()) {
        let x = view.scale.x(tick);
        group.add(line(x, top, x, bottom, GRID));
    }
    group
}

pub fn draw(view: &View, y: f64) -> Element {
    let scale = &view.scale;
    let mut group = Element::new("g").set("class", "axis");
    group.add(line(scale.left(), y, scale.right(), y, INK));
    for tick in scale.multiples(scale.fine_step()) {
        group.add(line(scale.x(tick), y, scale.x(tick), y + 4.0, INK));
    }
    for tick in scale.multiples(scale.step()) {
        let x = scale.x(tick);
        group.add(line(x, y, x, y + 7.0, INK));
        let number = words(x, y + 20.0, AXIS_SIZE, &tick.to_string());
        group.add(number.set("class", "number").set("text-anchor", "middle"));
    }
    let before = scale.left() - half_number(view.window.from) - 8.0;
    let unit = soft_words(before, y + 20.0, AXIS_SIZE, "tick");
    group.add(unit.set("text-anchor", "end"));
    if view.window.from <= view.run.clock && view.run.clock <= view.window.to {
        add_end_of_run(view, y, &mut group);
    }
    group
}

fn add_end_of_run(view: &View, y: f64, group: &mut Element) {
    let x = view.scale.x(view.run.clock);
    group.add(triangle(x, y + 26.0, 7.0).set("class", "end-of-run"));
    // The words go to the side that has room for them.
    let (at, anchor) = if x > (view.scale.left() + view.scale.right()) / 2.0 {
        (x - 9.0, "end")
    } else {
        (x + 9.0, "start")
    };
    let text = format!("the run ends at tick {}", view.run.clock);
    group.add(soft_words(at, y + 34.0, AXIS_SIZE, &text).set("text-anchor", anchor));
}
