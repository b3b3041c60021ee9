//! Colours, letters and small shapes.

use crate::svg::{px, Element};
use sim::levels::Levels;

pub const FONT: &str = "Verdana, DejaVu Sans, Arial, sans-serif";

pub const PAPER: &str = "#ffffff";
pub const INK: &str = "#1f2937";
pub const SOFT: &str = "#5b6472";
pub const GRID: &str = "#e3e7ec";
pub const SHADE: &str = "#f2f4f7";
pub const CANONICAL: &str = "#bcc5d1";
pub const REFUSED: &str = "#c21f2c";
pub const PAIR: &str = "#9b2fae";
pub const FLOOR: &str = "#e8590c";

/// One colour a level, from pale and slow to dark and fast. Darker also in print without colours.
const COLOURS: [&str; 8] = [
    "#d6e36a", "#a5d46a", "#62c3a3", "#33adb3", "#1d8dc0", "#2f6cb5", "#2c3f9e", "#0b1f5c",
];

/// A table with more levels than there are colours has the last one for all the rest.
pub fn colour(level: usize) -> &'static str {
    COLOURS[level.min(COLOURS.len() - 1)]
}

/// How high a bar of the level is if the fastest level has this height. Heights go with the
/// speeds, so that the area of a bar goes with the work done.
pub fn level_height(levels: &Levels, level: usize, full: f64) -> f64 {
    full * levels.speed(level) as f64 / levels.speed(levels.top()) as f64
}

/// About how wide the text is; no letters are measured.
pub fn text_width(text: &str, size: f64) -> f64 {
    0.64 * size * text.chars().count() as f64
}

/// Text with its base line at y, starting at x.
pub fn words(x: f64, y: f64, size: f64, text: &str) -> Element {
    Element::new("text")
        .px(&[("x", x), ("y", y), ("font-size", size)])
        .set("fill", INK)
        .text(text)
}

/// The same in the softer colour, for what matters less.
pub fn soft_words(x: f64, y: f64, size: f64, text: &str) -> Element {
    Element::new("text")
        .px(&[("x", x), ("y", y), ("font-size", size)])
        .set("fill", SOFT)
        .text(text)
}

pub fn rectangle(x: f64, y: f64, width: f64, height: f64) -> Element {
    Element::new("rect").px(&[("x", x), ("y", y), ("width", width), ("height", height)])
}

pub fn line(x1: f64, y1: f64, x2: f64, y2: f64, colour: &str) -> Element {
    Element::new("line")
        .px(&[("x1", x1), ("y1", y1), ("x2", x2), ("y2", y2)])
        .set("stroke", colour)
}

/// An arrival points up.
pub fn arrival_mark(x: f64, y: f64) -> Element {
    triangle(x, y, 7.0).set("class", "arrival")
}

/// A deadline points down.
pub fn deadline_mark(x: f64, y: f64) -> Element {
    triangle(x, y, -7.0).set("class", "deadline")
}

/// A triangle with its point at (x, y) and its base so far below; above if that is negative.
pub fn triangle(x: f64, y: f64, tall: f64) -> Element {
    let base = px(y + tall);
    let path = format!(
        "M{} {}L{} {base}L{} {base}Z",
        px(x),
        px(y),
        px(x - 4.0),
        px(x + 4.0)
    );
    Element::new("path").set("d", path).set("fill", INK)
}

/// The end of a job, at the top corner of its bar.
pub fn finish_mark(x: f64, y: f64) -> Element {
    Element::new("circle")
        .set("class", "finish")
        .px(&[("cx", x), ("cy", y), ("r", 3.2)])
        .set("fill", PAPER)
        .set("stroke", INK)
        .set("stroke-width", 1.6)
}

/// A refused pass: a cross around (x, y).
pub fn refused_mark(x: f64, y: f64) -> Element {
    let (left, right, top, low) = (px(x - 4.0), px(x + 4.0), px(y - 4.0), px(y + 4.0));
    Element::new("path")
        .set("class", "refused")
        .set(
            "d",
            format!("M{left} {top}L{right} {low}M{left} {low}L{right} {top}"),
        )
        .set("stroke", REFUSED)
        .set("stroke-width", 2)
}

/// How long the two strokes of an arrow's head are, and how far they stand off its line.
const HEAD_LONG: f64 = 7.0;
const HEAD_WIDE: f64 = 3.5;

/// An arrow from one point to another: its line, then the two strokes of its head.
pub fn pair_arrow(x1: f64, y1: f64, x2: f64, y2: f64) -> Element {
    let length = (x2 - x1).hypot(y2 - y1);
    let (right, down) = ((x2 - x1) / length, (y2 - y1) / length);
    let (x, y) = (x2 - HEAD_LONG * right, y2 - HEAD_LONG * down);
    let stroke = |side: f64| format!("L{} {}", px(x - side * down), px(y + side * right));
    let (from, to) = (
        format!("M{} {}", px(x1), px(y1)),
        format!("{} {}", px(x2), px(y2)),
    );
    let (one, other) = (stroke(HEAD_WIDE), stroke(-HEAD_WIDE));
    Element::new("path")
        .set("class", "pair")
        .set("d", format!("{from}L{to}{one}M{to}{other}"))
        .set("fill", "none")
        .set("stroke", PAIR)
        .set("stroke-width", 1.3)
        .set("stroke-opacity", 0.8)
}

/// The time that a job left unused by ending early.
pub fn unused_box(x: f64, y: f64, width: f64, height: f64) -> Element {
    rectangle(x, y, width, height)
        .set("class", "early")
        .set("fill", "none")
        .set("stroke", SOFT)
        .set("stroke-dasharray", "2 3")
}

/// What the last order says, not yet run.
pub fn ordered_box(x: f64, y: f64, width: f64, height: f64, colour: &str) -> Element {
    rectangle(x, y, width, height)
        .set("class", "ordered")
        .set("fill", colour)
        .set("fill-opacity", 0.3)
        .set("stroke", INK)
        .set("stroke-dasharray", "6 3")
}

pub fn bar(x: f64, y: f64, width: f64, height: f64, level: usize) -> Element {
    rectangle(x, y, width, height)
        .set("class", format!("bar level-{level}"))
        .set("fill", colour(level))
}

pub fn canonical_bar(x: f64, y: f64, width: f64, height: f64) -> Element {
    rectangle(x, y, width, height)
        .set("class", "canonical")
        .set("fill", CANONICAL)
}

/// The fixed ticks of a bar, in lines between which that bar shows.
pub fn fixed_part(class: &str, x: f64, y: f64, width: f64, height: f64) -> Element {
    rectangle(x, y, width, height)
        .set("class", class)
        .set("fill", "url(#fixed-lines)")
}

/// The ticks of a bar that come after the job's plain finish: the bar's colour paler.
pub fn narrow_past_part(class: &str, x: f64, y: f64, width: f64, height: f64) -> Element {
    rectangle(x, y, width, height)
        .set("class", class)
        .set("fill", PAPER)
        .set("fill-opacity", 0.55)
}

/// The same with a dashed outline, where there is room for one.
pub fn past_part(class: &str, x: f64, y: f64, width: f64, height: f64) -> Element {
    narrow_past_part(class, x, y, width, height)
        .set("stroke", INK)
        .set("stroke-dasharray", "3 2")
}

pub fn idle_bar(x: f64, y: f64, width: f64, height: f64) -> Element {
    rectangle(x, y, width, height)
        .set("class", "idle")
        .set("fill", "url(#idle-stripes)")
        .set("stroke", SOFT)
}

/// Too narrow for stripes.
pub fn narrow_idle_bar(x: f64, y: f64, width: f64, height: f64) -> Element {
    rectangle(x, y, width, height)
        .set("class", "idle")
        .set("fill", SOFT)
        .set("fill-opacity", 0.5)
}

/// The line at the height of the nominal level.
pub fn nominal_line(x1: f64, x2: f64, y: f64) -> Element {
    line(x1, y, x2, y, SOFT)
        .set("class", "nominal")
        .set("stroke-opacity", 0.6)
        .set("stroke-dasharray", "1 4")
}

/// The line at the height of a task's floor. It goes over the bars, in a colour that no level has.
pub fn floor_line(x1: f64, x2: f64, y: f64) -> Element {
    line(x1, y, x2, y, FLOOR)
        .set("class", "floor")
        .set("stroke-width", 1.4)
}

pub fn patterns() -> Element {
    let stripe = Element::new("path")
        .set("d", "M-2 2L2 -2M0 8L8 0M6 10L10 6")
        .set("stroke", SOFT)
        .set("stroke-width", 1.2);
    let stripes = Element::new("pattern")
        .set("id", "idle-stripes")
        .set("patternUnits", "userSpaceOnUse")
        .px(&[("width", 8.0), ("height", 8.0)])
        .with(rectangle(0.0, 0.0, 8.0, 8.0).set("fill", SHADE))
        .with(stripe);
    let hatch = Element::new("path")
        .set("d", "M-1 -1L7 7M-1 5L1 7M5 -1L7 1")
        .set("stroke", PAPER)
        .set("stroke-width", 1.6);
    let hatching = Element::new("pattern")
        .set("id", "fixed-lines")
        .set("patternUnits", "userSpaceOnUse")
        .px(&[("width", 6.0), ("height", 6.0)])
        .with(hatch);
    Element::new("defs").with(stripes).with(hatching)
}

/// `1 tick`, `2 ticks`.
pub fn ticks(number: u64) -> String {
    let ending = if number == 1 { "" } else { "s" };
    format!("{number} tick{ending}")
}
