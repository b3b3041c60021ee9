//! What the signs mean.

use super::style::{
    arrival_mark, bar, canonical_bar, colour, deadline_mark, finish_mark, fixed_part, floor_line,
    idle_bar, level_height, nominal_line, ordered_box, pair_arrow, past_part, rectangle,
    refused_mark, soft_words, text_width, unused_box, words, INK,
};
use crate::run::Run;
use crate::svg::Element;
use sim::levels::Levels;

const SIZE: f64 = 10.0;
const LINE: f64 = 22.0;
const SIGN: f64 = 26.0;
const GAP: f64 = 22.0;
const SWATCH: f64 = 26.0;
const SCALE: f64 = 24.0;

/// A sign drawn into a box with this left edge and this middle line, and its meaning.
type Item = (fn(f64, f64) -> Element, &'static str);

const ITEMS: [Item; 11] = [
    (|x, y| arrival_mark(x + 13.0, y - 4.0), "arrival of a job"),
    (|x, y| deadline_mark(x + 13.0, y + 4.0), "deadline of a job"),
    (|x, y| finish_mark(x + 13.0, y), "the job finished"),
    (hatched, "fixed ticks: as long at every level"),
    (paler, "past its plain finish (02, No. 4)"),
    (
        |x, y| unused_box(x, y - 6.0, 24.0, 12.0),
        "unused: the job ended so many ticks early",
    ),
    (
        |x, y| ordered_box(x, y - 6.0, 24.0, 12.0, colour(5)),
        "ordered, not run yet",
    ),
    (
        |x, y| canonical_bar(x, y - 4.0, 24.0, 8.0),
        "canonical (\u{201c}plain\u{201d}) schedule",
    ),
    (|x, y| nominal_line(x, x + 24.0, y), "nominal level"),
    (|x, y| idle_bar(x, y - 6.0, 24.0, 12.0), "idle"),
    (
        |x, y| refused_mark(x + 13.0, y),
        "refused pass, with its number",
    ),
];

/// Told only if a task has a floor.
const FLOOR: Item = (
    |x, y| floor_line(x, x + 24.0, y),
    "floor: the lowest level that the task is run at (02, No. 8)",
);

/// Told only if there are pairs.
const PAIR: Item = (
    |x, y| pair_arrow(x + 1.0, y - 5.0, x + 22.0, y + 5.0),
    "pair: the earlier job finished, the later one began",
);

/// Fixed ticks, on a bar of some level.
fn hatched(x: f64, y: f64) -> Element {
    on_a_bar(x, y, |y, wide, high| fixed_part("fixed", x, y, wide, high))
}

/// The second half of a bar of some level, past the plain finish.
fn paler(x: f64, y: f64) -> Element {
    on_a_bar(x, y, |y, wide, high| {
        past_part("past", x + wide / 2.0, y, wide / 2.0, high)
    })
}

/// A bar of some level, with what is drawn over it from its top, width and height.
fn on_a_bar(x: f64, y: f64, over: impl Fn(f64, f64, f64) -> Element) -> Element {
    let (y, wide, high) = (y - 6.0, 24.0, 12.0);
    let below = rectangle(x, y, wide, high).set("fill", colour(5));
    Element::new("g")
        .with(below.set("stroke", INK))
        .with(over(y, wide, high))
}

/// The legend and its height.
pub fn draw(run: &Run, left: f64, top: f64, right: f64) -> (Element, f64) {
    let mut group = Element::new("g").set("class", "legend");
    add_levels(&run.levels, left, top, &mut group);
    let (mut x, mut y) = (left, top + SCALE + 2.0 * LINE + 4.0);
    let floor = run.tasks.iter().any(|task| task.floor > 0).then_some(FLOOR);
    let pair = (!run.pairs.is_empty()).then_some(PAIR);
    for (sign, meaning) in ITEMS.into_iter().chain(floor).chain(pair) {
        let width = SIGN + 4.0 + text_width(meaning, SIZE);
        if x + width > right && x > left {
            x = left;
            y += LINE;
        }
        group.add(sign(x, y));
        group.add(soft_words(x + SIGN + 4.0, y + 3.5, SIZE, meaning));
        x += width + GAP;
    }
    (group, y + 10.0 - top)
}

/// The levels side by side, each in its height and colour, with number and speed.
fn add_levels(levels: &Levels, left: f64, top: f64, group: &mut Element) {
    let base = top + SCALE;
    let first = left + 44.0;
    group.add(soft_words(left, base + 13.0, SIZE, "level"));
    group.add(soft_words(left, base + 25.0, SIZE, "speed"));
    for (level, speed) in levels.speeds().iter().enumerate() {
        let x = first + level as f64 * (SWATCH + 2.0);
        let middle = x + SWATCH / 2.0;
        let high = level_height(levels, level, SCALE);
        group.add(bar(x, base - high, SWATCH, high, level).set("stroke", INK));
        let number = words(middle, base + 13.0, SIZE, &format!("L{level}"));
        group.add(number.set("text-anchor", "middle"));
        let speed = soft_words(middle, base + 25.0, SIZE, &speed.to_string());
        group.add(speed.set("text-anchor", "middle"));
    }
    let x = first + levels.count() as f64 * (SWATCH + 2.0) + 10.0;
    let text = "a bar is as high as its level is fast: its area, unless hatched, is the work done";
    group.add(soft_words(x, base + 13.0, SIZE, text));
}
