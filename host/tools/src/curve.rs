//! The damping at every angle as a picture: a line through the answers of a lookup, and the points that its
//! rule goes through.

use crate::picture::page;
use crate::picture::style::{line, soft_words, words, FONT, GRID, INK, PAPER, SOFT};
use crate::svg::{px, Element};

/// Where the plot begins, and how much room is below it for the numbers of the axis.
const LEFT: f64 = 60.0;
const TOP: f64 = 74.0;
const BELOW: f64 = 56.0;
const MARGIN: f64 = 20.0;

/// Pixels for a tenth of a degree and for one of damping.
const TENTH: f64 = 0.6;
const DAMPING: f64 = 2.5;

/// The axes go up to this damping, with a number for every so much, and for every so many degrees.
const HIGHEST: u64 = 120;
const DAMPING_STEP: usize = 20;
const DEGREE_STEP: usize = 10;

const SMALL: f64 = 11.0;
const CURVE: &str = "#1d8dc0";

/// The answers of a lookup: the damping at the lowest angle, in tenths of a degree, and at each tenth
/// after it.
pub struct Curve<'a> {
    pub lowest: i32,
    pub dampings: &'a [u64],
}

impl Curve<'_> {
    fn highest(&self) -> i32 {
        self.lowest + self.dampings.len() as i32 - 1
    }

    fn x(&self, angle: i32) -> f64 {
        LEFT + TENTH * f64::from(angle - self.lowest)
    }

    fn right(&self) -> f64 {
        self.x(self.highest())
    }
}

fn y(damping: u64) -> f64 {
    TOP + DAMPING * (HIGHEST as f64 - damping as f64)
}

/// The SVG of a curve, with points marked that are given in degrees and damping.
pub fn draw(curve: &Curve, points: &[(u64, u64)]) -> String {
    let body = Element::new("g")
        .set("font-family", FONT)
        .with(heading(curve))
        .with(grid(curve))
        .with(steps(curve))
        .with(marks(curve, points));
    page(curve.right() + 2.0 * MARGIN, y(0) + BELOW, body)
}

fn heading(curve: &Curve) -> Element {
    let told = format!(
        "the answers of kilmstra_damping at {} angles: every tenth of a degree from {} to {} degrees",
        curve.dampings.len(),
        f64::from(curve.lowest) / 10.0,
        f64::from(curve.highest()) / 10.0
    );
    Element::new("g")
        .with(words(MARGIN, 30.0, 17.0, "Damping by the knee's angle").set("font-weight", "bold"))
        .with(soft_words(MARGIN, 50.0, SMALL, &told))
}

/// A line and a number for every so much damping and every so many degrees.
fn grid(curve: &Curve) -> Element {
    let mut grid = Element::new("g").set("class", "grid");
    for damping in (0..=HIGHEST).step_by(DAMPING_STEP) {
        grid.add(line(LEFT, y(damping), curve.right(), y(damping), GRID));
        let number = soft_words(LEFT - 8.0, y(damping) + 4.0, SMALL, &damping.to_string());
        grid.add(number.set("text-anchor", "end"));
    }
    for degrees in (0..=curve.highest() / 10).step_by(DEGREE_STEP) {
        let x = curve.x(10 * degrees);
        grid.add(line(x, y(HIGHEST), x, y(0), GRID));
        let number = soft_words(x, y(0) + 18.0, SMALL, &degrees.to_string());
        grid.add(number.set("text-anchor", "middle"));
    }
    let middle = (LEFT + curve.right()) / 2.0;
    let name = soft_words(middle, y(0) + 40.0, SMALL, "angle, in degrees");
    grid.add(line(LEFT, y(0), curve.right(), y(0), SOFT));
    grid.with(name.set("text-anchor", "middle"))
}

/// The line through the answers, with a step wherever the damping changes.
fn steps(curve: &Curve) -> Element {
    let mut path = format!("M{} {}", px(LEFT), px(y(curve.dampings[0])));
    let neighbours = curve.dampings.windows(2).zip(curve.lowest + 1..);
    for (damping, angle) in neighbours.filter(|(damping, _)| damping[0] != damping[1]) {
        path += &format!("H{}V{}", px(curve.x(angle)), px(y(damping[1])));
    }
    path += &format!("H{}", px(curve.right()));
    Element::new("path")
        .set("class", "curve")
        .set("d", path)
        .set("fill", "none")
        .set("stroke", CURVE)
        .set("stroke-width", 1.8)
}

/// A circle at each point, with its two numbers beside it.
fn marks(curve: &Curve, points: &[(u64, u64)]) -> Element {
    let mut marks = Element::new("g").set("class", "points");
    for (place, &(degrees, damping)) in points.iter().enumerate() {
        let (x, y) = (curve.x(10 * degrees as i32), y(damping));
        let (right, down, anchor) = beside(place, points.len());
        let told = format!("{degrees}°, {damping}");
        marks.add(
            Element::new("circle")
                .px(&[("cx", x), ("cy", y), ("r", 3.4)])
                .set("fill", PAPER)
                .set("stroke", INK)
                .set("stroke-width", 1.5),
        );
        marks.add(words(x + right, y + down, SMALL, &told).set("text-anchor", anchor));
    }
    marks
}

/// Where the numbers of a point stand: below the curve and to the right, but for the first two points, which
/// are near to each other, and the last, which has no room there.
fn beside(place: usize, points: usize) -> (f64, f64, &'static str) {
    match place {
        0 => (0.0, -10.0, "middle"),
        1 => (0.0, 18.0, "middle"),
        _ if place + 1 == points => (-8.0, -8.0, "end"),
        _ => (8.0, 14.0, "start"),
    }
}
