//! The refused passes: a cross at the tick where they came, and their numbers beside it.

use super::style::{line, refused_mark, soft_words, text_width, words, REFUSED};
use super::view::View;
use super::MARGIN;
use crate::refusal::meaning;
use crate::run::Refusal;
use crate::svg::Element;

const SIZE: f64 = 11.0;
const LANE: f64 = 15.0;
const MOST_LANES: usize = 5;
const MOST_NUMBERS: usize = 6;
/// From the lowest lane's base line down to the crosses, and on to the rows.
const CROSS: f64 = 12.0;
const FOOT: f64 = 12.0;
const GAP: f64 = 8.0;
/// From the pole that joins a label to its cross, to the label.
const POLE_GAP: f64 = 3.0;
/// The room that a line through the rows wants, on average.
const THREAD_ROOM: f64 = 20.0;

/// All refusals of one tick. Without a lane there is no room for its numbers.
struct Group {
    x: f64,
    label: String,
    hint: String,
    lane: Option<usize>,
}

pub struct Layout {
    groups: Vec<Group>,
}

impl Layout {
    pub fn new(view: &View) -> Layout {
        let mut groups = Vec::new();
        let mut rest = shown(view);
        while let Some(first) = rest.first() {
            let same = rest.iter().take_while(|other| other.tick == first.tick);
            let (now, later) = rest.split_at(same.count());
            groups.push(Group {
                x: view.scale.x(first.tick),
                label: label(now),
                hint: hint(now),
                lane: None,
            });
            rest = later;
        }
        give_lanes(&mut groups);
        Layout { groups }
    }

    pub fn height(&self) -> f64 {
        if self.groups.is_empty() {
            return 0.0;
        }
        self.lanes() * LANE + CROSS + FOOT
    }

    /// How far to the right the labels reach.
    pub fn right(&self) -> f64 {
        let labelled = self.groups.iter().filter(|group| group.lane.is_some());
        labelled.map(Group::right).fold(0.0, f64::max)
    }

    fn lanes(&self) -> f64 {
        let highest = self.groups.iter().filter_map(|group| group.lane).max();
        highest.map_or(1.0, |lane| lane as f64 + 1.0)
    }

    /// Faint lines from the crosses down through the rows, unless they would hide the picture.
    pub fn threads(&self, view: &View, top: f64, bottom: f64) -> Element {
        let mut drawn = Element::new("g").set("class", "threads");
        let room = (view.scale.right() - view.scale.left()) / THREAD_ROOM;
        if self.groups.len() as f64 > room {
            return drawn;
        }
        for group in &self.groups {
            let thread = line(group.x, top, group.x, bottom, REFUSED);
            drawn.add(
                thread
                    .set("stroke-opacity", 0.45)
                    .set("stroke-dasharray", "3 3"),
            );
        }
        drawn
    }

    pub fn draw(&self, top: f64) -> Element {
        let mut drawn = Element::new("g").set("class", "refusals");
        if self.groups.is_empty() {
            return drawn;
        }
        let lowest = top + self.lanes() * LANE;
        let cross = lowest + CROSS - 4.0;
        drawn.add(words(MARGIN, cross + 4.0, 13.0, "refused").set("font-weight", "bold"));
        for group in &self.groups {
            group.draw(lowest, cross, &mut drawn);
        }
        let unlabelled = self.groups.iter().filter(|group| group.lane.is_none());
        let missing = unlabelled.count();
        if missing > 0 {
            let text = format!("numbers left out: {missing}");
            drawn.add(soft_words(MARGIN, cross - 11.0, 9.0, &text));
        }
        drawn
    }
}

impl Group {
    fn right(&self) -> f64 {
        self.x + POLE_GAP + text_width(&self.label, SIZE)
    }

    fn draw(&self, lowest: f64, cross: f64, drawn: &mut Element) {
        drawn.add(refused_mark(self.x, cross).hint(&self.hint));
        let lane = match self.lane {
            Some(lane) => lane,
            None => return,
        };
        let y = lowest - lane as f64 * LANE - 4.0;
        let pole = line(self.x, y - 8.0, self.x, cross - 4.0, REFUSED);
        drawn.add(pole.set("class", "pole").set("stroke-width", 0.8));
        let text = Element::new("text")
            .set("class", "refusal")
            .px(&[("x", self.x + POLE_GAP), ("y", y), ("font-size", SIZE)])
            .set("fill", REFUSED)
            .text(&self.label);
        drawn.add(text);
    }
}

/// The refusals in the window, both its ends included.
fn shown<'a>(view: &'a View) -> &'a [Refusal] {
    let all = &view.run.refusals;
    let from = all.partition_point(|refusal| refusal.tick < view.window.from);
    let to = all.partition_point(|refusal| refusal.tick <= view.window.to);
    &all[from..to]
}

/// From right to left: a label goes one lane above all those whose poles it would run into. So no
/// label lies on another one, nor on the pole of another one.
fn give_lanes(groups: &mut [Group]) {
    for place in (0..groups.len()).rev() {
        let right = groups[place].right() + GAP;
        let covered = groups[place + 1..]
            .iter()
            .take_while(|other| other.x < right);
        let highest = covered.filter_map(|other| other.lane).max();
        let lane = highest.map_or(0, |lane| lane + 1);
        groups[place].lane = (lane < MOST_LANES).then_some(lane);
    }
}

/// The numbers in the order they came, a number that came several times in a row said once. After
/// the first few, dots stand for the rest.
fn label(refusals: &[Refusal]) -> String {
    let mut counted: Vec<(u32, usize)> = Vec::new();
    for refusal in refusals {
        match counted.last_mut() {
            Some((number, times)) if *number == refusal.number => *times += 1,
            _ => counted.push((refusal.number, 1)),
        }
    }
    let said = |(number, times): &(u32, usize)| match times {
        1 => number.to_string(),
        _ => format!("{number}\u{d7}{times}"),
    };
    let mut parts: Vec<String> = counted.iter().take(MOST_NUMBERS).map(said).collect();
    if counted.len() > MOST_NUMBERS {
        parts.push("\u{2026}".to_string());
    }
    parts.join(" ")
}

fn hint(refusals: &[Refusal]) -> String {
    let mut numbers: Vec<u32> = refusals.iter().map(|refusal| refusal.number).collect();
    numbers.sort_unstable();
    numbers.dedup();
    let said = |number: &u32| format!("{number}: {}", meaning(*number));
    let meanings: Vec<String> = numbers.iter().map(said).collect();
    format!(
        "refused at tick {}: {} ({})",
        refusals[0].tick,
        label(refusals),
        meanings.join("; ")
    )
}
