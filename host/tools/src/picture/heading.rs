//! The lines above the picture: the plan and its nominal level, then figures of the run.

use super::pairs::left_out;
use super::style::{soft_words, text_width, ticks, words};
use super::view::View;
use crate::run::Run;
use crate::svg::Element;

const SIZE: f64 = 15.0;
const LINE: f64 = 20.0;
const SMALL: f64 = 11.0;
const GAP: f64 = 14.0;

pub struct Heading {
    title: Vec<String>,
    figures: Vec<String>,
}

impl Heading {
    pub fn new(view: &View, name: Option<&str>, width: f64) -> Heading {
        Heading {
            title: wrapped(&title_words(view.run), SIZE, width),
            figures: wrapped(&figures(view, name), SMALL, width),
        }
    }

    pub fn height(&self) -> f64 {
        (self.title.len() as f64) * LINE + (self.figures.len() as f64) * (SMALL + 4.0) + GAP
    }

    pub fn draw(&self, x: f64, top: f64) -> Element {
        let mut group = Element::new("g").set("class", "heading");
        let mut y = top;
        for text in &self.title {
            group.add(words(x, y + SIZE, SIZE, text).set("font-weight", "bold"));
            y += LINE;
        }
        for text in &self.figures {
            group.add(soft_words(x, y + SMALL, SMALL, text));
            y += SMALL + 4.0;
        }
        group
    }
}

/// The parts between which the title may be broken.
fn title_words(run: &Run) -> Vec<String> {
    let mut parts = vec!["Plan".to_string()];
    for (place, task) in run.tasks.iter().enumerate() {
        let mark = if place + 1 == run.tasks.len() {
            ';'
        } else {
            ','
        };
        let additions = match (task.fixed, task.floor) {
            (0, 0) => String::new(),
            (fixed, 0) => format!(", {fixed}"),
            (fixed, floor) => format!(", {fixed}, {floor}"),
        };
        parts.push(format!(
            "({}, {}{additions}){mark}",
            task.period, task.worst
        ));
    }
    parts.push(format!("nominal level {}", run.judged.nominal));
    parts
}

fn figures(view: &View, name: Option<&str>) -> Vec<String> {
    let View { run, window, .. } = view;
    let (accepted, refused) = (run.accepted, run.refusals.len());
    let mut parts = Vec::new();
    if let Some(name) = name {
        parts.push(format!("{name}:"));
    }
    parts.push(format!("hyperperiod {};", run.judged.hyperperiod));
    parts.push(format!("the run has {};", ticks(run.clock)));
    parts.push(format!("passes: {accepted} accepted, {refused} refused;"));
    parts.push(format!("shown: tick {} to {}", window.from, window.to));
    if !view.scale.has_room_for_finishes() {
        parts.push("(scaled down: no marks for finished jobs)".to_string());
    }
    parts.extend(left_out(view));
    parts
}

/// Joins the parts to lines that are no wider than this, as far as the parts allow.
fn wrapped(parts: &[String], size: f64, width: f64) -> Vec<String> {
    let mut lines: Vec<String> = Vec::new();
    for part in parts {
        match lines.last_mut() {
            Some(line) if text_width(&format!("{line} {part}"), size) <= width => {
                *line += &format!(" {part}");
            }
            _ => lines.push(part.clone()),
        }
    }
    lines
}
