//! The arrows of the pairs (02, No. 5): from the finish of the earlier task's job to the beginning of
//! the later task's job of the same arrival.

use super::rows::{bar_top, base};
use super::style::pair_arrow;
use super::view::View;
use crate::run::Stretch;
use crate::svg::Element;
use sim::pairs::Pair;
use std::collections::BTreeMap;

/// Arrows closer together than this are left out. A pair has one for each job of the later task at
/// most, so they are as far apart as that task's period is long.
const CLOSEST_ARROWS: f64 = 12.0;

/// Stretches by their job, which is its task and its arrival.
type Jobs<'a> = BTreeMap<(usize, u64), &'a Stretch>;

/// The pairs given, each once, that have room for their arrows, or those that haven't.
fn pairs_with_room(view: &View, room: bool) -> Vec<Pair> {
    let mut pairs: Vec<Pair> = Vec::new();
    for pair in &view.run.pairs {
        let apart = view.scale.width(view.run.tasks[pair.later].period);
        if (apart >= CLOSEST_ARROWS) == room && !pairs.contains(pair) {
            pairs.push(*pair);
        }
    }
    pairs
}

/// What the heading says of the pairs whose arrows are left out, in parts; nothing if there are none.
pub fn left_out(view: &View) -> Vec<String> {
    let crowded = pairs_with_room(view, false);
    let mut parts = Vec::new();
    for (place, pair) in crowded.iter().enumerate() {
        let start = match place {
            0 => "(scaled down: no arrows for the pairs ",
            _ => "",
        };
        let mark = match place + 1 == crowded.len() {
            true => ')',
            false => ',',
        };
        let Pair { earlier, later } = pair;
        parts.push(format!("{start}{earlier} before {later}{mark}"));
    }
    parts
}

/// The arrows, over rows with this top. Without pairs there is nothing to draw.
pub fn draw(view: &View, rows_top: f64) -> Option<Element> {
    if view.run.pairs.is_empty() {
        return None;
    }
    let (first, finished) = (first_stretches(view), finished_stretches(view));
    let mut group = Element::new("g").set("class", "pairs");
    for pair in pairs_with_room(view, true) {
        for (job, later) in first.range((pair.later, 0)..=(pair.later, u64::MAX)) {
            if let Some(earlier) = finished.get(&(pair.earlier, job.1)) {
                if is_shown(view, earlier, later) {
                    group.add(arrow(view, rows_top, earlier, later));
                }
            }
        }
    }
    Some(group)
}

/// Of each job the stretch in which it began.
fn first_stretches<'a>(view: &View<'a>) -> Jobs<'a> {
    let mut jobs = Jobs::new();
    for stretch in &view.run.stretches {
        jobs.entry((stretch.task, stretch.arrival))
            .or_insert(stretch);
    }
    jobs
}

/// Of each job that finished the stretch at whose end it did.
fn finished_stretches<'a>(view: &View<'a>) -> Jobs<'a> {
    let ended = view.run.stretches.iter().filter(|it| it.early.is_some());
    ended.map(|it| ((it.task, it.arrival), it)).collect()
}

/// Whether both ends are in the picture: of the earlier job the tick with which it finished, of the
/// later one the tick with which it began.
fn is_shown(view: &View, earlier: &Stretch, later: &Stretch) -> bool {
    let window = view.window;
    let shows = |tick: u64| window.from <= tick && tick < window.to;
    shows(earlier.span.to - 1) && shows(later.span.from)
}

/// From where the finish is marked, to the corner of the bar that is nearer to it.
fn arrow(view: &View, rows_top: f64, earlier: &Stretch, later: &Stretch) -> Element {
    let from = view.scale.x(earlier.span.to);
    let top = bar_top(view, rows_top, earlier.task, earlier.level);
    let to = view.scale.x(later.span.from);
    let end = match earlier.task < later.task {
        true => bar_top(view, rows_top, later.task, later.level),
        false => base(rows_top, later.task),
    };
    let hint = format!(
        "task {} before task {}, jobs of tick {}: the one finished at tick {}, the other began at \
         tick {}",
        earlier.task, later.task, later.arrival, earlier.span.to, later.span.from
    );
    pair_arrow(from, top, to, end).hint(&hint)
}
