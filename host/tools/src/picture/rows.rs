//! The rows of the tasks, and the row of idle time below them.

use super::style::{
    arrival_mark, bar, canonical_bar, colour, deadline_mark, finish_mark, fixed_part, floor_line,
    idle_bar, level_height, line, narrow_idle_bar, narrow_past_part, nominal_line, ordered_box,
    past_part, soft_words, text_width, ticks, unused_box, words, INK, SHADE,
};
use super::view::View;
use super::{LEFT, MARGIN};
use crate::run::{Span, Stretch};
use crate::svg::Element;
use sim::dispatch::Order;
use sim::schedule::allotment;

/// From the top of a row: arrivals and labels, bars, the canonical strip, deadlines.
const HEAD: f64 = 22.0;
const BAR: f64 = 48.0;
const STRIP_GAP: f64 = 5.0;
const STRIP: f64 = 8.0;
const FOOT: f64 = 22.0;
const ROW: f64 = HEAD + BAR + STRIP_GAP + STRIP + FOOT;

const IDLE_BAR: f64 = 16.0;
const IDLE_ROW: f64 = 34.0;

const LABEL_SIZE: f64 = 10.0;

/// Arrivals closer together than this are not marked; bars narrower than this have no outline and
/// no hint.
const CLOSEST_MARKS: f64 = 6.0;
/// Canonical turns with a gap narrower than this become one.
const SMALLEST_GAP: f64 = 0.3;
/// Unused time narrower than this would be all outline.
const NARROWEST_BOX: f64 = 2.0;

pub fn height(view: &View) -> f64 {
    view.run.tasks.len() as f64 * ROW + IDLE_ROW
}

/// The line that the bars of a task stand on, under rows with this top.
pub fn base(rows_top: f64, task: usize) -> f64 {
    rows_top + task as f64 * ROW + HEAD + BAR
}

/// The top of a task's bars of this level.
pub fn bar_top(view: &View, rows_top: f64, task: usize, level: usize) -> f64 {
    base(rows_top, task) - level_height(&view.run.levels, level, BAR)
}

pub fn draw(view: &View, top: f64, body: &mut Element) {
    for task in 0..view.run.tasks.len() {
        body.add(Row::new(view, task, top).draw());
    }
    body.add(idle_row(view, top + view.run.tasks.len() as f64 * ROW));
}

struct Row<'a> {
    view: &'a View<'a>,
    task: usize,
    top: f64,
    base: f64,
    strip: f64,
}

impl Row<'_> {
    fn new<'a>(view: &'a View<'a>, task: usize, rows_top: f64) -> Row<'a> {
        let base = base(rows_top, task);
        Row {
            view,
            task,
            top: base - BAR - HEAD,
            base,
            strip: base + STRIP_GAP,
        }
    }

    fn draw(&self) -> Element {
        let mut group = Element::new("g").set("class", format!("task-{}", self.task));
        self.add_names(&mut group);
        self.add_lines(&mut group);
        self.add_canonical(&mut group);
        for stretch in &self.view.run.stretches {
            if stretch.task == self.task {
                self.add_unused(stretch, &mut group);
                self.add_bar(stretch, &mut group);
            }
        }
        self.add_order(&mut group);
        if self.has_floor() {
            self.add_floor(&mut group);
        }
        self.add_marks(&mut group);
        group
    }

    fn floor(&self) -> usize {
        self.view.run.tasks[self.task].floor as usize
    }

    fn has_floor(&self) -> bool {
        self.floor() > 0
    }

    /// The line at the height of the floor, over the bars, and then the finish marks, which it would go
    /// through.
    fn add_floor(&self, group: &mut Element) {
        let (left, right) = (self.view.scale.left(), self.view.scale.right());
        let floor = self.floor();
        let hint = format!("task {} is not run below level {floor}", self.task);
        let drawn = floor_line(left, right, self.base - self.bar_height(floor));
        group.add(drawn.hint(&hint));
        for stretch in &self.view.run.stretches {
            if stretch.task == self.task {
                self.add_finish(stretch, group);
            }
        }
    }

    fn add_names(&self, group: &mut Element) {
        let task = self.view.run.tasks[self.task];
        let name = format!("task {}", self.task);
        group.add(words(MARGIN, self.top + 26.0, 13.0, &name).set("font-weight", "bold"));
        let run = self.view.run;
        let ticks = allotment(&task, run.levels.speed(run.judged.nominal));
        let mut figures = vec![
            format!("period {}", task.period),
            format!("worst case {}", task.worst),
            format!("allotment {ticks}"),
        ];
        if task.fixed > 0 {
            figures.push(format!("fixed {}", task.fixed));
        }
        if task.floor > 0 {
            figures.push(format!("floor L{}", task.floor));
        }
        for (place, text) in figures.iter().enumerate() {
            let y = self.top + 41.0 + 13.0 * place as f64;
            group.add(soft_words(MARGIN, y, LABEL_SIZE, text));
        }
        let strip = soft_words(LEFT - 8.0, self.strip + STRIP, 9.0, "canonical");
        group.add(strip.set("text-anchor", "end"));
    }

    fn add_lines(&self, group: &mut Element) {
        let (left, right) = (self.view.scale.left(), self.view.scale.right());
        let nominal = self.base - self.bar_height(self.view.run.judged.nominal);
        group.add(nominal_line(left, right, nominal));
        group.add(line(left, self.base, right, self.base, INK).set("stroke-opacity", 0.5));
    }

    /// The canonical turns as a faint strip beneath the bars, their fixed ticks hatched.
    fn add_canonical(&self, group: &mut Element) {
        let turns = &self.view.turns;
        let own = || turns.iter().filter(|turn| turn.task == self.task);
        for (x, width) in self.joined(own().map(|turn| turn.span)) {
            group.add(canonical_bar(x, self.strip, width, STRIP));
        }
        let fixed = own().filter(|turn| turn.fixed > 0);
        for (x, width) in self.joined(fixed.map(|turn| turn.span.first(turn.fixed))) {
            let hint = "fixed ticks in the canonical schedule";
            let part = fixed_part("canonical-fixed", x, self.strip, width, STRIP);
            group.add(part.hint(hint));
        }
    }

    /// Where the spans stand, and how wide they are; those with hardly a gap between them are one.
    fn joined(&self, spans: impl Iterator<Item = Span>) -> Vec<(f64, f64)> {
        let mut joined: Vec<(f64, f64)> = Vec::new();
        for span in spans {
            let (x, width) = self.place(span);
            match joined.last_mut() {
                Some((first, wide)) if x - (*first + *wide) < SMALLEST_GAP => {
                    *wide = x + width - *first;
                }
                _ => joined.push((x, width)),
            }
        }
        joined
    }

    /// Where a job that ended early would have run on to, at its level.
    fn add_unused(&self, stretch: &Stretch, group: &mut Element) {
        let unused = Span {
            from: stretch.span.to,
            to: stretch.span.to + stretch.early.unwrap_or(0),
        };
        let shown = match unused.within(self.view.window) {
            Some(shown) => shown,
            None => return,
        };
        let (x, width) = self.place(shown);
        if width < NARROWEST_BOX {
            return;
        }
        let high = self.bar_height(stretch.level);
        let ended = format!(
            "the job ended {} before its worst case at level {}",
            ticks(unused.ticks()),
            stretch.level
        );
        group.add(unused_box(x, self.base - high, width, high).hint(&ended));
        let early = unused.ticks();
        self.add_label(
            x,
            width,
            high,
            &[format!("{early} early"), early.to_string()],
            group,
        );
    }

    fn add_bar(&self, stretch: &Stretch, group: &mut Element) {
        let shown = match stretch.span.within(self.view.window) {
            Some(shown) => shown,
            None => return,
        };
        let (x, width) = self.place(shown);
        let high = self.bar_height(stretch.level);
        let mut drawn = bar(x, self.base - high, width, high, stretch.level);
        if width >= CLOSEST_MARKS {
            let speed = self.view.run.levels.speed(stretch.level);
            drawn = drawn.set("stroke", INK).hint(&story(stretch, speed));
        }
        group.add(drawn);
        self.add_fixed("fixed", stretch.span.first(stretch.fixed), high, group);
        self.add_past("past", stretch.span.last(stretch.past_plain), high, group);
        // With a floor they come after its line.
        if !self.has_floor() {
            self.add_finish(stretch, group);
        }
        self.add_label(x, width, high, &[format!("L{}", stretch.level)], group);
    }

    /// The mark of a job that finished at the end of a bar, where that end is shown.
    fn add_finish(&self, stretch: &Stretch, group: &mut Element) {
        let shown = match stretch.span.within(self.view.window) {
            Some(shown) => shown,
            None => return,
        };
        let ends_here = stretch.early.is_some() && shown.to == stretch.span.to;
        if ends_here && self.view.scale.has_room_for_finishes() {
            let (x, width) = self.place(shown);
            let high = self.bar_height(stretch.level);
            group.add(finish_mark(x + width, self.base - high));
        }
    }

    /// The fixed ticks at the beginning of a bar of this height.
    fn add_fixed(&self, class: &str, fixed: Span, high: f64, group: &mut Element) {
        if let Some(shown) = fixed.within(self.view.window) {
            let (x, width) = self.place(shown);
            let hint = format!(
                "fixed ticks from tick {} to {}, the same at every level",
                fixed.from, fixed.to
            );
            let part = fixed_part(class, x, self.base - high, width, high);
            group.add(part.hint(&hint));
        }
    }

    /// The ticks at the end of a bar of this height that come after the job's plain finish.
    fn add_past(&self, class: &str, past: Span, high: f64, group: &mut Element) {
        if let Some(shown) = past.within(self.view.window) {
            let (x, width) = self.place(shown);
            let hint = format!(
                "past its plain finish from tick {} to {}, alone up to the next arrival",
                past.from, past.to
            );
            let drawn = match width < CLOSEST_MARKS {
                true => narrow_past_part,
                false => past_part,
            };
            let part = drawn(class, x, self.base - high, width, high);
            group.add(part.hint(&hint));
        }
    }

    /// The last order, if it is for this task.
    fn add_order(&self, group: &mut Element) {
        let run = self.view.run;
        let (level, hold) = match run.order {
            Order::Run { task, level, hold } if usize::from(task) == self.task => {
                (usize::from(level), hold)
            }
            _ => return,
        };
        let span = Span {
            from: run.clock,
            to: run.end_of_order(),
        };
        let shown = match span.within(self.view.window) {
            Some(shown) => shown,
            None => return,
        };
        let (x, width) = self.place(shown);
        let high = self.bar_height(level);
        let order = format!("the last order: level {level}, hold {hold}");
        let drawn = ordered_box(x, self.base - high, width, high, colour(level));
        group.add(drawn.hint(&order));
        let fixed = run.fixed_left.min(span.ticks());
        self.add_fixed("ordered-fixed", span.first(fixed), high, group);
        let past = span.ticks().saturating_sub(run.to_plain_finish);
        self.add_past("ordered-past", span.last(past), high, group);
        self.add_label(
            x,
            width,
            high,
            &[format!("L{level} ordered"), format!("L{level}")],
            group,
        );
    }

    /// Arrivals above the bars, deadlines below the strip. The deadline of a job is the arrival of
    /// the next one, so a line joins them.
    fn add_marks(&self, group: &mut Element) {
        let period = self.view.run.tasks[self.task].period;
        if self.view.scale.width(period) < CLOSEST_MARKS {
            let y = self.top + HEAD - 4.0;
            let text = "arrivals and deadlines are too close to be marked";
            group.add(soft_words(LEFT + 4.0, y, LABEL_SIZE, text));
            return;
        }
        let (high, low) = (self.top + 4.0, self.strip + STRIP + 12.0);
        for tick in self.view.scale.multiples(period) {
            let x = self.view.scale.x(tick);
            let arrives = tick < self.view.window.to;
            let is_due = tick > 0;
            let from = if arrives { high } else { self.top + HEAD };
            let to = if is_due { low } else { self.strip + STRIP };
            group.add(line(x, from, x, to, INK).set("stroke-width", 0.8));
            if arrives {
                group.add(arrival_mark(x, high));
            }
            if is_due {
                group.add(deadline_mark(x, low));
            }
        }
    }

    /// Where a span stands, and how wide it is.
    fn place(&self, span: Span) -> (f64, f64) {
        place(self.view, span)
    }

    fn bar_height(&self, level: usize) -> f64 {
        level_height(&self.view.run.levels, level, BAR)
    }

    /// Over something of this place and height, the first label that there is room for, if any.
    fn add_label(&self, x: f64, width: f64, high: f64, choice: &[String], group: &mut Element) {
        let fits = |text: &&String| text_width(text, LABEL_SIZE) + 12.0 <= width;
        let text = match choice.iter().find(fits) {
            Some(text) => text,
            None => return,
        };
        // Where the nominal line would run through the label, the label goes above the line.
        let nominal = self.bar_height(self.view.run.judged.nominal);
        let under = if (high..high + 14.0).contains(&nominal) {
            nominal
        } else {
            high
        };
        let label = words(x + width / 2.0, self.base - under - 4.0, LABEL_SIZE, text);
        group.add(label.set("class", "label").set("text-anchor", "middle"));
    }
}

/// What there is to say about a stretch, and the speed of its level.
fn story(stretch: &Stretch, speed: u64) -> String {
    let ending = match stretch.early {
        Some(_) => "finished",
        None => "not finished",
    };
    format!(
        "task {}, job of tick {}: ran from tick {} to {} at level {} (speed {speed}), {ending}",
        stretch.task, stretch.arrival, stretch.span.from, stretch.span.to, stretch.level
    )
}

fn place(view: &View, span: Span) -> (f64, f64) {
    let x = view.scale.x(span.from);
    (x, view.scale.x(span.to) - x)
}

fn idle_row(view: &View, top: f64) -> Element {
    let y = top + 6.0;
    let mut group = Element::new("g").set("class", "idle-row");
    group.add(words(MARGIN, y + 13.0, 13.0, "idle").set("font-weight", "bold"));
    for span in &view.run.idle {
        if let Some(shown) = span.within(view.window) {
            let (x, width) = place(view, shown);
            let hint = format!("idle from tick {} to {}", span.from, span.to);
            group.add(match width < CLOSEST_MARKS {
                true => narrow_idle_bar(x, y, width, IDLE_BAR),
                false => idle_bar(x, y, width, IDLE_BAR).hint(&hint),
            });
        }
    }
    let span = Span {
        from: view.run.clock,
        to: view.run.end_of_order(),
    };
    if let (Order::Idle { hold }, Some(shown)) = (view.run.order, span.within(view.window)) {
        let (x, width) = place(view, shown);
        let drawn = ordered_box(x, y, width, IDLE_BAR, SHADE);
        group.add(drawn.hint(&format!("the last order: idle, hold {hold}")));
    }
    group
}
