//! The picture, read back from its SVG: bars, idle time, canonical strips, marks.

use crate::common::{any_run, run_at, tasks, tasks_with_fixed, tasks_with_floors, EXAMPLE};
use crate::told::{told, Ran};
use crate::xml::{read, Node};
use sim::random::blocks::block_of;
use sim::random::Random;
use sim::schedule::allotment;
use sim::{write_levels, Levels, Order, PlainBook};
use tools::picture::{draw, window};
use tools::run::{follow, Run, Span};

/// A picture read back, with the scale found from the numbers of its axis.
pub struct Seen {
    pub nodes: Vec<Node>,
    first: (f64, f64),
    pub per_tick: f64,
}

impl Seen {
    pub fn new(svg: &str) -> Seen {
        let nodes = read(svg).expect("the picture is well-formed");
        let numbers: Vec<(f64, f64)> = nodes
            .iter()
            .filter(|node| node.is("number"))
            .map(|node| (node.text.parse().unwrap(), node.number("x")))
            .collect();
        let (first, last) = (numbers[0], numbers[numbers.len() - 1]);
        assert!(last.0 > first.0, "the axis has two numbers at least");
        Seen {
            first,
            per_tick: (last.1 - first.1) / (last.0 - first.0),
            nodes,
        }
    }

    /// The tick at a place, which must be a whole one.
    #[track_caller]
    pub fn tick(&self, x: f64) -> u64 {
        let tick = self.first.0 + (x - self.first.1) / self.per_tick;
        assert!((tick - tick.round()).abs() < 0.02, "{x} is no whole tick");
        tick.round() as u64
    }

    /// The elements of the plot with this class, in the part with that one.
    pub fn all<'a>(&'a self, class: &'a str, part: &'a str) -> impl Iterator<Item = &'a Node> {
        self.nodes
            .iter()
            .filter(move |node| node.is(class) && node.is_inside(part))
    }

    fn span(&self, node: &Node) -> (u64, u64) {
        let x = node.number("x");
        (self.tick(x), self.tick(x + node.number("width")))
    }

    fn spans(&self, class: &str, part: &str) -> Vec<(u64, u64)> {
        self.all(class, part).map(|node| self.span(node)).collect()
    }

    /// All bars, in the order of time: task, level, from, to. No table has more than eight levels.
    fn bars(&self, tasks: usize) -> Vec<(usize, usize, u64, u64)> {
        let mut bars = Vec::new();
        for task in 0..tasks {
            for node in self.all("bar", &format!("task-{task}")) {
                let level = (0..8).find(|level| node.is(&format!("level-{level}")));
                let (from, to) = self.span(node);
                bars.push((task, level.expect("a bar has a level"), from, to));
            }
        }
        bars.sort_by_key(|bar| bar.2);
        bars
    }
}

pub fn picture(input: &[u8], from: Option<u64>, to: Option<u64>) -> String {
    drawn(&follow(input).unwrap(), from, to)
}

fn drawn(run: &Run, from: Option<u64>, to: Option<u64>) -> String {
    draw(run, window(run, from, to).unwrap(), None)
}

fn count(input: &[u8]) -> usize {
    follow(input).unwrap().tasks.len()
}

fn bar_of(ran: &Ran) -> (usize, usize, u64, u64) {
    (ran.task, ran.level, ran.from, ran.to)
}

#[test]
fn a_bar_for_each_stretch_that_ran() {
    let mut random = Random::new(31);
    for _ in 0..60 {
        let input = any_run(&mut random, 40);
        let seen = Seen::new(&picture(&input, None, None));
        let told = told(&input);
        let expected: Vec<_> = told.ran.iter().map(bar_of).collect();
        assert_eq!(seen.bars(count(&input)), expected);
        assert_eq!(seen.spans("idle", "idle-row"), told.idle);
    }
}

#[test]
fn the_bars_have_the_ticks_that_the_listing_says_were_run() {
    let mut random = Random::new(32);
    let mut all = 0;
    for _ in 0..60 {
        let input = any_run(&mut random, 40);
        let seen = Seen::new(&picture(&input, None, None));
        let mut wide = 0.0;
        for node in seen.nodes.iter().filter(|node| node.is("bar")) {
            if !node.is_inside("legend") {
                wide += node.number("width");
            }
        }
        let told = told(&input);
        let ticks: u64 = told.ran.iter().map(|ran| ran.to - ran.from).sum();
        assert!((wide / seen.per_tick - ticks as f64).abs() < 0.1);
        let idle: u64 = told.idle.iter().map(|(from, to)| to - from).sum();
        assert_eq!(ticks + idle, told.clock);
        all += ticks;
    }
    assert!(all > 1_000);
}

#[test]
fn a_bar_is_as_high_as_its_level_is_fast() {
    let mut random = Random::new(33);
    let odd = Levels::new(&[3, 7, 11, 64, 65, 200, 501, 1_000]);
    for levels in [Levels::base(), odd] {
        let mut levels_seen = [false; 8];
        let fastest = levels.speed(7) as f64;
        for _ in 0..60 {
            let input = run_at(&mut random, &levels, 40);
            let seen = Seen::new(&picture(&input, None, None));
            for (level, speed) in levels.speeds().iter().enumerate() {
                let class = format!("level-{level}");
                for node in seen.nodes.iter().filter(|node| node.is(&class)) {
                    if !node.is_inside("legend") {
                        let expected = 48.0 * *speed as f64 / fastest;
                        assert!((node.number("height") - expected).abs() < 0.01);
                        levels_seen[level] = true;
                    }
                }
            }
        }
        assert_eq!(levels_seen, [true; 8]);
    }
}

#[test]
fn other_speeds_have_other_bars_and_another_legend() {
    // Task 0 has 40 units, task 1 has 56: 4 and 5 ticks at 13, which is nominal. Task 0 ends after
    // one of them, so task 1 may run at 7 and ends a tick before its 8 are over.
    let input = [
        &write_levels(&Levels::new(&[7, 13, 29]))[..],
        &block_of(&tasks(&[(10, 40), (15, 56)])),
        &[0x80, 1, 0x80, 7],
    ];
    let run = follow(&input.concat()).unwrap();
    let seen = Seen::new(&drawn(&run, None, None));
    assert_eq!(seen.bars(2), [(0, 1, 0, 1), (1, 0, 1, 8)]);
    assert_eq!(seen.spans("early", "task-0"), [(1, 4)]);
    assert_eq!(seen.spans("early", "task-1"), [(8, 9)]);
    for (part, speed) in [("task-0", 13.0), ("task-1", 7.0)] {
        let bar = seen.all("bar", part).next().unwrap();
        assert!((bar.number("height") - 48.0 * speed / 29.0).abs() < 0.01);
    }
    let swatches = seen.all("bar", "legend");
    let heights: Vec<f64> = swatches.map(|bar| bar.number("height")).collect();
    assert_eq!(heights.len(), 3);
    for (height, speed) in heights.iter().zip([7.0, 13.0, 29.0]) {
        assert!((height - 24.0 * speed / 29.0).abs() < 0.01);
    }
    let texts: Vec<&str> = seen.nodes.iter().map(|node| node.text.as_str()).collect();
    let hint = "task 1, job of tick 0: ran from tick 1 to 8 at level 0 (speed 7), finished";
    for text in ["allotment 4", "allotment 5", "29", "L2", hint] {
        assert!(texts.contains(&text), "{text}");
    }
    assert!(!texts.contains(&"L3"));
}

#[test]
fn the_canonical_strip_is_the_plain_schedule() {
    let mut random = Random::new(34);
    for _ in 0..50 {
        let input = any_run(&mut random, 20);
        let run = follow(&input).unwrap();
        let end = run.end_of_order();
        let seen = Seen::new(&picture(&input, None, None));
        let mut served = vec![Vec::new(); run.tasks.len()];
        let mut fixed = served.clone();
        let nominal = run.levels.speed(run.judged.nominal);
        let mut book = PlainBook::new(&run.levels, &run.tasks);
        for tick in 0..end {
            if let Some(job) = book.open_jobs().first() {
                let task = &run.tasks[job.task];
                served[job.task].push(tick);
                if allotment(task, nominal) - job.left < task.fixed {
                    fixed[job.task].push(tick);
                }
            }
            book.pass(1, Ok(Order::Idle { hold: 1 }));
            book.forget_closed();
        }
        for task in 0..run.tasks.len() {
            let drawn = |class| -> Vec<u64> {
                let spans = seen.spans(class, &format!("task-{task}"));
                spans.iter().flat_map(|(from, to)| *from..*to).collect()
            };
            assert_eq!(drawn("canonical"), served[task]);
            assert_eq!(drawn("canonical-fixed"), fixed[task]);
        }
    }
}

/// The fixed ticks of the bars, as the listing and the plan tell them: task, from, to.
fn fixed_of(ran: &Ran) -> Option<(usize, u64, u64)> {
    (ran.fixed > 0).then_some((ran.task, ran.from, ran.from + ran.fixed))
}

#[test]
fn fixed_ticks_are_hatched_in_the_bars() {
    let mut random = Random::new(38);
    let mut all = 0;
    for round in 0..100 {
        let input = any_run(&mut random, 40);
        let end = follow(&input).unwrap().end_of_order();
        // Every other picture is cut.
        let to = random.between(if round % 2 == 0 { 1 } else { end }, end);
        let from = random.below(if round % 2 == 0 { to } else { 1 });
        let seen = Seen::new(&picture(&input, Some(from), Some(to)));
        let cut = |(task, first, last): (usize, u64, u64)| (task, first.max(from), last.min(to));
        let parts = told(&input)
            .ran
            .iter()
            .filter_map(fixed_of)
            .map(cut)
            .collect::<Vec<_>>();
        for task in 0..count(&input) {
            let expected = parts
                .iter()
                .filter(|part| part.0 == task && part.1 < part.2);
            let expected: Vec<(u64, u64)> = expected.map(|part| (part.1, part.2)).collect();
            assert_eq!(seen.spans("fixed", &format!("task-{task}")), expected);
            all += expected.len();
        }
    }
    assert!(all > 100, "{all}");
}

/// At 50, which is nominal, task 0 has 4 ticks, and task 1 has 9 fixed ones and 3 more.
fn sensor_with(passes: &[u8]) -> Vec<u8> {
    let plan = tasks_with_fixed(&[(10, 200, 0), (30, 150, 9), (30, 300, 0)]);
    [&write_levels(&Levels::base())[..], &block_of(&plan), passes].concat()
}

#[test]
fn fixed_ticks_are_hatched_up_to_the_hold_of_the_last_order() {
    let seen = Seen::new(&picture(&sensor_with(&[0x80, 4]), None, Some(30)));
    assert_eq!(seen.spans("ordered", "task-1"), [(4, 10)]);
    assert_eq!(seen.spans("ordered-fixed", "task-1"), [(4, 10)]);
    assert_eq!(seen.spans("fixed", "task-1"), []);
}

#[test]
fn a_sensor_in_the_picture() {
    // Task 1 is stopped by an arrival at tick 10, with 3 of its fixed ticks to go.
    let run = follow(&sensor_with(&[0x80, 4, 0, 6, 0x80, 1])).unwrap();
    let seen = Seen::new(&drawn(&run, None, Some(30)));
    assert_eq!(seen.bars(3), [(0, 4, 0, 4), (1, 4, 4, 10), (0, 4, 10, 11)]);
    assert_eq!(seen.spans("fixed", "task-1"), [(4, 10)]);
    assert_eq!(seen.spans("ordered", "task-1"), [(11, 19)]);
    assert_eq!(seen.spans("ordered-fixed", "task-1"), [(11, 14)]);
    assert_eq!(seen.spans("canonical", "task-1"), [(4, 10), (14, 20)]);
    assert_eq!(seen.spans("canonical-fixed", "task-1"), [(4, 10), (14, 17)]);
    for part in ["task-0", "task-2"] {
        for class in ["fixed", "ordered-fixed", "canonical-fixed"] {
            assert_eq!(seen.spans(class, part), [], "{class} in {part}");
        }
    }
    assert_eq!(seen.all("fixed", "legend").count(), 1);
    let texts: Vec<&str> = seen.nodes.iter().map(|node| node.text.as_str()).collect();
    for text in [
        "Plan (10, 200), (30, 150, 9), (30, 300); nominal level 4",
        "allotment 12",
        "fixed 9",
        "fixed ticks: as long at every level",
        "fixed ticks from tick 4 to 10, the same at every level",
        "fixed ticks in the canonical schedule",
    ] {
        assert!(texts.contains(&text), "{text}");
    }
}

/// The example `lone-job`: task 1's job is the only open one from 12 to 20 and from 32 to 39. Its plain
/// finishes are at 18 and 38.
const LONE_JOB: &[u8] = include_bytes!("../../../../examples/lone-job.in");

#[test]
fn what_runs_past_its_plain_finish_is_marked() {
    let seen = Seen::new(&picture(LONE_JOB, None, None));
    assert_eq!(
        seen.bars(2),
        [
            (0, 4, 0, 12),
            (1, 3, 12, 20),
            (0, 4, 20, 32),
            (1, 3, 32, 39)
        ]
    );
    assert_eq!(seen.spans("past", "task-1"), [(18, 20), (38, 39)]);
    assert_eq!(seen.spans("canonical", "task-1"), [(12, 18), (32, 38)]);
    assert_eq!(seen.spans("past", "task-0"), []);
    // It lies on its bar, and has the bar's height.
    for (mark, bar) in seen.all("past", "task-1").zip(seen.all("bar", "task-1")) {
        assert_eq!(mark.number("y"), bar.number("y"));
        assert_eq!(mark.number("height"), bar.number("height"));
        assert_eq!(mark.get("stroke-dasharray"), Some("3 2"));
    }
    let texts: Vec<&str> = seen.nodes.iter().map(|node| node.text.as_str()).collect();
    let hint = "past its plain finish from tick 18 to 20, alone up to the next arrival";
    assert!(texts.contains(&hint));
    // Cut by the window, and told as far as it goes.
    let cut = Seen::new(&picture(LONE_JOB, Some(15), Some(19)));
    assert_eq!(cut.spans("past", "task-1"), [(18, 19)]);
    let before = Seen::new(&picture(LONE_JOB, Some(0), Some(18)));
    assert_eq!(before.spans("past", "task-1"), []);
}

#[test]
fn what_is_ordered_past_its_plain_finish_is_marked() {
    // The same up to the passes at 12, at 18 and at 19: the order goes on to 20.
    let ordered = |passes: usize| {
        let seen = Seen::new(&picture(&LONE_JOB[..22 + 2 * passes], None, None));
        (
            seen.spans("ordered", "task-1"),
            seen.spans("ordered-past", "task-1"),
            seen.spans("past", "task-1"),
        )
    };
    assert_eq!(ordered(0), (vec![], vec![], vec![]));
    assert_eq!(ordered(1), (vec![(12, 20)], vec![(18, 20)], vec![]));
    assert_eq!(ordered(2), (vec![(18, 20)], vec![(18, 20)], vec![]));
    // The third is refused.
    assert_eq!(ordered(3), ordered(2));
    assert_eq!(ordered(4), (vec![(19, 20)], vec![(19, 20)], vec![(18, 19)]));
    assert_eq!(ordered(5), (vec![], vec![], vec![(18, 20)]));
}

#[test]
fn nothing_is_marked_where_all_ends_by_its_plain_finish() {
    // 01's own passes up to 14, where the first lone job begins; and a sensor that is never alone.
    let to_14 = &EXAMPLE[..EXAMPLE.len() - 4];
    for input in [to_14, &sensor_with(&[0x80, 4, 0, 6, 0x80, 1])] {
        let run = follow(input).unwrap();
        let seen = Seen::new(&drawn(&run, None, Some(run.clock)));
        for task in 0..run.tasks.len() {
            let part = format!("task-{task}");
            assert_eq!(seen.spans("past", &part), []);
            assert_eq!(seen.spans("ordered-past", &part), []);
        }
        // The legend tells the sign all the same.
        assert_eq!(seen.all("past", "legend").count(), 1);
        let meaning = "past its plain finish (02, No. 4)";
        assert!(seen.nodes.iter().any(|node| node.text == meaning));
    }
    // The whole example has one tick of it, from 18 to 19.
    let seen = Seen::new(&picture(&EXAMPLE, None, Some(30)));
    assert_eq!(seen.spans("past", "task-1"), [(18, 19)]);
}

/// The tick of a triangle, from the first point of its path.
fn mark_tick(seen: &Seen, node: &Node) -> u64 {
    let path = node.get("d").unwrap().trim_start_matches('M');
    seen.tick(path.split(' ').next().unwrap().parse().unwrap())
}

#[test]
fn arrivals_and_deadlines_are_marked() {
    let seen = Seen::new(&picture(&EXAMPLE, None, Some(30)));
    let marks = |class, part| -> Vec<u64> {
        let all = seen.all(class, part);
        all.map(|node| mark_tick(&seen, node)).collect()
    };
    for part in ["task-0", "task-1"] {
        assert_eq!(marks("arrival", part), [0, 10, 20]);
        assert_eq!(marks("deadline", part), [10, 20, 30]);
    }
    assert_eq!(marks("arrival", "task-2"), [0]);
    assert_eq!(marks("deadline", "task-2"), [30]);
}

#[test]
fn the_example_has_its_early_ends_and_its_last_order() {
    let seen = Seen::new(&picture(&EXAMPLE, None, Some(30)));
    assert_eq!(seen.spans("early", "task-0"), [(1, 4)]);
    assert_eq!(seen.spans("early", "task-1"), []);
    assert_eq!(seen.spans("early", "task-2"), [(10, 14)]);
    assert_eq!(seen.spans("ordered", "task-0"), [(20, 25)]);
    assert_eq!(seen.spans("ordered", "task-1"), []);
    assert_eq!(seen.all("finish", "task-0").count(), 2);
    assert_eq!(seen.all("finish", "task-1").count(), 2);
    assert_eq!(seen.all("finish", "task-2").count(), 1);
    let shown: Vec<&str> = seen.nodes.iter().map(|node| node.text.as_str()).collect();
    let title = "Plan (10, 400), (10, 400), (30, 600); nominal level 7";
    for text in [title, "3 early", "4 early", "L5", "L6 ordered"] {
        assert!(shown.contains(&text), "{text}");
    }
}

#[test]
fn an_idle_order_stands_in_the_idle_row() {
    // The example without its last pass: idle from 19 on, as 02's No. 4 has it.
    let seen = Seen::new(&picture(&EXAMPLE[..EXAMPLE.len() - 2], None, None));
    assert_eq!(seen.spans("ordered", "idle-row"), [(19, 20)]);
    assert_eq!(seen.spans("idle", "idle-row"), []);
}

/// Left, right, top and bottom of a label; its letters are 10 pixels high and at most 6.4 wide.
fn label_box(label: &Node) -> (f64, f64, f64, f64) {
    let half = 3.2 * label.text.chars().count() as f64;
    let (x, y) = (label.number("x"), label.number("y"));
    (x - half, x + half, y - 8.0, y + 2.0)
}

#[test]
fn labels_lie_neither_on_each_other_nor_on_lines() {
    let mut random = Random::new(37);
    let (mut all, mut floors) = (0, 0);
    for _ in 0..60 {
        let input = any_run(&mut random, 20);
        let seen = Seen::new(&picture(&input, None, None));
        for task in 0..count(&input) {
            let part = format!("task-{task}");
            let nominal = seen.all("nominal", &part).next().unwrap().number("y1");
            let floor = seen.all("floor", &part).next();
            let lines: Vec<f64> = floor.map(|line| line.number("y1")).into_iter().collect();
            floors += lines.len();
            let lines = [&lines[..], &[nominal]].concat();
            let mut boxes: Vec<_> = seen.all("label", &part).map(label_box).collect();
            boxes.sort_by(|a, b| a.0.total_cmp(&b.0));
            assert!(boxes.windows(2).all(|pair| pair[0].1 < pair[1].0));
            for (left, right, top, bottom) in &boxes {
                assert!(lines.iter().all(|line| line < top || bottom < line));
                for mark in seen.all("finish", &part) {
                    let x = mark.number("cx");
                    assert!(x + 4.0 < *left || *right < x - 4.0);
                }
            }
            all += boxes.len();
        }
    }
    assert!(all > 300 && floors > 40, "{all} {floors}");
}

/// The example `floors`: the floors of the valve, of the angle sensor and of the gait are 3, 4 and 6, and
/// nominal is 4.
const FLOORS: &[u8] = include_bytes!("../../../../examples/floors.in");

/// Would catch a line at another height than its level's bars have, one that stops short of the picture, one
/// that bars are drawn over, and one for a task without a floor.
#[test]
fn floors_are_drawn_over_the_bars() {
    let seen = Seen::new(&picture(FLOORS, None, None));
    let base_of = |part: &str| {
        let bar = seen.all("bar", part).next().unwrap();
        bar.number("y") + bar.number("height")
    };
    let axis = seen.all("number", "axis");
    let numbers: Vec<f64> = axis.map(|number| number.number("x")).collect();
    for (part, speed) in [("task-0", 40.0), ("task-1", 50.0), ("task-2", 80.0)] {
        let line = seen.all("floor", part).next().unwrap();
        assert_eq!(seen.all("floor", part).count(), 1);
        let high = base_of(part) - line.number("y1");
        assert!((high - 48.0 * speed / 100.0).abs() < 0.01, "{part}: {high}");
        assert_eq!(line.number("y1"), line.number("y2"));
        // From tick 0 to the end of the picture.
        assert!((line.number("x1") - numbers[0]).abs() < 0.01);
        assert!((line.number("x2") - numbers[numbers.len() - 1]).abs() < 0.01);
        // Behind all bars and boxes of its row in the file, so over them; before the finish marks.
        let place = |class: &str| {
            let own = |node: &Node| node.is(class) && node.is_inside(part);
            seen.nodes.iter().rposition(own)
        };
        let line_at = place("floor");
        assert!(place("bar") < line_at && place("early") < line_at);
        assert!(place("ordered") < line_at && place("fixed") < line_at);
        let first_finish = seen
            .nodes
            .iter()
            .position(|node| node.is("finish") && node.is_inside(part));
        assert!(first_finish > line_at);
    }
    assert_eq!(seen.all("finish", "task-0").count(), 4);
    assert_eq!(seen.all("finish", "task-1").count(), 2);
    assert_eq!(seen.all("finish", "task-2").count(), 2);
    let texts: Vec<&str> = seen.nodes.iter().map(|node| node.text.as_str()).collect();
    for text in [
        "Plan (10, 200, 0, 3), (20, 90, 2, 4), (20, 290, 0, 6); nominal level 4",
        "floor L3",
        "floor L4",
        "floor L6",
        "task 2 is not run below level 6",
    ] {
        assert!(texts.contains(&text), "{text}");
    }
}

const FLOOR_MEANING: &str = "floor: the lowest level that the task is run at (02, No. 8)";

/// Would catch a line for a task that has no floor, and a legend that tells of floors where there are none or
/// doesn't where there is one.
#[test]
fn only_tasks_with_a_floor_have_a_line() {
    let plan = tasks_with_floors(&[(10, 100, 0, 0), (20, 100, 0, 7)]);
    let input = [&write_levels(&Levels::base())[..], &block_of(&plan)].concat();
    let seen = Seen::new(&picture(&input, None, None));
    assert_eq!(seen.all("floor", "task-0").count(), 0);
    assert_eq!(seen.all("floor", "task-1").count(), 1);
    assert_eq!(seen.all("floor", "legend").count(), 1);
    let told = |seen: &Seen| seen.nodes.iter().any(|node| node.text == FLOOR_MEANING);
    assert!(told(&seen));
    for input in [&EXAMPLE[..], &sensor_with(&[0x80, 4]), LONE_JOB] {
        let seen = Seen::new(&picture(input, None, None));
        assert!(!told(&seen));
        assert!(!seen.nodes.iter().any(|node| node.is("floor")));
        assert!(!seen.nodes.iter().any(|node| node.text.starts_with("floor")));
    }
}

/// No bar is below the line of its task, in any run.
#[test]
fn bars_reach_the_floor() {
    let mut random = Random::new(39);
    let (mut at, mut above) = (0, 0);
    for _ in 0..160 {
        let input = any_run(&mut random, 30);
        let seen = Seen::new(&picture(&input, None, None));
        for task in 0..count(&input) {
            let part = format!("task-{task}");
            let line = match seen.all("floor", &part).next() {
                Some(line) => line.number("y1"),
                None => continue,
            };
            for bar in seen.all("bar", &part).chain(seen.all("ordered", &part)) {
                let over = line - bar.number("y");
                assert!(over > -0.01, "{over}");
                at += u32::from(over < 0.01);
                above += u32::from(over >= 0.01);
            }
        }
    }
    assert!(at > 100 && above > 50, "{at} {above}");
}

#[test]
fn windows_cut_the_picture() {
    let mut random = Random::new(35);
    for _ in 0..60 {
        let input = any_run(&mut random, 40);
        let end = follow(&input).unwrap().end_of_order();
        let to = random.between(1, end);
        let from = random.below(to);
        let seen = Seen::new(&picture(&input, Some(from), Some(to)));
        let cut = |ran: &Ran| (ran.task, ran.level, ran.from.max(from), ran.to.min(to));
        let told = told(&input);
        let bars = told.ran.iter().map(cut).filter(|bar| bar.2 < bar.3);
        assert_eq!(seen.bars(count(&input)), bars.collect::<Vec<_>>());
    }
}

#[test]
fn windows_that_cannot_be_drawn() {
    let run = follow(&EXAMPLE).unwrap();
    assert_eq!(window(&run, None, None), Ok(Span { from: 0, to: 25 }));
    assert_eq!(
        window(&run, Some(3), Some(55)),
        Ok(Span { from: 3, to: 55 })
    );
    let beyond = window(&run, None, Some(56)).unwrap_err();
    assert!(beyond.contains("25") && beyond.contains("55"), "{beyond}");
    for (from, to) in [(Some(25), None), (Some(4), Some(4)), (None, Some(0))] {
        assert!(window(&run, from, to)
            .unwrap_err()
            .starts_with("nothing to draw"));
    }
}

#[test]
fn wide_runs_are_scaled_down() {
    let mut random = Random::new(36);
    for passes in [0, 1, 10, 100, 1_000] {
        let svg = picture(&any_run(&mut random, passes), None, None);
        let root = &read(&svg).unwrap()[0];
        assert!(root.number("width") < 1_600.0, "{}", root.number("width"));
    }
}

#[test]
fn the_page_is_plain_svg_with_a_background() {
    let svg = picture(&EXAMPLE, None, None);
    let nodes = read(&svg).unwrap();
    assert_eq!(nodes[0].tag, "svg");
    assert_eq!(nodes[0].get("version"), Some("1.1"));
    assert_eq!(nodes[0].get("xmlns"), Some("http://www.w3.org/2000/svg"));
    let background = nodes
        .iter()
        .find(|node| node.tag == "rect" && node.inside == ["svg"]);
    let background = background.expect("the page has a background");
    for side in ["width", "height"] {
        assert_eq!(background.number(side), nodes[0].number(side));
    }
    let plain = [
        "svg", "defs", "pattern", "g", "rect", "line", "path", "circle", "text", "title",
    ];
    for node in &nodes {
        assert!(plain.contains(&node.tag.as_str()), "{}", node.tag);
        assert!(!node
            .attributes
            .iter()
            .any(|(name, _)| name.starts_with("on")));
    }
}

#[test]
fn the_name_is_escaped() {
    let run = follow(&EXAMPLE).unwrap();
    let window = window(&run, None, None).unwrap();
    let svg = draw(&run, window, Some("<b> & \"c\" 'd'\u{7}"));
    let nodes = read(&svg).unwrap();
    let start = "<b> & \"c\" 'd'\u{fffd}: hyperperiod 30;";
    assert!(nodes.iter().any(|node| node.text.starts_with(start)));
}

#[test]
fn the_picture_in_the_docs_is_the_one_drawn_now() {
    let kept = include_str!("../../../../docs/example.svg");
    assert_eq!(kept, picture(&EXAMPLE, None, Some(30)));
}
