//! The arrows of the pairs (02, No. 5), read back from the picture and held to what the listing tells.

use crate::common::{any_run, tasks, with_levels, EXAMPLE, PLAN_END};
use crate::pictures::{picture, Seen};
use crate::told::{told, Ran};
use crate::xml::Node;
use sim::dispatch::{pass, Order};
use sim::layout::STATE_BYTES;
use sim::random::blocks::block_of;
use sim::random::pairs::{good_list, good_pairs};
use sim::random::Random;
use std::collections::{BTreeMap, BTreeSet};
use tools::bench::split;
use tools::picture::{draw, window};
use tools::run::{follow, follow_with_pairs};

/// Earlier task, later task, the tick of the earlier one's finish, the tick at which the later began.
type Arrow = (usize, usize, u64, u64);

/// All pairs of the bench plan.
const ALL: [u8; 6] = [0, 1, 0, 2, 1, 2];

fn picture_with(input: &[u8], list: &[u8], from: Option<u64>, to: Option<u64>) -> String {
    let run = follow_with_pairs(input, list).unwrap();
    draw(&run, window(&run, from, to).unwrap(), None)
}

/// The first two points of a path.
fn ends(node: &Node) -> [(f64, f64); 2] {
    let path = node.get("d").unwrap().trim_start_matches('M');
    let mut points = path.split(&['L', 'M'][..]).map(|point| {
        let (x, y) = point.split_once(' ').unwrap();
        (x.parse().unwrap(), y.parse().unwrap())
    });
    [points.next().unwrap(), points.next().unwrap()]
}

/// The task in whose row this height is. A row's name stands 26 pixels below its top.
fn row_at(seen: &Seen, y: f64) -> usize {
    let top = |task: usize| {
        let name = format!("task {task}");
        let part = format!("task-{task}");
        let mut nodes = seen.nodes.iter();
        let found = nodes.find(|node| node.is_inside(&part) && node.text == name);
        found.map(|node| node.number("y") - 26.0)
    };
    let below = (0..).map_while(top).take_while(|top| *top <= y);
    below.count() - 1
}

fn arrows(seen: &Seen) -> Vec<Arrow> {
    let arrow = |node: &Node| {
        let [(x1, y1), (x2, y2)] = ends(node);
        let rows = (row_at(seen, y1), row_at(seen, y2));
        (rows.0, rows.1, seen.tick(x1), seen.tick(x2))
    };
    let mut arrows: Vec<Arrow> = seen.all("pair", "pairs").map(arrow).collect();
    arrows.sort_unstable();
    arrows
}

/// The arrows that a list wants, as the listing tells the run: each pair once, for each two jobs of
/// the same arrival of which the one finished and the other began.
fn wanted(input: &[u8], list: &[u8]) -> Vec<Arrow> {
    let plan = follow(input).unwrap().tasks;
    let (mut began, mut finished) = (BTreeMap::new(), BTreeMap::new());
    for Ran {
        task,
        from,
        to,
        finished: ended,
        ..
    } in told(input).ran
    {
        let job = (task, from / plan[task].period);
        began.entry(job).or_insert(from);
        if ended {
            finished.insert(job, to);
        }
    }
    let pairs: BTreeSet<(usize, usize)> = list
        .chunks(2)
        .map(|pair| (usize::from(pair[0]), usize::from(pair[1])))
        .collect();
    let mut wanted = Vec::new();
    for (earlier, later) in pairs {
        for ((task, nth), start) in &began {
            let same = nth * plan[later].period / plan[earlier].period;
            if let (true, Some(finish)) = (*task == later, finished.get(&(earlier, same))) {
                wanted.push((earlier, later, *finish, *start));
            }
        }
    }
    wanted.sort_unstable();
    wanted
}

/// The lines of the heading as one.
fn heading(seen: &Seen) -> String {
    let texts = seen.nodes.iter().filter(|node| node.is_inside("heading"));
    let texts: Vec<&str> = texts.map(|node| node.text.as_str()).collect();
    texts.join(" ")
}

/// Would catch an arrow from the start of the earlier job, into another row, with the pair turned
/// round, between jobs of different arrivals, twice for a pair said twice, or outside its window.
#[test]
fn arrows_go_from_a_finish_to_a_beginning() {
    let mut random = Random::new(51);
    let (mut down, mut up, mut apart, mut cut) = (0, 0, 0, 0);
    for round in 0..300 {
        let input = any_run(&mut random, 40);
        let run = follow(&input).unwrap();
        let list = good_list(&mut random, &run.tasks);
        let end = run.end_of_order();
        // Every other picture is cut.
        let to = random.between(if round % 2 == 0 { 1 } else { end }, end);
        let from = random.below(if round % 2 == 0 { to } else { 1 });
        let seen = Seen::new(&picture_with(&input, &list, Some(from), Some(to)));
        let mut expected = wanted(&input, &list);
        let all = expected.len();
        // The tick before the finish, and the one from the beginning on, are in the picture.
        expected.retain(|(_, _, finish, start)| from < *finish && *start < to);
        cut += all - expected.len();
        let room = |later: usize| run.tasks[later].period as f64 * seen.per_tick >= 12.0;
        expected.retain(|(_, later, _, _)| room(*later));
        assert_eq!(arrows(&seen), expected);
        down += expected.iter().filter(|it| it.0 < it.1).count();
        up += expected.iter().filter(|it| it.0 > it.1).count();
        apart += expected.iter().filter(|it| it.2 < it.3).count();
    }
    let seen = [down, up, apart, cut];
    assert!(seen.iter().all(|times| *times > 150), "{seen:?}");
}

/// Would catch an arrow that begins anywhere but at the mark of the finish, or ends anywhere but at the
/// corner of the first bar on its side.
#[test]
fn arrows_touch_their_bars() {
    let mut random = Random::new(52);
    let (mut down, mut up) = (0, 0);
    for _ in 0..80 {
        let input = any_run(&mut random, 30);
        let list = good_list(&mut random, &follow(&input).unwrap().tasks);
        let seen = Seen::new(&picture_with(&input, &list, None, None));
        for node in seen.all("pair", "pairs") {
            let [(x1, y1), (x2, y2)] = ends(node);
            let (earlier, later) = (row_at(&seen, y1), row_at(&seen, y2));
            let near = |a: f64, b: f64| (a - b).abs() < 0.01;
            let (from, to) = (format!("task-{earlier}"), format!("task-{later}"));
            let ends_there = |bar: &Node| near(bar.number("x") + bar.number("width"), x1);
            let mut bars = seen.all("bar", &from);
            assert!(bars.any(|bar| ends_there(bar) && near(bar.number("y"), y1)));
            let side = |bar: &Node| match earlier < later {
                true => bar.number("y"),
                false => bar.number("y") + bar.number("height"),
            };
            let mut bars = seen.all("bar", &to);
            assert!(bars.any(|bar| near(bar.number("x"), x2) && near(side(bar), y2)));
            let mut marks = seen.all("finish", &from);
            let marked =
                marks.any(|mark| near(mark.number("cx"), x1) && near(mark.number("cy"), y1));
            assert_eq!(marked, seen.per_tick >= 3.0);
            down += u32::from(earlier < later);
            up += u32::from(earlier > later);
        }
    }
    assert!(down > 100 && up > 50, "{down} {up}");
}

/// Would catch wrong arrows, hints or words of the legend in the example of document 01.
#[test]
fn the_example_with_all_its_pairs() {
    let seen = Seen::new(&picture_with(&EXAMPLE, &ALL, None, Some(30)));
    let expected = [(0, 1, 1, 1), (0, 1, 14, 14), (0, 2, 1, 8), (1, 2, 8, 8)];
    assert_eq!(arrows(&seen), expected);
    assert_eq!(seen.all("pair", "legend").count(), 1);
    let texts: Vec<&str> = seen.nodes.iter().map(|node| node.text.as_str()).collect();
    for text in [
        "pair: the earlier job finished, the later one began",
        "task 0 before task 2, jobs of tick 0: the one finished at tick 1, the other began at tick 8",
        "task 0 before task 1, jobs of tick 10: the one finished at tick 14, the other began at tick \
         14",
    ] {
        assert!(texts.contains(&text), "{text}");
    }
    // One hint an arrow, inside it.
    let hints = seen.nodes.iter().filter(|node| node.is_inside("pair"));
    assert_eq!(hints.filter(|node| node.tag == "title").count(), 4);
    // A pair said twice has its arrows once.
    let twice = picture_with(&EXAMPLE, &[&ALL[..], &ALL].concat(), None, Some(30));
    assert_eq!(arrows(&Seen::new(&twice)), expected);
    assert_eq!(
        arrows(&Seen::new(&picture_with(&EXAMPLE, &[1, 2], None, None))),
        [(1, 2, 8, 8)]
    );
}

/// Would catch a picture that changes without pairs, or a legend that tells of them then.
#[test]
fn without_pairs_the_picture_is_as_it_was() {
    let mut random = Random::new(53);
    for _ in 0..20 {
        let input = any_run(&mut random, 20);
        let without = picture(&input, None, None);
        assert_eq!(picture_with(&input, &[], None, None), without);
        let seen = Seen::new(&without);
        assert!(seen
            .nodes
            .iter()
            .all(|node| !node.is("pair") && !node.is("pairs")));
        assert!(seen.nodes.iter().all(|node| !node.text.contains("pair")));
    }
}

/// Would catch an arrow from the earlier task's latest finish: task 2's job of tick 0 begins at 20, when
/// task 0 has finished its jobs of 0 and of 10.
#[test]
fn an_arrow_joins_jobs_of_the_same_arrival() {
    // At 80 units a tick, which is nominal, they have 5 ticks of 10, and 10 and 5 of 30.
    let plan = block_of(&tasks(&[(10, 400), (30, 800), (30, 400)]));
    let passes = [0x80, 5, 0, 5, 0x80, 5, 0x80, 5, 0x80, 5];
    let input = with_levels(&[&plan[..], &passes].concat());
    let seen = Seen::new(&picture_with(&input, &ALL, None, None));
    assert_eq!(follow(&input).unwrap().clock, 25);
    assert_eq!(arrows(&seen), [(0, 1, 5, 5), (0, 2, 5, 20), (1, 2, 20, 20)]);
    // Task 1 runs on at 15, and no arrow goes there.
    assert_eq!(follow(&input).unwrap().stretches[3].span.from, 15);
}

/// Would catch an arrow to a job that has only been ordered, or from one that hasn't finished.
#[test]
fn an_order_is_no_beginning_yet() {
    let at = |passes: &[u8]| {
        let input = [&EXAMPLE[..PLAN_END], passes].concat();
        arrows(&Seen::new(&picture_with(&input, &ALL, None, Some(30))))
    };
    assert_eq!(at(&[]), []);
    assert_eq!(at(&[0, 1]), []);
    // Task 1 is ordered, and then has had a tick.
    assert_eq!(at(&[0x80, 1]), []);
    assert_eq!(at(&[0x80, 1, 0, 1]), [(0, 1, 1, 1)]);
}

/// Would catch a window whose edges are a tick off.
#[test]
fn windows_show_the_arrows_with_both_ends_in_them() {
    let at = |from, to| {
        let svg = picture_with(&EXAMPLE, &ALL, Some(from), Some(to));
        arrows(&Seen::new(&svg))
    };
    let last = (1, 2, 8, 8);
    assert_eq!(at(0, 9), [(0, 1, 1, 1), (0, 2, 1, 8), last]);
    assert_eq!(at(0, 8), [(0, 1, 1, 1)]);
    assert_eq!(at(1, 9), [last]);
    assert_eq!(at(7, 9), [last]);
    assert_eq!(at(8, 20), [(0, 1, 14, 14)]);
}

/// A run of a plan in which every job takes its worst case.
fn long_run(plan: &[u8], until: u64) -> Vec<u8> {
    let mut input = with_levels(plan);
    let parts = input.clone();
    let parts = split(&parts);
    let mut state = [0; STATE_BYTES];
    let mut order = sim::start(parts.levels, parts.plan, &[], &mut state).unwrap();
    let mut clock = 0;
    while clock < until {
        let (Order::Run { hold, .. } | Order::Idle { hold }) = order;
        let mut tried = state;
        let finished = pass(&mut tried, hold, false) == Err(14);
        order = pass(&mut state, hold, finished).unwrap();
        let packed = hold as u16 | if finished { 0x8000 } else { 0 };
        input.extend(packed.to_be_bytes());
        clock += u64::from(hold);
    }
    input
}

/// Would catch arrows drawn where there is no room for them, left out where there is, or left out in
/// silence. A picture is 1160 pixels wide, so a period of 30 has 12 of them up to 2,900 ticks, and a
/// period of 10 up to 966.
#[test]
fn crowded_arrows_are_left_out_and_named() {
    let input = long_run(&EXAMPLE[11..PLAN_END], 3_000);
    let seen_to = |to| Seen::new(&picture_with(&input, &ALL, None, Some(to)));
    let told = |seen: &Seen| {
        let heading = heading(seen);
        let start = heading.find("(scaled down: no arrows");
        start.map(|start| heading[start..].to_string())
    };
    let some = seen_to(960);
    assert_eq!(told(&some), None);
    assert_eq!(arrows(&some).len(), 96 + 32 + 32);
    let fewer = seen_to(2_880);
    let names = "(scaled down: no arrows for the pairs 0 before 1)";
    assert_eq!(told(&fewer).as_deref(), Some(names));
    assert_eq!(arrows(&fewer).len(), 96 + 96);
    assert!(arrows(&fewer).iter().all(|arrow| arrow.1 == 2));
    let none = seen_to(2_910);
    let names = "(scaled down: no arrows for the pairs 0 before 1, 0 before 2, 1 before 2)";
    assert_eq!(told(&none).as_deref(), Some(names));
    assert_eq!(arrows(&none), []);
    assert_eq!(none.all("pair", "legend").count(), 1);
    // A pair said twice is named once, and without pairs there is nothing to name.
    let twice = picture_with(&input, &[0, 1, 0, 1], None, Some(2_910));
    let names = "(scaled down: no arrows for the pairs 0 before 1)";
    assert_eq!(told(&Seen::new(&twice)).as_deref(), Some(names));
    assert_eq!(told(&Seen::new(&picture(&input, None, Some(2_910)))), None);
}

/// Would catch a heading that runs off the page with the longest list that there is.
#[test]
fn many_pairs_without_room_are_wrapped() {
    let plan = tasks(&[(10, 10); 16]);
    let mut list: Vec<u8> = Vec::new();
    for pair in good_pairs(&plan).iter().rev().take(16) {
        list.extend([pair.earlier as u8, pair.later as u8]);
    }
    let plan: Vec<_> = plan
        .iter()
        .map(|task| (task.period * 4, task.worst))
        .collect();
    let input = with_levels(&block_of(&tasks(&plan)));
    let run = follow_with_pairs(&input, &list).unwrap();
    // From tick 0 to one hyperperiod past the first order, 41 ticks: nothing is crowded.
    let seen = Seen::new(&draw(&run, window(&run, None, Some(41)).unwrap(), None));
    assert!(!heading(&seen).contains("no arrows"));
    let input = long_run(&block_of(&tasks(&plan)), 4_000);
    let svg = picture_with(&input, &list, None, Some(4_000));
    let seen = Seen::new(&svg);
    assert_eq!(heading(&seen).matches(" before ").count(), 16);
    let width = seen.nodes[0].number("width");
    for node in seen.nodes.iter().filter(|node| node.is_inside("heading")) {
        let size = node.number("font-size");
        let wide = 0.64 * size * node.text.chars().count() as f64;
        assert!(node.number("x") + wide <= width, "{}", node.text);
    }
}

/// Would catch a run whose pairs are not asked, or asked before the input's own questions.
#[test]
fn a_list_that_starting_refuses_gives_no_run() {
    for list in [&[1, 0][..], &[0], &[0, 3], &[0; 34], &[2, 2]] {
        assert_eq!(follow_with_pairs(&EXAMPLE, list).unwrap_err(), 22);
        let cut = &EXAMPLE[..PLAN_END - 1];
        assert_eq!(follow_with_pairs(cut, list).unwrap_err(), 4);
    }
    let run = follow_with_pairs(&EXAMPLE, &ALL).unwrap();
    assert_eq!(run.pairs.len(), 3);
    assert_eq!(run.stretches, follow(&EXAMPLE).unwrap().stretches);
}
