//! Refused passes in the picture.

use crate::common::{any_run, EXAMPLE, PLAN_END};
use crate::pictures::{picture, Seen};
use crate::told::told;
use crate::xml::Node;
use sim::random::Random;

/// The ticks of the crosses, from left to right.
fn crosses(seen: &Seen) -> Vec<u64> {
    let middle = |node: &Node| {
        let path = node.get("d").unwrap().trim_start_matches('M');
        let left: f64 = path.split(' ').next().unwrap().parse().unwrap();
        seen.tick(left + 4.0)
    };
    seen.all("refused", "refusals").map(middle).collect()
}

/// The ticks and texts of the labels. A label starts three pixels from its tick.
fn labels(seen: &Seen) -> Vec<(u64, String)> {
    let label = |node: &Node| (seen.tick(node.number("x") - 3.0), node.text.clone());
    seen.all("refusal", "refusals").map(label).collect()
}

/// A label with its repetitions written out: `14×2 11` is 14, 14, 11.
fn numbers(label: &str) -> Vec<u32> {
    let mut numbers = Vec::new();
    for part in label.split(' ') {
        let (number, times) = part.split_once('\u{d7}').unwrap_or((part, "1"));
        let number: u32 = number.parse().unwrap();
        numbers.extend(vec![number; times.parse().unwrap()]);
    }
    numbers
}

fn ticks_of(refused: &[(u64, u32)]) -> Vec<u64> {
    let mut ticks: Vec<u64> = refused.iter().map(|(tick, _)| *tick).collect();
    ticks.dedup();
    ticks
}

#[test]
fn each_refusal_is_at_its_tick_with_its_number() {
    let mut random = Random::new(41);
    let (mut all, mut cut_short) = (0, 0);
    for _ in 0..80 {
        let input = any_run(&mut random, 25);
        let seen = Seen::new(&picture(&input, None, None));
        let told = told(&input);
        assert_eq!(crosses(&seen), ticks_of(&told.refused));
        let shown = labels(&seen);
        let labelled: Vec<u64> = shown.iter().map(|(tick, _)| *tick).collect();
        assert_eq!(labelled, ticks_of(&told.refused));
        for (tick, label) in shown {
            let expected = told.refused.iter().filter(|(at, _)| *at == tick);
            let expected: Vec<u32> = expected.map(|(_, number)| *number).collect();
            match label.strip_suffix(" \u{2026}") {
                None => assert_eq!(numbers(&label), expected),
                Some(start) => {
                    assert!(expected.starts_with(&numbers(start)));
                    cut_short += 1;
                }
            }
            all += expected.len();
        }
    }
    assert!(all > 200 && cut_short < 10);
}

#[test]
fn refusals_at_one_tick_are_counted() {
    // At tick 0: 14, 14, 12, 11, 12; then four ticks of task 0, and an odd byte.
    let passes = [
        0x00, 0x04, 0x80, 0x05, 0x80, 0x0b, 0x00, 0x00, 0xff, 0xff, 0x80, 0x04, 0x00,
    ];
    let seen = Seen::new(&picture(
        &[&EXAMPLE[..PLAN_END], &passes].concat(),
        None,
        None,
    ));
    let expected = [(0, "14\u{d7}2 12 11 12"), (4, "16")];
    assert_eq!(
        labels(&seen),
        expected.map(|(tick, text)| (tick, text.to_string()))
    );
    let hint = "refused at tick 4: 16 (16: an odd byte is left)";
    assert!(seen
        .nodes
        .iter()
        .any(|node| node.tag == "title" && node.text == hint));
}

#[test]
fn no_refusals_no_crosses() {
    let seen = Seen::new(&picture(&EXAMPLE, None, None));
    assert_eq!(crosses(&seen), []);
    assert!(seen.nodes.iter().all(|node| node.text != "refused"));
}

#[test]
fn windows_show_the_refusals_in_them() {
    let mut random = Random::new(42);
    for _ in 0..60 {
        let input = any_run(&mut random, 40);
        let told = told(&input);
        let to = random.between(1, told.clock.max(1));
        let from = random.below(to);
        let seen = Seen::new(&picture(&input, Some(from), Some(to)));
        let mut expected = ticks_of(&told.refused);
        expected.retain(|tick| (from..=to).contains(tick));
        assert_eq!(crosses(&seen), expected);
    }
}

/// A label takes about 7 pixels a character and 11 in height.
fn box_of(label: &Node) -> (f64, f64, f64, f64) {
    let (x, y) = (label.number("x"), label.number("y"));
    let wide = 7.0 * label.text.chars().count() as f64;
    (x, x + wide, y - 9.0, y + 2.0)
}

#[test]
fn labels_lie_neither_on_each_other_nor_on_poles() {
    let mut random = Random::new(43);
    let mut left_out = 0;
    for _ in 0..20 {
        let input = any_run(&mut random, 300);
        let seen = Seen::new(&picture(&input, None, None));
        let boxes: Vec<_> = seen.all("refusal", "refusals").map(box_of).collect();
        for (place, a) in boxes.iter().enumerate() {
            for b in &boxes[place + 1..] {
                let apart = a.1 < b.0 || b.1 < a.0 || a.3 < b.2 || b.3 < a.2;
                assert!(apart, "{a:?} {b:?}");
            }
            for pole in seen.all("pole", "refusals") {
                let (x, top) = (pole.number("x1"), pole.number("y1"));
                let clear = x < a.0 || a.1 < x || a.3 < top;
                assert!(clear, "{a:?} {x} {top}");
            }
        }
        left_out += crosses(&seen).len() - boxes.len();
        let note = format!("numbers left out: {}", crosses(&seen).len() - boxes.len());
        let noted = seen.nodes.iter().any(|node| node.text == note);
        assert_eq!(noted, crosses(&seen).len() > boxes.len());
    }
    assert!(left_out > 0, "some runs are too crowded for all labels");
}
