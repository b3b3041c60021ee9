//! There and back, on random scripts, random runs and damaged inputs.

use crate::common::{any_run, any_script, tasks};
use sim::random::blocks::{bench_input, block_of, damaged_block};
use sim::random::plans::{edge_list, plan_at_level};
use sim::random::tables::{damaged_level_block, some_or_base_levels};
use sim::random::Random;
use sim::{listing, write_levels};
use std::collections::BTreeMap;
use tools::bench::{from_bytes, refusal, to_bytes, Why};
use tools::text::{parse, write};

#[test]
fn scripts_to_bytes_and_to_text_and_back() {
    let mut random = Random::new(1);
    for _ in 0..4_000 {
        let script = any_script(&mut random);
        let bytes = to_bytes(&script);
        assert_eq!(from_bytes(&bytes), Ok(script.clone()));
        let text = write(&script);
        assert_eq!(parse(&text), Ok(script));
    }
}

#[test]
fn runs_to_text_and_back() {
    let mut random = Random::new(2);
    let mut odd = 0;
    for _ in 0..2_000 {
        let mut input = any_run(&mut random, 30);
        if let Err(error) = from_bytes(&input) {
            // The only fault that these can have is their odd byte.
            assert_eq!(error.byte, input.len() - 1);
            input.pop();
            odd += 1;
        }
        let text = write(&from_bytes(&input).unwrap());
        assert_eq!(to_bytes(&parse(&text).unwrap()), input);
    }
    assert!(odd > 100);
}

/// What can't be said in text, found without taking the blocks apart: the place of the fault.
fn fault(input: &[u8]) -> Option<usize> {
    if input.is_empty() {
        return Some(0);
    }
    let used = 4 + 10 * usize::from(input[0] >> 4);
    let needed = (used + 7) / 8;
    if input.len() < needed {
        return Some(input.len());
    }
    let closing = (1 << (8 * needed - used)) - 1;
    if input[needed - 1] & closing != 0 {
        return Some(needed - 1);
    }
    fault_past_levels(&input[needed..]).map(|byte| needed + byte)
}

/// The same of a plan block and passes.
fn fault_past_levels(input: &[u8]) -> Option<usize> {
    if input.len() < 2 {
        return Some(input.len());
    }
    let each = match input[0] >> 4 {
        1 => 36,
        2 => 47,
        _ => return Some(0),
    };
    let count = usize::from(input[0] & 0x0f) * 2 + usize::from(input[1] >> 7);
    let used = 9 + each * count;
    let needed = (used + 7) / 8;
    if input.len() < needed {
        return Some(input.len());
    }
    // Fixed ticks and floors.
    let additions = |task: usize| 9 + 47 * task + 36..9 + 47 * task + 47;
    if (used..8 * needed).any(|bit| is_set(input, bit)) {
        return Some(needed - 1);
    }
    let mut bits = (0..count).flat_map(additions);
    if each == 47 && !bits.any(|bit| is_set(input, bit)) {
        return Some(0);
    }
    ((input.len() - needed) % 2 == 1).then_some(input.len() - 1)
}

fn is_set(input: &[u8], bit: usize) -> bool {
    input[bit / 8] >> (7 - bit % 8) & 1 == 1
}

#[test]
fn damaged_inputs_fail_at_their_byte_or_come_back() {
    let mut random = Random::new(3);
    let (mut failed, mut came_back) = (BTreeMap::new(), [0; 4]);
    for round in 0..4_000 {
        let levels = some_or_base_levels(&mut random);
        let level = random.place(levels.count());
        let plan = plan_at_level(&mut random, &levels, level);
        let mut input = write_levels(&levels);
        if round % 3 == 0 {
            input = damaged_level_block(&mut random, &input);
        }
        input.extend(damaged_block(&mut random, &block_of(&plan)));
        for _ in 0..random.below(9) {
            input.push(random.number() as u8);
        }
        match from_bytes(&input) {
            Err(error) => {
                assert_eq!(fault(&input), Some(error.byte), "{input:02x?}");
                *failed.entry(kind(error.why)).or_insert(0) += 1;
            }
            Ok(script) => {
                assert_eq!(fault(&input), None, "{input:02x?}");
                assert_eq!(to_bytes(&script), input);
                let fixed = script.tasks.iter().any(|task| task.fixed > 0);
                let floors = script.tasks.iter().any(|task| task.floor > 0);
                came_back[usize::from(fixed) + 2 * usize::from(floors)] += 1;
                assert_eq!(parse(&write(&script)), Ok(script));
            }
        }
    }
    for kind in ["CutBlock", "ClosingBits", "NoAddition"] {
        assert!(failed.get(kind) > Some(&50), "{kind}: {failed:?}");
    }
    // With neither, with fixed ticks, with floors, and with both.
    assert!(came_back.iter().all(|times| *times > 120), "{came_back:?}");
    let [neither, fixed, floors, both] = came_back;
    let halves = [neither + floors, fixed + both, neither + fixed];
    assert!(halves.iter().all(|times| *times > 250), "{came_back:?}");
}

/// The first word of a reason's name.
fn kind(why: Why) -> String {
    let name = format!("{why:?}");
    name.split(|c: char| !c.is_alphanumeric())
        .next()
        .unwrap_or("")
        .to_string()
}

#[test]
fn the_refusal_is_the_one_that_the_bench_program_prints() {
    let mut random = Random::new(4);
    let (mut refused, mut for_floors) = (0, 0);
    for _ in 0..1_500 {
        let levels = some_or_base_levels(&mut random);
        let mut plan = edge_list(&mut random, &levels);
        for task in &mut plan {
            task.period &= 0xffff;
            task.worst &= 0xf_ffff;
            task.fixed &= 0xff;
            task.floor &= 0x7;
        }
        let mut input = bench_input(&mut random, &levels, &plan, 3);
        let script = from_bytes(&input).unwrap_or_else(|_| {
            input.pop();
            from_bytes(&input).unwrap()
        });
        let printed = String::from_utf8(listing(&input)).unwrap();
        match refusal(&script) {
            Some(number) => {
                assert_eq!(printed, format!("refused {number}\n"));
                refused += 1;
                for_floors += u32::from(number == 24);
            }
            None => assert!(printed.starts_with("plan ")),
        }
    }
    assert!(refused > 150 && for_floors > 40, "{refused} {for_floors}");
}

/// The same of level blocks: any speeds that fit their fields, with a good plan behind them.
#[test]
fn the_refusal_of_speeds_is_the_one_that_the_bench_program_prints() {
    let mut random = Random::new(5);
    let mut seen = BTreeMap::new();
    for _ in 0..3_000 {
        let mut script = any_script(&mut random);
        script.tasks = tasks(&[(1, 500)]);
        if random.one_in(2) {
            script.speeds.truncate(2);
        }
        let printed = String::from_utf8(listing(&to_bytes(&script))).unwrap();
        let refused = refusal(&script);
        match refused {
            Some(number) => assert_eq!(printed, format!("refused {number}\n")),
            None => assert!(printed.starts_with("plan ")),
        }
        *seen.entry(refused).or_insert(0) += 1;
    }
    for answer in [None, Some(8), Some(18), Some(20)] {
        assert!(
            seen.get(&answer).map_or(false, |times| *times > 20),
            "{seen:?}"
        );
    }
}
