//! The bench input: each reason why it can't be said in text, with its byte; and the refusals that
//! can.

use crate::common::{tasks, tasks_with_fixed, tasks_with_floors};
use crate::common::{with_levels, EXAMPLE, LEVELS_END, PLAN_END};
use sim::listing;
use sim::pairs::Pair;
use tools::bench::{from_bytes, refusal, start_refusal, to_bytes, to_pairs, BytesError, Why};
use tools::script::{Pass, Script};

#[track_caller]
fn fails(input: &[u8], byte: usize, why: Why, message: &str) {
    let error = from_bytes(input).unwrap_err();
    assert_eq!(error, BytesError { byte, why });
    assert_eq!(error.to_string(), message);
}

#[test]
fn nothing_at_all() {
    let message = "byte 0: the input is empty; it begins with a level block";
    fails(&[], 0, Why::Empty, message);
}

#[test]
fn cut_levels() {
    for length in 1..LEVELS_END {
        let why = Why::CutLevels {
            count: 8,
            needed: 11,
        };
        let message = format!(
            "byte {length}: the input ends here, within the level block: its count is 8, so it \
             needs 11 bytes"
        );
        fails(&EXAMPLE[..length], length, why, &message);
    }
}

#[test]
fn closing_bits_of_the_levels() {
    let message = "byte 10: the closing bits of the level block are not zero";
    for bit in 0..4 {
        let mut input = EXAMPLE;
        input[10] |= 1 << bit;
        fails(&input, 10, Why::LevelClosingBits, message);
    }
    // A count of 0 leaves four of them in the only byte.
    let message = "byte 0: the closing bits of the level block are not zero";
    fails(&[0x01], 0, Why::LevelClosingBits, message);
}

#[test]
fn too_short_for_a_count() {
    let rest = "at least 2 needed";
    fails(
        &EXAMPLE[..LEVELS_END],
        11,
        Why::TooShort { length: 0 },
        &format!("byte 11: the input ends here, before the plan's count: length 0, {rest}"),
    );
    fails(
        &EXAMPLE[..LEVELS_END + 1],
        12,
        Why::TooShort { length: 1 },
        &format!("byte 12: the input ends here, before the plan's count: length 1, {rest}"),
    );
}

#[test]
fn bad_edition() {
    for edition in (0..16).filter(|edition| ![1, 2].contains(edition)) {
        let mut input = EXAMPLE;
        input[LEVELS_END] = edition << 4 | 0x01;
        let message = format!("byte 11: the edition is {edition}, not 1 or 2");
        fails(&input, 11, Why::Edition(u64::from(edition)), &message);
    }
}

#[test]
fn cut_block() {
    for length in LEVELS_END + 2..PLAN_END {
        let why = Why::CutBlock {
            count: 3,
            needed: 15,
        };
        let message = format!(
            "byte {length}: the input ends here, within the plan block: its count is 3, so it \
             needs 15 bytes"
        );
        fails(&EXAMPLE[..length], length, why, &message);
    }
}

#[test]
fn closing_bits() {
    let message = "byte 25: the closing bits of the plan block are not zero";
    for bit in 0..3 {
        let mut input = EXAMPLE;
        input[PLAN_END - 1] |= 1 << bit;
        fails(&input, 25, Why::ClosingBits, message);
    }
    // A count of 0 leaves seven of them in the second byte.
    let message = "byte 12: the closing bits of the plan block are not zero";
    fails(&with_levels(&[0x10, 0x40]), 12, Why::ClosingBits, message);
    let passes = with_levels(&[0x10, 0x01, 0x80, 0x01]);
    fails(&passes, 12, Why::ClosingBits, message);
}

/// The block of tasks (40, 300) with 255 fixed ticks and (10, 7) with none, behind 01's levels.
fn with_fixed_ticks() -> Vec<u8> {
    with_levels(&SECOND_EDITION)
}

/// 0010 00010, then 0000000000101000 00000000000100101100 11111111 000, then 0000000000001010
/// 00000000000000000111 00000000 000, then a closing bit.
const SECOND_EDITION: [u8; 13] = [
    0x21, 0x00, 0x14, 0x00, 0x09, 0x67, 0xf8, 0x00, 0x0a, 0x00, 0x00, 0x70, 0x00,
];

#[test]
fn a_block_with_fixed_ticks() {
    let script = plan_of(&[(40, 300, 255), (10, 7, 0)]);
    assert_eq!(to_bytes(&script), with_fixed_ticks());
    assert_eq!(from_bytes(&with_fixed_ticks()), Ok(script));
}

#[test]
fn a_cut_block_with_fixed_ticks() {
    for length in 2..SECOND_EDITION.len() {
        let byte = LEVELS_END + length;
        let why = Why::CutBlock {
            count: 2,
            needed: 13,
        };
        let message = format!(
            "byte {byte}: the input ends here, within the plan block: its count is 2, so it \
             needs 13 bytes"
        );
        fails(&with_fixed_ticks()[..byte], byte, why, &message);
    }
}

/// Task 0 has its floor at the end of the block's seventh byte, task 1 in the last byte, before the closing
/// bit. The bits were spare before 02's No. 8, and an error if set.
#[test]
fn floors_in_a_block() {
    let first = [(6, 2, 0, 4), (6, 1, 0, 2), (6, 0, 0, 1)];
    let second = [(12, 3, 1, 4), (12, 2, 1, 2), (12, 1, 1, 1)];
    for (place, bit, task, floor) in first.into_iter().chain(second) {
        let mut input = with_fixed_ticks();
        input[LEVELS_END + place] |= 1 << bit;
        let mut script = plan_of(&[(40, 300, 255), (10, 7, 0)]);
        script.tasks[task].floor = floor;
        assert_eq!(to_bytes(&script), input);
        assert_eq!(from_bytes(&input), Ok(script));
    }
    let mut input = with_fixed_ticks();
    input[LEVELS_END + 12] |= 1;
    let message = "byte 23: the closing bits of the plan block are not zero";
    fails(&input, 23, Why::ClosingBits, message);
}

/// Text can't say it: without fixed ticks it means the first edition.
#[test]
fn the_second_edition_without_fixed_ticks() {
    let message =
        "byte 11: the edition is 2, but no task has fixed ticks or a floor; text without \
                   them means edition 1";
    let mut input = with_fixed_ticks();
    input[LEVELS_END + 5] &= 0xf8;
    input[LEVELS_END + 6] &= 0x07;
    fails(&input, 11, Why::NoAddition, message);
    fails(&with_levels(&[0x20, 0x00]), 11, Why::NoAddition, message);
    // A floor alone is an addition.
    let mut floored = input.clone();
    floored[LEVELS_END + 12] |= 2;
    let script = from_bytes(&floored).unwrap();
    assert_eq!(
        script.tasks,
        tasks_with_floors(&[(40, 300, 0, 0), (10, 7, 0, 1)])
    );
    assert_eq!(to_bytes(&script), floored);
    // Bits that are not zero are told before it, as the questions have it.
    input[LEVELS_END + 12] |= 1;
    let message = "byte 23: the closing bits of the plan block are not zero";
    fails(&input, 23, Why::ClosingBits, message);
}

#[test]
fn odd_byte() {
    for length in (PLAN_END + 1..EXAMPLE.len()).step_by(2) {
        let byte = length - 1;
        let message = format!("byte {byte}: an odd byte is left; a pass has two");
        fails(&EXAMPLE[..length], byte, Why::OddByte, &message);
    }
}

#[test]
fn level_blocks_of_every_count() {
    for count in 0..=15 {
        let script = Script {
            speeds: vec![1_023; count],
            tasks: tasks(&[(7, 9)]),
            ..Script::default()
        };
        let bytes = to_bytes(&script);
        assert_eq!(bytes.len(), (4 + 10 * count + 7) / 8 + 6);
        assert_eq!(from_bytes(&bytes), Ok(script));
    }
}

#[test]
fn blocks_of_every_count() {
    for count in 0..=31 {
        let script = Script {
            tasks: tasks(&vec![(7, 9); count]),
            passes: vec![Pass {
                d: 5,
                finished: true,
            }],
            ..Script::default()
        };
        let bytes = to_bytes(&script);
        assert_eq!(bytes.len(), 11 + (9 + 36 * count + 7) / 8 + 2);
        assert_eq!(from_bytes(&bytes), Ok(script));
    }
}

/// One task with fixed ticks, the last, is enough.
#[test]
fn blocks_with_fixed_ticks_of_every_count() {
    for count in 1..=31 {
        let mut tasks = tasks(&vec![(7, 9); count]);
        tasks[count - 1].fixed = 1;
        let script = Script {
            tasks,
            ..Script::default()
        };
        let bytes = to_bytes(&script);
        assert_eq!(bytes.len(), 11 + (9 + 47 * count + 7) / 8);
        assert_eq!(from_bytes(&bytes), Ok(script));
    }
}

/// The number of the warning is the one that the bench program prints.
#[track_caller]
fn is_refused(plan: &[(u64, u64)], passes: usize, number: u32) {
    let pass = Pass {
        d: 1,
        finished: false,
    };
    let script = Script {
        tasks: tasks(plan),
        passes: vec![pass; passes],
        ..Script::default()
    };
    is_refused_so(&script, number);
}

#[track_caller]
fn is_refused_so(script: &Script, number: u32) {
    assert_eq!(refusal(script), Some(number));
    let printed = listing(&to_bytes(script));
    assert_eq!(printed, format!("refused {number}\n").into_bytes());
}

/// A plan with fixed ticks and no pass.
fn plan_of(triples: &[(u64, u64, u64)]) -> Script {
    Script {
        tasks: tasks_with_fixed(triples),
        ..Script::default()
    }
}

/// A task with this floor over these speeds, and one without.
fn floors_over(speeds: &[u64], floor: u64) -> Script {
    Script {
        speeds: speeds.to_vec(),
        tasks: tasks_with_floors(&[(1_000, 30, 0, floor), (1_000, 30, 0, 0)]),
        ..Script::default()
    }
}

#[test]
fn refusals_that_can_be_packed() {
    is_refused(&[], 0, 3);
    is_refused(&[], 4, 3);
    is_refused(&[(100, 1); 17], 1, 3);
    is_refused(&[(100, 1); 31], 1, 3);
    is_refused(&[(0, 400)], 1, 6);
    is_refused(&[(10, 0)], 1, 6);
    is_refused(&[(1_000, 1), (1_001, 1)], 1, 7);
    is_refused(&[(10, 400), (10, 400), (30, 601)], 1, 8);
    is_refused_so(&plan_of(&[(0, 400, 1)]), 6);
    is_refused_so(&plan_of(&[(1_000, 1, 1), (1_001, 1, 0)]), 7);
    is_refused_so(&plan_of(&[(10, 400, 0), (10, 400, 0), (30, 600, 1)]), 8);
    is_refused_so(&plan_of(&[(255, 1, 255)]), 8);
    is_refused_so(&floors_over(&[10, 20], 2), 24);
    is_refused_so(&floors_over(&[10], 7), 24);
    // After 6, and before 7 and 8.
    let mut script = floors_over(&[10, 20], 2);
    script.tasks.extend(tasks(&[(1_999, 1), (1, 1_000)]));
    is_refused_so(&script, 24);
    script.tasks.extend(tasks(&[(0, 1)]));
    is_refused_so(&script, 6);
    // 11 + 6 + 2 * 32,760 bytes are one too many.
    is_refused(&[(40, 300)], 32_760, 17);
    is_refused(&[(0, 300)], 32_760, 17);
}

#[test]
fn refused_speeds_that_can_be_packed() {
    let nine = [1, 2, 3, 4, 5, 6, 7, 8, 9];
    let cases = [
        (&[][..], 18),
        (&nine, 18),
        (&[0; 15], 18),
        (&[0], 20),
        (&[1_001], 20),
        (&[1_023, 1], 20),
        (&[5, 5], 20),
        (&[5, 4], 20),
        // In order, and no level admits the plan.
        (&[7], 8),
    ];
    for (speeds, number) in cases {
        let script = Script {
            speeds: speeds.to_vec(),
            tasks: tasks(&[(40, 300)]),
            ..Script::default()
        };
        is_refused_so(&script, number);
    }
    // The speeds before the plan.
    let script = Script {
        speeds: vec![0],
        ..Script::default()
    };
    is_refused_so(&script, 20);
}

#[test]
fn accepted_inputs_have_no_refusal() {
    assert_eq!(refusal(&from_bytes(&EXAMPLE).unwrap()), None);
    assert_eq!(refusal(&plan_of(&[(256, 10, 255)])), None);
    assert_eq!(refusal(&floors_over(&[10, 20], 1)), None);
    assert_eq!(refusal(&floors_over(&[10, 20, 30], 2)), None);
    // 2 + 6 + 2 * 32,764 bytes are just enough.
    let mut script = Script {
        speeds: vec![8],
        tasks: tasks(&[(40, 300)]),
        ..Script::default()
    };
    let pass = Pass {
        d: 0,
        finished: false,
    };
    script.passes.resize(32_764, pass);
    assert_eq!(to_bytes(&script).len(), 65_536);
    assert_eq!(refusal(&script), None);
}

/// The example with pairs.
fn with_pairs(list: &[(usize, usize)]) -> Script {
    let mut script = from_bytes(&EXAMPLE).unwrap();
    for (earlier, later) in list {
        let (earlier, later) = (*earlier, *later);
        script.pairs.push(Pair { earlier, later });
    }
    script
}

/// Would catch pairs that get into the bench input, or a list with the later number first.
#[test]
fn pairs_are_a_list_of_their_own() {
    let script = with_pairs(&[(0, 1), (255, 7), (2, 2)]);
    assert_eq!(to_bytes(&script), EXAMPLE);
    assert_eq!(to_pairs(&script), [0, 1, 255, 7, 2, 2]);
    assert_eq!(to_pairs(&with_pairs(&[])), []);
    assert_eq!(from_bytes(&EXAMPLE).unwrap().pairs, []);
    // What the bench program refuses has nothing to do with them.
    assert_eq!(refusal(&script), None);
}

/// Would catch a warning of another number than starting's, or of 22 where starting isn't at it yet.
#[test]
fn the_refusal_of_a_start_with_pairs() {
    assert_eq!(start_refusal(&with_pairs(&[])), None);
    assert_eq!(start_refusal(&with_pairs(&[(0, 1), (0, 2), (1, 2)])), None);
    assert_eq!(start_refusal(&with_pairs(&[(0, 1); 16])), None);
    assert_eq!(start_refusal(&with_pairs(&[(0, 1); 17])), Some(22));
    for pair in [(1, 0), (0, 0), (2, 0), (0, 3), (3, 0), (255, 255)] {
        assert_eq!(start_refusal(&with_pairs(&[pair])), Some(22));
        assert_eq!(start_refusal(&with_pairs(&[(0, 1), pair])), Some(22));
        let mut script = with_pairs(&[pair]);
        script.tasks[2].worst = 601;
        assert_eq!(start_refusal(&script), Some(8));
        script.tasks.clear();
        assert_eq!(start_refusal(&script), Some(3));
        script.speeds.clear();
        assert_eq!(start_refusal(&script), Some(18));
    }
}
