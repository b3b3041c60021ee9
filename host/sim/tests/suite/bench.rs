//! 01, "The bench program".

use crate::base::{listing, BASE_LEVELS};
use crate::common::{tasks, BENCH_BLOCK};
use sim::random::blocks::block_of;

fn with_passes(passes: &[u8]) -> Vec<u8> {
    [&BENCH_BLOCK[..], passes].concat()
}

/// The listing with 01's speeds in front.
fn text(rest: &[u8]) -> String {
    String::from_utf8(listing(rest)).unwrap()
}

/// The listing of an input as it stands.
fn whole(input: &[u8]) -> String {
    String::from_utf8(sim::listing(input)).unwrap()
}

#[test]
fn the_whole_listing() {
    // 02, No. 4: "the line at 14 becomes "14 run 1 6 5", the last two passes become hex 8005 0001,
    // and the idle line becomes "19 idle 1"".
    let passes = [
        0x80, 0x01, 0x80, 0x07, 0x80, 0x02, 0x80, 0x04, 0x80, 0x05, 0x00, 0x01,
    ];
    let expected = "\
plan 3 7 30
0 run 0 7 4
1 run 1 5 7
8 run 2 7 2
10 run 0 7 4
14 run 1 6 5
19 idle 1
20 run 0 6 5
";
    assert_eq!(text(&with_passes(&passes)), expected);
}

#[test]
fn no_passes() {
    assert_eq!(text(&BENCH_BLOCK), "plan 3 7 30\n0 run 0 7 4\n");
}

#[test]
fn a_refused_pass_prints_its_line_and_the_next_is_read() {
    let passes = [
        0x00, 0x04, 0x80, 0x05, 0x80, 0x0b, 0x00, 0x00, 0xff, 0xff, 0x00, 0x03, 0x80, 0x01,
    ];
    let expected = "\
plan 3 7 30
0 run 0 7 4
refused 14
refused 14
refused 12
refused 11
refused 12
3 run 0 7 1
4 run 1 7 4
";
    assert_eq!(text(&with_passes(&passes)), expected);
}

#[test]
fn an_idle_order_that_stays_and_a_finish_while_idle() {
    // 02, No. 4: the job that runs from 14 on has 5 ticks at level 6. Here it ends after 4.
    let passes = [
        0x80, 0x01, 0x80, 0x07, 0x80, 0x02, 0x80, 0x04, 0x80, 0x04, 0x80, 0x02, 0x00, 0x01, 0x00,
        0x01,
    ];
    let ending = "14 run 1 6 5\n18 idle 2\nrefused 13\n19 idle 1\n20 run 0 6 5\n";
    assert!(text(&with_passes(&passes)).ends_with(ending));
}

#[test]
fn an_odd_byte_at_the_end() {
    assert_eq!(
        text(&with_passes(&[0x80])),
        "plan 3 7 30\n0 run 0 7 4\nrefused 16\n"
    );
    let ending = "0 run 0 7 4\n1 run 1 5 7\nrefused 16\n";
    assert!(text(&with_passes(&[0x80, 0x01, 0x00])).ends_with(ending));
}

#[test]
fn a_refused_reading_is_the_only_line() {
    // Nothing after the level block, and a single byte.
    assert_eq!(text(&[]), "refused 1\n");
    assert_eq!(text(&[0x10]), "refused 1\n");
    assert_eq!(text(&[0x30, 0x80]), "refused 2\n");
    // Count 0 and count 17, each with bytes to follow.
    assert_eq!(text(&[0x10, 0x00, 0x00]), "refused 3\n");
    assert_eq!(text(&[0x18, 0x80, 0x00]), "refused 3\n");
    // A byte short, so the reader gets all there are.
    assert_eq!(text(&BENCH_BLOCK[..14]), "refused 4\n");
    assert_eq!(text(&BENCH_BLOCK[..2]), "refused 4\n");
    // Closing bits: the last 3 of 120.
    let mut closing = BENCH_BLOCK;
    closing[14] |= 1;
    assert_eq!(
        text(&[&closing[..], &[0x80, 0x01, 0x80]].concat()),
        "refused 5\n"
    );
    let of_plan = |pairs: &[(u64, u64)]| text(&block_of(&tasks(pairs)));
    assert_eq!(of_plan(&[(0, 1)]), "refused 6\n");
    assert_eq!(of_plan(&[(1_000, 1), (1_001, 1)]), "refused 7\n");
    assert_eq!(of_plan(&[(1, 101)]), "refused 8\n");
}

#[test]
fn input_of_65_536_bytes_and_of_one_more() {
    // The 11 bytes of the level block count too.
    let mut rest = with_passes(&[0; 65_536 - 11 - 15]);
    assert_eq!(rest.len(), 65_536 - 11);
    let lines = text(&rest);
    // 65,510 bytes are 32,755 passes of 0 ticks.
    assert_eq!(lines.lines().count(), 2 + 32_755);
    assert_eq!(
        lines.lines().filter(|line| *line == "refused 11").count(),
        32_755
    );
    let shorter = text(&rest[..rest.len() - 1]);
    assert!(shorter.ends_with("refused 11\nrefused 16\n"));
    rest.push(0);
    assert_eq!(text(&rest), "refused 17\n");
    // Before all: also when the level block or the plan would be refused.
    assert_eq!(text(&vec![0; 65_526]), "refused 17\n");
    assert_eq!(text(&vec![0; 65_525]), "refused 2\n");
    assert_eq!(whole(&vec![0; 65_537]), "refused 17\n");
    assert_eq!(whole(&vec![0; 65_536]), "refused 18\n");
}

#[test]
fn a_refused_level_block_is_the_only_line() {
    let rest = with_passes(&[0x80, 0x01]);
    let after = |block: &[u8]| whole(&[block, &rest].concat());
    assert_eq!(
        after(&BASE_LEVELS),
        "plan 3 7 30\n0 run 0 7 4\n1 run 1 5 7\n"
    );
    assert_eq!(whole(&[]), "refused 18\n");
    // Counts 0 and 9, each with good bytes to follow.
    assert_eq!(after(&[0x00]), "refused 18\n");
    assert_eq!(after(&[0x90]), "refused 18\n");
    // Shorter than its count, so it is given all there are.
    for length in 1..11 {
        assert_eq!(whole(&BASE_LEVELS[..length]), "refused 19\n");
    }
    let mut closing = BASE_LEVELS;
    closing[10] |= 1;
    assert_eq!(after(&closing), "refused 19\n");
    // 8 speeds of which the first is 0.
    let mut zero = BASE_LEVELS;
    zero[1] = 0x00;
    assert_eq!(after(&zero), "refused 20\n");
    // What the plan is doesn't matter then.
    assert_eq!(whole(&zero), "refused 20\n");
}

#[test]
fn each_block_is_cut_by_its_own_count() {
    // One level of 100 units a tick: 0001 0001100100 00, so 2 bytes. The bench plan fills it.
    let rest = with_passes(&[0x80, 0x01]);
    let one = [&[0x11, 0x90][..], &rest].concat();
    assert_eq!(whole(&one), "plan 3 0 30\n0 run 0 0 4\n1 run 1 0 4\n");
    // 99 a tick: 8.
    let slower = [&[0x11, 0x8c][..], &rest].concat();
    assert_eq!(whole(&slower), "refused 8\n");
    // With nothing after the level block, 1; with a plan cut short, 4.
    assert_eq!(whole(&[0x11, 0x90]), "refused 1\n");
    assert_eq!(whole(&one[..3]), "refused 1\n");
    assert_eq!(whole(&one[..4]), "refused 4\n");
    assert_eq!(whole(&one[..16]), "refused 4\n");
    assert_eq!(whole(&one[..17]), "plan 3 0 30\n0 run 0 0 4\n");
}
