//! The two commands as a technician calls them.

use crate::common::{with_levels, EXAMPLE, EXAMPLE_TEXT, LEVELS_END, PLAN_END};
use crate::pictures::picture;
use std::fs;
use std::io::Write;
use std::process::{Command, Stdio};
use tools::picture::{draw, window};
use tools::run::follow_with_pairs;

struct Ended {
    status: Option<i32>,
    out: Vec<u8>,
    said: String,
}

fn call(program: &str, arguments: &[&str], input: &[u8]) -> Ended {
    let mut child = Command::new(program)
        .args(arguments)
        .stdin(Stdio::piped())
        .stdout(Stdio::piped())
        .stderr(Stdio::piped())
        .spawn()
        .unwrap();
    // A command that wants no input may have ended already.
    let _ = child.stdin.take().unwrap().write_all(input);
    let output = child.wait_with_output().unwrap();
    Ended {
        status: output.status.code(),
        out: output.stdout,
        said: String::from_utf8(output.stderr).unwrap(),
    }
}

fn pack(arguments: &[&str], input: &[u8]) -> Ended {
    call(env!("CARGO_BIN_EXE_pack"), arguments, input)
}

fn timeline(arguments: &[&str], input: &[u8]) -> Ended {
    call(env!("CARGO_BIN_EXE_timeline"), arguments, input)
}

/// A command that did its work and said nothing.
#[track_caller]
fn gives(ended: Ended, expected: &[u8]) {
    assert_eq!((ended.status, ended.said.as_str()), (Some(0), ""));
    assert_eq!(ended.out, expected);
}

/// A command that wrote nothing and said this.
#[track_caller]
fn stops(ended: Ended, status: i32, said: &str) {
    assert_eq!((ended.status, ended.said.trim_end()), (Some(status), said));
    assert_eq!(ended.out, b"");
}

#[test]
fn pack_there_and_back() {
    gives(pack(&["to-bytes"], EXAMPLE_TEXT.as_bytes()), &EXAMPLE);
    gives(pack(&["to-text"], &EXAMPLE), EXAMPLE_TEXT.as_bytes());
    gives(pack(&["to-bytes", "-"], EXAMPLE_TEXT.as_bytes()), &EXAMPLE);
    let file = concat!(env!("CARGO_MANIFEST_DIR"), "/example.txt");
    gives(pack(&["to-bytes", file], b""), &EXAMPLE);
}

#[test]
fn pack_names_the_line_or_the_byte() {
    let line = "pack: standard input: line 2: the worst case is missing";
    stops(pack(&["to-bytes"], b"\ntask 1"), 1, line);
    let byte = "pack: standard input: byte 38: an odd byte is left; a pass has two";
    stops(pack(&["to-text"], &[&EXAMPLE[..], &[0]].concat()), 1, byte);
}

#[test]
fn pack_takes_any_bytes_in_a_comment() {
    let text = b"task 40 300 # \xff\xfe\n";
    let block = [0x10, 0x80, 0x14, 0x00, 0x09, 0x60];
    gives(pack(&["to-bytes"], text), &with_levels(&block));
    assert_eq!(pack(&["to-bytes"], b"t\xffsk 1 1").status, Some(1));
}

#[test]
fn pack_warns_of_a_plan_that_is_refused() {
    let warning = "pack: warning: the bench program refuses this with 6: a period or a worst case \
                   is out of range\n";
    let ended = pack(&["to-bytes"], b"task 0 300\n");
    assert_eq!((ended.status, ended.said.as_str()), (Some(0), warning));
    let block = [0x10, 0x80, 0x00, 0x00, 0x09, 0x60];
    assert_eq!(ended.out, with_levels(&block));
    let back = pack(&["to-text"], &ended.out);
    assert_eq!((back.status, back.said.as_str()), (Some(0), warning));
    assert_eq!(back.out, b"task 0 300\n");
}

#[test]
fn pack_warns_of_speeds_that_are_refused() {
    let count = "18: the level block is empty, or its count is not 1 to 8";
    let speed = "20: a speed is not 1 to 1,000, or not above the one before it";
    let nine = "speeds 1 2 3 4 5 6 7 8 9";
    for (line, why) in [
        ("speeds", count),
        (nine, count),
        ("speeds 0 5", speed),
        ("speeds 1001", speed),
        ("speeds 30 20", speed),
    ] {
        // The plan would be refused too, with 6.
        let text = format!("{line}\ntask 0 300\n");
        let warning = format!("pack: warning: the bench program refuses this with {why}\n");
        let ended = pack(&["to-bytes"], text.as_bytes());
        assert_eq!((ended.status, &ended.said), (Some(0), &warning));
        let back = pack(&["to-text"], &ended.out);
        assert_eq!((back.status, &back.said), (Some(0), &warning));
        assert_eq!(back.out, text.as_bytes());
    }
}

#[test]
fn pack_there_and_back_with_other_speeds() {
    // 3 speeds are 34 bits: 0011 0000000111 0000001101 0000011101 000000.
    let text = "speeds 7 13 29\ntask 40 300\n";
    let bytes = [
        0x30, 0x1c, 0x0d, 0x07, 0x40, 0x10, 0x80, 0x14, 0x00, 0x09, 0x60,
    ];
    gives(pack(&["to-bytes"], text.as_bytes()), &bytes);
    gives(pack(&["to-text"], &bytes), text.as_bytes());
    let by_hand = format!("speeds 10 20 30 40 50 60 80 100\n{EXAMPLE_TEXT}");
    gives(pack(&["to-bytes"], by_hand.as_bytes()), &EXAMPLE);
}

#[test]
fn pack_there_and_back_with_fixed_ticks() {
    let text = "task 40 300 5\n\nfinish 7\n";
    let block = [0x20, 0x80, 0x14, 0x00, 0x09, 0x60, 0x28];
    let bytes = with_levels(&[&block[..], &[0x80, 0x07]].concat());
    gives(pack(&["to-bytes"], text.as_bytes()), &bytes);
    gives(pack(&["to-text"], &bytes), text.as_bytes());
    // The last bit of the block was a spare one, and is the floor's.
    let mut floored = bytes;
    floored[17] |= 1;
    let text = "task 40 300 5 1\n\nfinish 7\n";
    gives(pack(&["to-text"], &floored), text.as_bytes());
    gives(pack(&["to-bytes"], text.as_bytes()), &floored);
}

/// Would catch a floor that is packed without a warning where the board has no such level.
#[test]
fn pack_warns_of_a_floor_that_is_no_level() {
    let warning = "pack: warning: the bench program refuses this with 24: a floor is not the \
                   number of a loaded level\n";
    let text = "speeds 10 20\ntask 40 300 0 2\n";
    let ended = pack(&["to-bytes"], text.as_bytes());
    assert_eq!((ended.status, ended.said.as_str()), (Some(0), warning));
    let back = pack(&["to-text"], &ended.out);
    assert_eq!((back.status, back.said.as_str()), (Some(0), warning));
    assert_eq!(back.out, text.as_bytes());
    // With a third level there is nothing to warn of.
    let enough = "speeds 10 20 30\ntask 40 300 0 2\n";
    let packed = pack(&["to-bytes"], enough.as_bytes());
    assert_eq!((packed.status, packed.said.as_str()), (Some(0), ""));
    gives(pack(&["to-text"], &packed.out), enough.as_bytes());
    let refused = "timeline: the input is refused with 24: a floor is not the number of a loaded \
                   level";
    stops(timeline(&[], &ended.out), 1, refused);
}

/// The example with these lines in front of its passes.
fn example_with(lines: &str) -> String {
    EXAMPLE_TEXT.replacen("\n\n", &format!("\n{lines}\n\n"), 1)
}

const NO_PAIRS: &str = "pack: warning: the bench program takes no pairs; they are left out\n";
const BAD_PAIRS: &str =
    "pack: warning: starting refuses this with 22: there are more than 16 pairs, \
                         or an odd byte, or a pair is not good\n";

/// A command that did its work, and said this.
#[track_caller]
fn warns(ended: Ended, expected: &[u8], said: &str) {
    assert_eq!((ended.status, ended.said.as_str()), (Some(0), said));
    assert_eq!(ended.out, expected);
}

/// Would catch pairs that are left out in silence, a missing second warning, or one too many.
#[test]
fn pack_warns_that_the_bench_program_takes_no_pairs() {
    let packed = |lines: &str| pack(&["to-bytes"], example_with(lines).as_bytes());
    warns(packed("before 0 1\nbefore 1 2"), &EXAMPLE, NO_PAIRS);
    let both = [NO_PAIRS, BAD_PAIRS].concat();
    warns(packed("before 1 0"), &EXAMPLE, &both);
    warns(packed("before 0 3"), &EXAMPLE, &both);
    warns(packed(&"before 0 1\n".repeat(16)), &EXAMPLE, NO_PAIRS);
    warns(packed(&"before 0 1\n".repeat(17)), &EXAMPLE, &both);
    // Of a plan that is refused starting asks nothing about the pairs.
    let ended = pack(&["to-bytes"], b"task 0 300\nbefore 1 0\n");
    let plan = "pack: warning: the bench program refuses this with 6: a period or a worst case is \
                out of range\n";
    assert_eq!(ended.said, [plan, NO_PAIRS].concat());
}

/// Would catch a list with anything but its pairs in it, or one that is refused without a warning.
#[test]
fn pack_writes_the_pairs_alone() {
    let packed = |lines: &str| pack(&["to-pairs"], example_with(lines).as_bytes());
    gives(packed("before 0 1\nbefore 1 2"), &[0, 1, 1, 2]);
    gives(packed("# none"), b"");
    gives(pack(&["to-pairs"], EXAMPLE_TEXT.as_bytes()), b"");
    warns(
        packed("before 1 0\nbefore 255 7"),
        &[1, 0, 255, 7],
        BAD_PAIRS,
    );
    let many = "before 0 2\n".repeat(17);
    warns(packed(&many), &[0, 2].repeat(17), BAD_PAIRS);
    // The plan's own refusal comes first.
    let plan = "pack: warning: starting refuses this with 6: a period or a worst case is out of \
                range\n";
    warns(
        pack(&["to-pairs"], b"before 3 4\ntask 0 300"),
        &[3, 4],
        plan,
    );
    let line = "pack: standard input: line 2: the later task is missing";
    stops(pack(&["to-pairs"], b"\nbefore 1"), 1, line);
}

/// Would catch a text that comes back with pairs that no bench input has.
#[test]
fn pack_to_text_knows_no_pairs() {
    let text = example_with("before 0 1");
    let bytes = pack(&["to-bytes"], text.as_bytes()).out;
    gives(pack(&["to-text"], &bytes), EXAMPLE_TEXT.as_bytes());
}

/// A file for a test, with these bytes in it.
fn file_with(name: &str, bytes: &[u8]) -> String {
    let path = format!("{}/{name}", env!("CARGO_TARGET_TMPDIR"));
    fs::write(&path, bytes).unwrap();
    path
}

/// Would catch a list that isn't read, from a file or from standard input, or that changes a picture
/// when it is empty.
#[test]
fn timeline_draws_the_pairs() {
    let list = [0, 1, 0, 2];
    let run = follow_with_pairs(&EXAMPLE, &list).unwrap();
    let expected = draw(&run, window(&run, None, Some(30)).unwrap(), None);
    assert!(expected.contains("class=\"pairs\""));
    let path = file_with("timeline_draws_the_pairs.list", &list);
    let drawn = timeline(&["--pairs", &path, "--to", "30"], &EXAMPLE);
    gives(drawn, expected.as_bytes());
    // The input is a file with a name for the heading.
    let input = file_with("timeline_draws_the_pairs.in", &EXAMPLE);
    let window = window(&run, None, None).unwrap();
    let named = draw(&run, window, Some("timeline_draws_the_pairs.in"));
    let drawn = timeline(&[&input, "--pairs", "-"], &list);
    gives(drawn, named.as_bytes());
    let empty = file_with("timeline_draws_the_pairs.none", b"");
    let without = picture(&EXAMPLE, None, None);
    gives(timeline(&["--pairs", &empty], &EXAMPLE), without.as_bytes());
}

/// Would catch a bad list that is drawn, or named before the input's own refusal.
#[test]
fn timeline_stops_where_starting_does() {
    let refused =
        "timeline: the input is refused with 22: there are more than 16 pairs, or an odd \
                   byte, or a pair is not good";
    for (place, list) in [&[1, 0][..], &[0, 1, 0], &[0, 3], &[0; 34]]
        .iter()
        .enumerate()
    {
        let path = file_with(&format!("timeline_stops_where_starting_does.{place}"), list);
        stops(timeline(&["--pairs", &path], &EXAMPLE), 1, refused);
        let plan = "timeline: the input is refused with 4: the plan block's length is not the \
                    edition's and the count's";
        stops(
            timeline(&["--pairs", &path], &EXAMPLE[..PLAN_END - 1]),
            1,
            plan,
        );
    }
}

#[test]
fn timeline_draws_the_picture() {
    let expected = picture(&EXAMPLE, None, None);
    gives(timeline(&[], &EXAMPLE), expected.as_bytes());
    let cut = picture(&EXAMPLE, Some(4), Some(12));
    gives(
        timeline(&["--to", "12", "-", "--from", "4"], &EXAMPLE),
        cut.as_bytes(),
    );
}

#[test]
fn timeline_stops_where_the_bench_program_does() {
    let refused = "timeline: the input is refused with 4: the plan block's length is not the \
                   edition's and the count's";
    stops(timeline(&[], &EXAMPLE[..PLAN_END - 1]), 1, refused);
    let levels = "timeline: the input is refused with 19: the level block's length is not the \
                  count's, or its closing bits are not zero";
    stops(timeline(&[], &EXAMPLE[..LEVELS_END - 1]), 1, levels);
    let additions = "timeline: the input is refused with 21: the edition is 2, but no task has \
                     fixed ticks or a floor";
    let block = [0x20, 0x80, 0x14, 0x00, 0x09, 0x60, 0x00];
    stops(timeline(&[], &with_levels(&block)), 1, additions);
    let nothing = "timeline: nothing to draw from tick 25 to tick 25";
    stops(timeline(&["--from", "25"], &EXAMPLE), 1, nothing);
}

#[test]
fn wrong_command_lines() {
    for arguments in [&[][..], &["to-hex"], &["to-bytes", "a", "b"]] {
        let ended = pack(arguments, b"");
        assert_eq!(ended.status, Some(2));
        assert!(ended.said.contains("usage: pack"));
        assert_eq!(ended.out, b"");
    }
    for arguments in [
        &["--from"][..],
        &["--to", "x"],
        &["--form", "1"],
        &["a", "b"],
        &["--pairs"],
        &["--pairs", "-"],
        &["--pairs", "-", "-"],
    ] {
        let ended = timeline(arguments, b"");
        assert_eq!(ended.status, Some(2));
        assert!(ended.said.contains("usage: timeline"));
        assert_eq!(ended.out, b"");
    }
}

#[test]
fn files_that_are_not_there() {
    for ended in [
        pack(&["to-text", "no/such"], b""),
        timeline(&["no/such"], b""),
        timeline(&["--pairs", "no/such"], &EXAMPLE),
        pack(&["to-pairs", "no/such"], b""),
    ] {
        assert_eq!((ended.status, ended.out), (Some(1), Vec::new()));
        assert!(ended.said.contains("no/such: "), "{}", ended.said);
    }
}

#[test]
fn help_says_the_text_form_and_the_options() {
    let help = String::from_utf8(pack(&["--help"], b"").out).unwrap();
    for part in [
        "to-bytes",
        "to-text",
        "speeds S1 S2 ..",
        "to-pairs",
        "task PERIOD WORST [FIXED [FLOOR]]",
        "FLOOR 0 to 7",
        "before EARLIER LATER",
        "pass D",
        "finish D",
        "# ...",
    ] {
        assert!(help.contains(part), "{part}");
    }
    let help = String::from_utf8(timeline(&["--help"], b"").out).unwrap();
    for part in ["--from T", "--to T", "--pairs LIST", "FILE"] {
        assert!(help.contains(part), "{part}");
    }
}
