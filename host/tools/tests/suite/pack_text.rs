//! The text form: what it says, and each mistake with its line.

use crate::common::{tasks, tasks_with_fixed, tasks_with_floors};
use crate::common::{with_levels, EXAMPLE, EXAMPLE_TEXT};
use sim::pairs::Pair;
use tools::bench::{from_bytes, to_bytes};
use tools::script::{Pass, Script};
use tools::text::{parse, write};

#[track_caller]
fn fails(text: &str, message: &str) {
    assert_eq!(parse(text).unwrap_err().to_string(), message);
}

#[test]
fn the_example_both_ways() {
    let script = parse(EXAMPLE_TEXT).unwrap();
    assert_eq!(to_bytes(&script), EXAMPLE);
    assert_eq!(write(&from_bytes(&EXAMPLE).unwrap()), EXAMPLE_TEXT);
}

#[test]
fn the_example_file_is_the_example() {
    let script = parse(include_str!("../../example.txt")).unwrap();
    assert_eq!(to_bytes(&script), EXAMPLE);
}

#[test]
fn the_block_that_document_01_shows() {
    let script = parse("task 40 300").unwrap();
    let block = [0x10, 0x80, 0x14, 0x00, 0x09, 0x60];
    assert_eq!(to_bytes(&script), with_levels(&block));
}

#[test]
fn a_task_with_fixed_ticks() {
    let script = parse("task 40 300 5").unwrap();
    assert_eq!(script.tasks, tasks_with_fixed(&[(40, 300, 5)]));
    // 0010 00001 0000000000101000 00000000000100101100 00000101 000.
    let block = [0x20, 0x80, 0x14, 0x00, 0x09, 0x60, 0x28];
    assert_eq!(to_bytes(&script), with_levels(&block));
    assert_eq!(write(&script), "task 40 300 5\n");
}

#[test]
fn fixed_ticks_are_written_unless_there_are_none() {
    let text = "task 40 300 255\ntask 10 7\n\npass 1\n";
    let script = parse(text).unwrap();
    assert_eq!(write(&script), text);
    assert_eq!(parse("task 40 300 255\ntask 10 7 0\npass 1"), Ok(script));
    assert_eq!(write(&parse("task 40 300 000").unwrap()), "task 40 300\n");
}

/// Would catch a floor that is lost, or taken for fixed ticks.
#[test]
fn a_task_with_a_floor() {
    let script = parse("task 40 300 0 3").unwrap();
    assert_eq!(script.tasks, tasks_with_floors(&[(40, 300, 0, 3)]));
    // 0010 00001 0000000000101000 00000000000100101100 00000000 011.
    let block = [0x20, 0x80, 0x14, 0x00, 0x09, 0x60, 0x03];
    assert_eq!(to_bytes(&script), with_levels(&block));
    assert_eq!(write(&script), "task 40 300 0 3\n");
    let both = parse("task 40 300 5 3").unwrap();
    assert_eq!(both.tasks, tasks_with_floors(&[(40, 300, 5, 3)]));
    let block = [0x20, 0x80, 0x14, 0x00, 0x09, 0x60, 0x2b];
    assert_eq!(to_bytes(&both), with_levels(&block));
}

/// No more is written than is needed: a floor of 0 never is, and fixed ticks of 0 only before a floor.
#[test]
fn floors_are_written_unless_there_are_none() {
    let text = "task 40 300 255 7\ntask 10 7 0 1\ntask 10 7 2\ntask 10 7\n\npass 1\n";
    let script = parse(text).unwrap();
    assert_eq!(write(&script), text);
    let longer = "task 40 300 255 7\ntask 10 7 0 1\ntask 10 7 2 0\ntask 10 7 0 0\npass 1";
    assert_eq!(parse(longer), Ok(script));
    assert_eq!(write(&parse("task 40 300 00 00").unwrap()), "task 40 300\n");
}

#[test]
fn comments_blank_lines_and_spaces_say_nothing() {
    let text = "# all\r\n\n  task\t40   300 # one\n#task 1 1\n   \npass 3#x\n\nfinish 007";
    let passes = [(3, false), (7, true)].map(|(d, finished)| Pass { d, finished });
    let expected = Script {
        tasks: tasks(&[(40, 300)]),
        passes: passes.to_vec(),
        ..Script::default()
    };
    assert_eq!(parse(text), Ok(expected));
    assert_eq!(parse(""), Ok(Script::default()));
    assert_eq!(parse("# only\n\n"), Ok(Script::default()));
}

#[test]
fn unknown_words() {
    let rest = "a line begins with speeds, task, before, pass or finish";
    fails("tsk 1 2", &format!("line 1: unknown word \"tsk\"; {rest}"));
    fails(
        "task 1 2\n\n# x\nTask 1 2",
        &format!("line 4: unknown word \"Task\"; {rest}"),
    );
    fails("10 400", &format!("line 1: unknown word \"10\"; {rest}"));
}

#[test]
fn numbers_missing() {
    fails("task", "line 1: the period is missing");
    fails("task 1 2\ntask 10", "line 2: the worst case is missing");
    fails("task 10 # 400", "line 1: the worst case is missing");
    fails("\npass", "line 2: the d is missing");
    fails("pass 1\nfinish\n", "line 2: the d is missing");
}

#[test]
fn not_numbers() {
    for word in [
        "ten", "-1", "+1", "1.5", "0x10", "1_000", "1,000", "\u{661}",
    ] {
        let quoted = format!("{word:?}");
        fails(
            &format!("task {word} 1"),
            &format!("line 1: the period {quoted} is not a decimal number"),
        );
        fails(
            &format!("\ntask 1 {word}"),
            &format!("line 2: the worst case {quoted} is not a decimal number"),
        );
        fails(
            &format!("task 1 1 {word}"),
            &format!("line 1: the number of fixed ticks {quoted} is not a decimal number"),
        );
        fails(
            &format!("task 1 1 0 {word}"),
            &format!("line 1: the floor {quoted} is not a decimal number"),
        );
        fails(
            &format!("\n\nfinish {word}"),
            &format!("line 3: the d {quoted} is not a decimal number"),
        );
    }
}

#[test]
fn numbers_out_of_range() {
    assert!(parse("task 65535 1048575 255 7\npass 32767\nfinish 32767").is_ok());
    assert!(parse("task 0 0 0 0\npass 0\nfinish 0").is_ok());
    let period = "is out of range: its 16 bits hold 0 to 65535";
    fails(
        "task 65536 1",
        &format!("line 1: the period 65536 {period}"),
    );
    let worst = "is out of range: its 20 bits hold 0 to 1048575";
    fails(
        "\ntask 1 1048576",
        &format!("line 2: the worst case 1048576 {worst}"),
    );
    fails(
        "task 1 1 256",
        "line 1: the number of fixed ticks 256 is out of range: its 8 bits hold 0 to 255",
    );
    fails(
        "task 1 1 255 8",
        "line 1: the floor 8 is out of range: its 3 bits hold 0 to 7",
    );
    let d = "is out of range: its 15 bits hold 0 to 32767";
    fails("pass 32768", &format!("line 1: the d 32768 {d}"));
    fails("finish 32768", &format!("line 1: the d 32768 {d}"));
    // Too many digits for any machine word.
    let long = "9".repeat(30);
    fails(
        &format!("pass {long}"),
        &format!("line 1: the d {long} {d}"),
    );
}

#[test]
fn words_left_over() {
    fails("task 1 2 3 4 5", "line 1: \"5\" is one word too many");
    fails(
        "pass 1\npass 1 finish",
        "line 2: \"finish\" is one word too many",
    );
}

#[test]
fn tasks_past_the_count() {
    let most = "task 1 1\n".repeat(31);
    assert_eq!(parse(&most).unwrap().tasks.len(), 31);
    fails(
        &format!("# plan\n{most}task 1 1\n"),
        "line 33: one task too many: the 5 bits of the count hold 0 to 31",
    );
}

#[test]
fn a_task_after_a_pass() {
    fails(
        "task 1 1\npass 1\n\ntask 1 1",
        "line 4: a task after a pass; all tasks come first",
    );
    fails(
        "finish 1\ntask 1 1",
        "line 2: a task after a pass; all tasks come first",
    );
}

#[test]
fn the_first_mistake_is_the_one_named() {
    fails(
        "pass x\npass",
        "line 1: the d \"x\" is not a decimal number",
    );
}

#[test]
fn speeds_of_a_board() {
    let speeds = |text: &str| parse(text).unwrap().speeds;
    assert_eq!(speeds(""), [10, 20, 30, 40, 50, 60, 80, 100]);
    assert_eq!(
        speeds("# a board\n\nspeeds 7 13 29 # odd\ntask 1 1"),
        [7, 13, 29]
    );
    assert_eq!(speeds("speeds 500"), [500]);
    // What is refused can be said as far as it fits: none, 15, at and past the range, falling.
    assert_eq!(speeds("speeds"), []);
    assert_eq!(speeds(&format!("speeds{}", " 3".repeat(15))), [3; 15]);
    assert_eq!(speeds("speeds 1023 0 007"), [1_023, 0, 7]);
}

#[test]
fn the_line_of_speeds_is_written_unless_they_are_01s() {
    for text in [
        "speeds\n",
        "speeds 7 13 29\n",
        "speeds 10 20 30 40 50 60 80\n",
    ] {
        assert_eq!(write(&parse(text).unwrap()), text);
        let whole = format!("{text}{EXAMPLE_TEXT}");
        assert_eq!(write(&parse(&whole).unwrap()), whole);
    }
    let base = format!("speeds 10 20 30 40 50 60 80 100\n{EXAMPLE_TEXT}");
    assert_eq!(parse(&base), parse(EXAMPLE_TEXT));
    assert_eq!(write(&parse(&base).unwrap()), EXAMPLE_TEXT);
}

#[test]
fn mistakes_in_the_speeds() {
    let range = "is out of range: its 10 bits hold 0 to 1023";
    fails("speeds 1 1024", &format!("line 1: the speed 1024 {range}"));
    fails(
        "\nspeeds 1 x",
        "line 2: the speed \"x\" is not a decimal number",
    );
    let many = format!("speeds{}", " 1".repeat(16));
    fails(
        &many,
        "line 1: one speed too many: the 4 bits of the count hold 0 to 15",
    );
    let late = "the speeds come once, and before all else";
    fails("task 1 1\nspeeds 1", &format!("line 2: {late}"));
    fails("pass 1\n\nspeeds 1", &format!("line 3: {late}"));
    fails("speeds 1\nspeeds 2", &format!("line 2: {late}"));
    fails("speeds\n# x\nspeeds", &format!("line 3: {late}"));
}

fn pairs(list: &[(usize, usize)]) -> Vec<Pair> {
    let pair = |(earlier, later): &(usize, usize)| Pair {
        earlier: *earlier,
        later: *later,
    };
    list.iter().map(pair).collect()
}

/// Would catch a pair turned round, lost, or taken only after its tasks.
#[test]
fn pairs_of_a_plan() {
    let text =
        "before 0 2 # first\ntask 10 400\nbefore 0 1\ntask 10 400\n\nbefore 255 000\npass 1\n";
    let script = parse(text).unwrap();
    assert_eq!(script.pairs, pairs(&[(0, 2), (0, 1), (255, 0)]));
    assert_eq!(script.tasks, tasks(&[(10, 400), (10, 400)]));
    assert_eq!(parse("task 10 400").unwrap().pairs, []);
    // Written behind the tasks, in the order of the text.
    let written = "task 10 400\ntask 10 400\nbefore 0 2\nbefore 0 1\nbefore 255 0\n\npass 1\n";
    assert_eq!(write(&script), written);
    assert_eq!(parse(written), Ok(script));
    assert_eq!(
        write(&parse("before 1 2\npass 3").unwrap()),
        "before 1 2\n\npass 3\n"
    );
}

/// Would catch a limit that keeps a technician from seeing the refusal of 17 pairs, and a pair said
/// twice that is taken once.
#[test]
fn any_number_of_pairs() {
    for count in [1, 16, 17, 127, 300] {
        let text = "before 3 4\n".repeat(count);
        assert_eq!(parse(&text).unwrap().pairs, pairs(&vec![(3, 4); count]));
    }
}

/// Would catch a mistake in a pair that isn't seen, or is named otherwise than the rest.
#[test]
fn mistakes_in_pairs() {
    fails("before", "line 1: the earlier task is missing");
    fails("\nbefore 1 # 2", "line 2: the later task is missing");
    fails(
        "before a 1",
        "line 1: the earlier task \"a\" is not a decimal number",
    );
    fails(
        "before 1 -1",
        "line 1: the later task \"-1\" is not a decimal number",
    );
    let range = "is out of range: its 8 bits hold 0 to 255";
    fails(
        "before 256 1",
        &format!("line 1: the earlier task 256 {range}"),
    );
    fails(
        "before 1 256",
        &format!("line 1: the later task 256 {range}"),
    );
    fails("before 1 2 3", "line 1: \"3\" is one word too many");
    fails(
        "Before 1 2",
        "line 1: unknown word \"Before\"; a line begins with speeds, task, before, pass or finish",
    );
    let late = "a pair after a pass; all pairs come first";
    fails("pass 1\nbefore 0 1", &format!("line 2: {late}"));
    fails(
        "task 1 1\nfinish 1\n\nbefore 0 1",
        &format!("line 4: {late}"),
    );
    fails(
        "before 0 1\nspeeds 1",
        "line 2: the speeds come once, and before all else",
    );
}
