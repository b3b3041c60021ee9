//! The stored examples: the bench program must list each input as the file beside it says, and so
//! must the simulator.

use crate::program::{examples, from_file, text};
use sim::{listing, read_plan, write_levels, Levels, Task};
use std::collections::BTreeSet;
use std::fs;
use std::path::PathBuf;
use std::process::Command;

/// The refusals that the bench program can come to. Not 9 and 10: the buffer and the state are its
/// own. Not 15: 32,764 passes of at most 32,767 ticks come to 1,073,577,988.
const REFUSALS: [u32; 19] = [
    1, 2, 3, 4, 5, 6, 7, 8, 11, 12, 13, 14, 16, 17, 18, 19, 20, 21, 24,
];

/// The digests of the examples that were stored before there were fixed ticks, as `sha256sum *.in
/// *.out` wrote them then. `refused-02` is not among them: its plan was of edition 2, which is
/// accepted since, and is of edition 3 now. Nor are those whose listings 02's No. 4 changed: in each a
/// lone job runs at a lower level since.
const BEFORE_FIXED_TICKS: &str = "before-fixed-ticks.sha256";

/// The inputs with the listings stored beside them.
fn stored() -> Vec<(PathBuf, String)> {
    let mut inputs: Vec<PathBuf> = fs::read_dir(examples())
        .expect("there is a folder of examples")
        .map(|entry| entry.expect("it can be read").path())
        .filter(|path| path.extension().map_or(false, |ending| ending == "in"))
        .collect();
    inputs.sort();
    let with_listing = |input: PathBuf| {
        let listing = fs::read(input.with_extension("out")).expect("its listing is stored");
        (input, text(&listing))
    };
    inputs.into_iter().map(with_listing).collect()
}

/// Would catch a listing that has changed, in the program or in the folder.
#[test]
fn every_example_lists_as_stored() {
    let stored = stored();
    for (input, listed) in &stored {
        assert_eq!(&text(&from_file(input)), listed, "{}", input.display());
    }
    println!("{} examples", stored.len());
    assert!(stored.len() >= 35);
}

/// The names in the file of digests: a digest of 64 digits, two spaces and a name on each line.
fn names_before() -> Vec<String> {
    let digests = fs::read_to_string(examples().join(BEFORE_FIXED_TICKS)).expect("it is stored");
    let name = |line: &str| line[66..].to_string();
    digests.lines().map(name).collect()
}

/// Would catch an example of edition 1 that is not what it was before there were fixed ticks, to the
/// byte: the files are held to their digests, and the program to the files.
#[test]
fn edition_1_plans_list_as_before() {
    let output = Command::new("sha256sum")
        .args(["--check", "--strict", BEFORE_FIXED_TICKS])
        .current_dir(examples())
        .output()
        .expect("sha256sum is missing: it is of coreutils, and this test wants it");
    let said = text(&output.stdout) + &text(&output.stderr);
    assert!(output.status.success(), "{said}");
    let names = names_before();
    let inputs: Vec<&String> = names.iter().filter(|name| name.ends_with(".in")).collect();
    let mut plans = 0;
    for name in &inputs {
        let input = examples().join(name);
        let output = input.with_extension("out");
        let listed = text(&fs::read(&output).expect("its listing is stored"));
        assert_eq!(text(&from_file(&input)), listed, "{name}");
        plans += u32::from(listed.starts_with("plan "));
        // The listing is held to its digest too.
        let with_digest = output.file_name().and_then(|name| name.to_str());
        assert!(names.iter().any(|name| Some(&name[..]) == with_digest));
    }
    // 6 of them list a run: `level-0`, below which there is no level, `one-level`, and `refused-11`,
    // `refused-12`, `refused-14` and `refused-16`, in which no job is ever alone. The others are refused
    // before there is one.
    assert_eq!((names.len(), inputs.len(), plans), (34, 17, 6));
    // Of the 28 inputs that were held so, 02's No. 4 changed the listings of these 11.
    let levels = (1..=7).map(|level| format!("level-{level}"));
    let others = ["another-board", "bench", "reclaiming", "refused-13"].map(String::from);
    for gone in levels.chain(others).chain(["refused-02".into()]) {
        assert!(examples().join(format!("{gone}.in")).is_file(), "{gone}");
        assert!(!names.iter().any(|name| name.starts_with(&gone)), "{gone}");
    }
}

/// Would catch the example of an edition that is refused turning into one that isn't.
#[test]
fn the_edition_refused_is_3() {
    let input = fs::read(examples().join("refused-02.in")).expect("it is stored");
    assert_eq!(input[11] >> 4, 3);
}

/// Would catch the examples of fixed ticks being lost: a run that has a pass inside them, and a plan
/// that has none in edition 2.
#[test]
fn fixed_ticks_are_stored() {
    let stored = |name: &str| fs::read(examples().join(name)).expect("it is stored");
    let levels = write_levels(&Levels::base());
    let run = stored("fixed-ticks.in");
    let (tasks, _) = read_plan(&levels, &run[11..24]).unwrap();
    let fixed: Vec<u64> = tasks.iter().map(|task| task.fixed).collect();
    assert_eq!(fixed, [2, 6]);
    // At 5 the second task starts, and at 10 it is preempted with one of its 6 fixed ticks left.
    let listed = text(&stored("fixed-ticks.out"));
    assert!(listed.starts_with("plan 2 3 40\n0 run 0 3 5\n5 run 1 3 5\n10 run 0 3 5\n"));
    let needless = stored("refused-21.in");
    assert_eq!(needless[11] >> 4, 2);
    assert_eq!(read_plan(&levels, &needless[11..]).err(), Some(21));
}

/// Would catch the examples of 02's No. 8 being lost: floors below nominal, at it and above it, with fixed
/// ticks beside them and alone; and one that the levels don't have.
#[test]
fn floors_are_stored() {
    let stored = |name: &str| fs::read(examples().join(name)).expect("it is stored");
    let levels = write_levels(&Levels::base());
    for (name, fixed) in [("floors", [0, 2, 0]), ("floors-alone", [0, 0, 0])] {
        let input = stored(&format!("{name}.in"));
        assert_eq!(input[11] >> 4, 2);
        let (tasks, judged) = read_plan(&levels, &input[11..30]).unwrap();
        let floors: Vec<u64> = tasks.iter().map(|task| task.floor).collect();
        assert_eq!((floors, judged.nominal), (vec![3, 4, 6], 4));
        assert!(tasks.iter().map(|task| task.fixed).eq(fixed));
        // At 4 the gait runs above nominal, and at 10 the valve at its floor.
        let listed = text(&stored(&format!("{name}.out")));
        assert!(listed.contains("\n4 run 2 6 4\n"), "{listed}");
        assert!(listed.contains("\n10 run 0 3 5\n"), "{listed}");
    }
    let past = stored("refused-24.in");
    assert_eq!(past[0] >> 4, 3);
    assert_eq!(read_plan(&past[..5], &past[5..24]).err(), Some(24));
    assert_eq!(text(&stored("refused-24.out")), "refused 24\n");
}

/// Would catch the example of 02's No. 4 being lost: a lone job that is open past its plain finish after
/// an accepted pass and after a refused one, and finishes with the arrival.
#[test]
fn a_lone_job_is_stored() {
    let stored = |name: &str| fs::read(examples().join(name)).expect("it is stored");
    // Task 0 takes 12 ticks at 50 units. At 12 task 1 has 6 plain ticks, and 8 to the next arrival.
    let listed = text(&stored("lone-job.out"));
    let wanted = "\
plan 2 4 20
0 run 0 4 12
12 run 1 3 8
18 run 1 3 2
refused 14
19 run 1 3 1
20 run 0 4 12
";
    assert!(listed.starts_with(wanted), "{listed}");
    let levels = write_levels(&Levels::base());
    let (tasks, _) = read_plan(&levels, &stored("lone-job.in")[11..22]).unwrap();
    let worst: Vec<u64> = tasks.iter().map(|task| task.worst).collect();
    assert_eq!(worst, [600, 300]);
}

/// Would catch a stored listing that the document doesn't give.
#[test]
fn the_simulator_lists_every_example_as_stored() {
    for (input, listed) in stored() {
        let bytes = fs::read(&input).expect("the input is there");
        assert_eq!(text(&listing(&bytes)), listed, "{}", input.display());
    }
}

/// Would catch 01's example being lost or changed: its speeds, its plan and its passes. 02, No. 4: "the
/// line at 14 becomes "14 run 1 6 5", the last two passes become hex 8005 0001, and the idle line
/// becomes "19 idle 1"".
#[test]
fn the_example_of_01_is_stored() {
    let input = fs::read(examples().join("bench.in")).expect("it is stored");
    let passes = [
        0x80, 0x01, 0x80, 0x07, 0x80, 0x02, 0x80, 0x04, 0x80, 0x05, 0x00, 0x01,
    ];
    let levels = write_levels(&Levels::base());
    assert_eq!(input[..11], levels);
    let bench = [(10, 400), (10, 400), (30, 600)];
    let tasks = bench.map(|(period, worst)| Task {
        period,
        worst,
        fixed: 0,
        floor: 0,
    });
    assert_eq!(read_plan(&levels, &input[11..26]).unwrap().0, tasks);
    assert_eq!(input[26..], passes);
    let listed = fs::read(examples().join("bench.out")).expect("it is stored");
    let wanted = "\
plan 3 7 30
0 run 0 7 4
1 run 1 5 7
8 run 2 7 2
10 run 0 7 4
14 run 1 6 5
19 idle 1
20 run 0 6 5
";
    assert_eq!(text(&listed), wanted);
}

/// Would catch a level or a refusal for which no example is left.
#[test]
fn every_level_and_every_refusal_is_stored() {
    let mut levels = BTreeSet::new();
    let mut refusals = BTreeSet::new();
    for (_, listed) in stored() {
        for line in listed.lines() {
            let words: Vec<&str> = line.split(' ').collect();
            match words[0] {
                "plan" => drop(levels.insert(words[2].to_string())),
                "refused" => drop(refusals.insert(words[1].to_string())),
                _ => {}
            }
        }
    }
    let all_levels = (0..Levels::base().count())
        .map(|level| level.to_string())
        .collect();
    assert_eq!(levels, all_levels);
    let all_refusals = REFUSALS.iter().map(u32::to_string).collect();
    assert_eq!(refusals, all_refusals);
}
