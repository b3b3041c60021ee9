//! Writes the folder of examples anew: each input, and the simulator's listing of it.
//!
//! `cargo run --release --offline -p sim --example inputs`

use sim::dispatch::{pass, start, Order};
use sim::layout::STATE_BYTES;
use sim::level_block::pack_levels;
use sim::plan::Task;
use sim::random::blocks::{block_of, block_of_no_additions};
use sim::{listing, write_levels, Levels};
use std::fs;
use std::path::Path;

/// A pass as the bench program reads it: 1 bit finished, 15 bits ticks.
fn packed(d: u32, finished: bool) -> [u8; 2] {
    let bits = d as u16 | if finished { 0x8000 } else { 0 };
    bits.to_be_bytes()
}

/// Tasks from pairs of period and worst case, without fixed ticks and without floors.
fn tasks(pairs: &[(u64, u64)]) -> Vec<Task> {
    let task = |(period, worst): &(u64, u64)| Task {
        period: *period,
        worst: *worst,
        fixed: 0,
        floor: 0,
    };
    pairs.iter().map(task).collect()
}

fn block(pairs: &[(u64, u64)]) -> Vec<u8> {
    block_of(&tasks(pairs))
}

fn bench_block() -> Vec<u8> {
    block(&[(10, 400), (10, 400), (30, 600)])
}

/// 01's speeds in front of what follows them.
fn with_base_levels(rest: &[u8]) -> Vec<u8> {
    [&write_levels(&Levels::base())[..], rest].concat()
}

/// 01's speeds and the bench plan with these passes.
fn bench_with(passes: &[(u32, bool)]) -> Vec<u8> {
    base_with(&bench_block(), passes)
}

/// 01's speeds, a plan and passes.
fn base_with(plan: &[u8], passes: &[(u32, bool)]) -> Vec<u8> {
    let mut input = with_base_levels(plan);
    for (d, finished) in passes {
        input.extend(packed(*d, *finished));
    }
    input
}

/// A run that follows the orders. Up to `early_from` each job takes its worst case; from then on
/// each ends when this part of its hold is over.
fn run(levels: &Levels, tasks: &[Task], early_from: u64, part: u32, until: u64) -> Vec<u8> {
    let plan = block_of(tasks);
    let mut input = [&write_levels(levels)[..], &plan].concat();
    let mut state = [0; STATE_BYTES];
    let mut order = start(levels, &plan, &[], &mut state).expect("the plan is an accepted one");
    let mut clock = 0;
    while clock < until {
        let (d, finished) = match order {
            Order::Idle { hold } => (hold, false),
            Order::Run { hold, .. } if clock >= early_from => ((hold + part - 1) / part, true),
            Order::Run { hold, .. } => (hold, worst_case_is_used(&state, hold)),
        };
        order = pass(&mut state, d, finished).expect("the pass follows the order");
        input.extend(packed(d, finished));
        clock += u64::from(d);
    }
    input
}

/// After so many ticks, the running job can't be said to go on.
fn worst_case_is_used(state: &[u8; STATE_BYTES], ticks: u32) -> bool {
    pass(&mut state.clone(), ticks, false) == Err(14)
}

/// 01's passes up to the tick at which the processor idles, the last as 02's No. 4 has it.
const TO_TICK_19: [(u32, bool); 5] = [(1, true), (7, true), (2, true), (4, true), (5, true)];

/// Inputs whose level block is refused, with the bench plan and a pass behind it.
fn refused_levels() -> Vec<(u32, Vec<u8>)> {
    let rest = [&bench_block()[..], &packed(1, true)].concat();
    let nine = pack_levels(9, &[10, 20, 30, 40, 50, 60, 80, 100, 120]);
    let mut closing = write_levels(&Levels::base());
    closing[10] |= 1;
    let flat = pack_levels(8, &[10, 20, 30, 40, 50, 60, 60, 100]);
    vec![
        (18, [&nine[..], &rest].concat()),
        (19, [&closing[..], &rest].concat()),
        (20, [&flat[..], &rest].concat()),
    ]
}

/// Inputs whose plan is refused.
fn refused_plans() -> Vec<(u32, Vec<u8>)> {
    let bench = bench_block();
    let mut edition = bench.clone();
    edition[0] = 0x31;
    let mut closing = bench.clone();
    closing[14] |= 1;
    let plans = [
        vec![0x10],
        edition,
        block(&[(1_000, 37); 17]),
        bench[..14].to_vec(),
        closing,
        block(&[(10, 400), (0, 400)]),
        block(&[(1_000, 1), (1_001, 1)]),
        block(&[(10, 400), (10, 400), (30, 601)]),
    ];
    let numbered = (1..).zip(plans);
    // The bench plan, which has no fixed ticks and no floors, in edition 2.
    let plan = tasks(&[(10, 400), (10, 400), (30, 600)]);
    let needless = (21, block_of_no_additions(&plan));
    numbered
        .chain([needless])
        .map(|(number, plan)| (number, with_base_levels(&plan)))
        .chain([(24, floor_past_the_levels())])
        .collect()
}

/// Three levels, 0 to 2, and the bench plan with a floor of 3 under its last task.
fn floor_past_the_levels() -> Vec<u8> {
    let mut plan = tasks(&[(10, 400), (10, 400), (30, 600)]);
    plan[2].floor = 3;
    let levels = write_levels(&Levels::new(&[40, 70, 100]));
    [&levels[..], &block_of(&plan), &packed(1, true)].concat()
}

/// Inputs with a refused pass, an odd byte, or a byte too many. A refused pass is followed by one
/// that is accepted.
fn refused_later() -> Vec<(u32, Vec<u8>)> {
    let mut idle = TO_TICK_19.to_vec();
    idle.extend([(1, true), (1, false)]);
    let mut odd = bench_with(&[(1, true)]);
    odd.push(0x80);
    let mut long = bench_with(&[(1, true)]);
    long.resize(65_537, 0);
    vec![
        (11, bench_with(&[(0, false), (0, true), (1, true)])),
        (12, bench_with(&[(11, true), (32_767, false), (1, true)])),
        (13, bench_with(&idle)),
        (14, bench_with(&[(4, false), (5, true), (3, false)])),
        (16, odd),
        (17, long),
    ]
}

/// Two tasks that have 12 and 6 of 20 ticks at 50 units a tick. At 12 the second is alone, and 8 ticks
/// are left to the next arrival: its 300 units take as many at 40.
fn lone_job() -> Vec<u8> {
    // Its plain finish is at 18. There it has 2 ticks left, and 2 unfinished ones are refused; it ends
    // at 20, with the arrival.
    let at_the_arrival = [(12, true), (6, false), (2, false), (1, false), (1, true)];
    // The next one ends at 39, past its plain finish at 38.
    let before_it = [(12, true), (7, true), (1, false)];
    let passes = [&at_the_arrival[..], &before_it].concat();
    base_with(&block(&[(20, 600), (20, 300)]), &passes)
}

/// Runs with other boards' speeds.
fn other_boards() -> Vec<(String, Vec<u8>)> {
    // 64 of 80 ticks at 97 units a tick, and 102 at 61.
    let odd = Levels::new(&[7, 19, 33, 61, 97]);
    let plan = tasks(&[(40, 2_300), (40, 580), (80, 310)]);
    let another = run(&odd, &plan, 0, 8, 160);
    // 19 of 20 ticks. However much time there is, no level is lower.
    let plan = tasks(&[(10, 250), (20, 450)]);
    let one = run(&Levels::new(&[50]), &plan, 20, 2, 40);
    vec![
        ("another-board".to_string(), another),
        ("one-level".to_string(), one),
    ]
}

/// Runs of a plan with fixed ticks.
fn fixed_ticks() -> Vec<(String, Vec<u8>)> {
    let mut plan = tasks(&[(10, 100), (40, 500)]);
    // 39 of 40 ticks at 40 units a tick. The second task starts at 5, and at 10 the first one's next
    // job comes while one of its fixed ticks is left.
    plan[0].fixed = 2;
    plan[1].fixed = 6;
    let both = run(&Levels::base(), &plan, 40, 2, 80);
    // The first task without them: the first one's additions are zero, the block's not.
    plan[0].fixed = 0;
    let one = run(&Levels::base(), &plan, 0, 3, 80);
    vec![
        ("fixed-ticks".to_string(), both),
        ("fixed-ticks-early".to_string(), one),
        ("angle-sensor".to_string(), angle_sensor()),
    ]
}

/// A valve, an angle sensor and a gait, which have 4, 9 + 3 and 6 ticks at 50 units a tick: 30 of 30.
fn angle_sensor() -> Vec<u8> {
    let mut plan = tasks(&[(10, 200), (30, 150), (30, 300)]);
    plan[1].fixed = 9;
    // The valve's second job comes at 10, inside the conversion. It ends early, and from 11 on the
    // sensor's job needs 3 + 5 ticks at 30 units a tick: 8 unfinished ones are refused.
    let preempted = [(4, true), (6, false), (1, true), (8, false), (2, false)];
    let to_30 = [
        (3, false),
        (3, true),
        (1, false),
        (2, true),
        (7, true),
        (1, false),
    ];
    // The conversion fails after 3 ticks, and the gait gets what is left of the sensor's time. At 50
    // it needs 6 ticks at 20 units a tick: 6 unfinished ones are refused.
    let failed = [(4, true), (3, true), (3, false), (4, true)];
    let to_60 = [(6, false), (6, false), (6, true), (4, true)];
    let passes = [&preempted[..], &to_30, &failed, &to_60].concat();
    base_with(&block_of(&plan), &passes)
}

/// A valve, a second task and a gait with floors below nominal, at it and above it. At 50 units a tick,
/// which is level 4 and nominal, they have 8, 4 and 6 of 20 ticks.
fn with_floors(pairs: &[(u64, u64)]) -> Vec<Task> {
    let mut plan = tasks(pairs);
    for (task, floor) in plan.iter_mut().zip([3, 4, 6]) {
        task.floor = floor;
    }
    plan
}

/// Runs of plans with floors.
fn floors() -> Vec<(String, Vec<u8>)> {
    // The second task is an angle sensor, which has 2 of its ticks fixed.
    let mut sensor = with_floors(&[(10, 200), (20, 90), (20, 290)]);
    sensor[1].fixed = 2;
    // The valve ends early. Each job after it is raised by its floor: the sensor's from level 1, where 4
    // unfinished ticks would not be refused; the gait's from 2; and at 10 the valve's from 1.
    let raised = [(1, true), (4, false), (3, true), (4, true), (2, false)];
    let to_20 = [(5, true), (5, false)];
    // With the worst cases the gait is raised from 4 at 28 and, as the valve arrives, from 3 at 30. At 32
    // the valve is, from 2.
    let worst = [(4, true), (4, true), (2, false), (2, true), (5, true)];
    let passes = [&raised[..], &to_20, &worst, &[(3, false)]].concat();
    let all = base_with(&block_of(&sensor), &passes);
    // Without fixed ticks the floors alone are what edition 2 is for.
    let alone = with_floors(&[(10, 200), (20, 180), (20, 290)]);
    let passes = [(1, true), (3, true), (2, false), (2, true), (2, false)];
    let passes = [&passes[..], &to_20].concat();
    vec![
        ("floors".to_string(), all),
        (
            "floors-alone".to_string(),
            base_with(&block_of(&alone), &passes),
        ),
    ]
}

fn all() -> Vec<(String, Vec<u8>)> {
    let levels = Levels::base();
    let mut bench = TO_TICK_19.to_vec();
    bench.push((1, false));
    let mut inputs = vec![("bench".to_string(), bench_with(&bench))];
    for (level, speed) in levels.speeds().iter().enumerate() {
        // 38 of 40 ticks at this level, and more than 40 at the one below.
        let plan = tasks(&[(10, 4 * speed), (20, 6 * speed), (40, 10 * speed)]);
        inputs.push((format!("level-{level}"), run(&levels, &plan, 40, 2, 80)));
    }
    // The first task's job most often ends long before its 24 ticks are over.
    let plan = tasks(&[(40, 2_400), (40, 600), (80, 600)]);
    inputs.push(("reclaiming".to_string(), run(&levels, &plan, 0, 8, 160)));
    inputs.push(("lone-job".to_string(), lone_job()));
    inputs.extend(other_boards());
    inputs.extend(fixed_ticks());
    inputs.extend(floors());
    let refused = [refused_plans(), refused_later(), refused_levels()];
    for (number, input) in refused.concat() {
        inputs.push((format!("refused-{number:02}"), input));
    }
    inputs
}

fn main() {
    let folder = Path::new(env!("CARGO_MANIFEST_DIR")).join("../../examples");
    fs::create_dir_all(&folder).expect("the folder can be made");
    for (name, input) in all() {
        let listed = listing(&input);
        fs::write(folder.join(format!("{name}.in")), &input).expect("it can be written");
        fs::write(folder.join(format!("{name}.out")), &listed).expect("it can be written");
    }
}
