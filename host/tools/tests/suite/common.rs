//! What several tests need.

use sim::block::{FIXED_BITS, FLOOR_BITS, PERIOD_BITS, WORST_BITS};
use sim::level_block::SPEED_BITS;
use sim::plan::Task;
use sim::random::blocks::bench_input;
use sim::random::plans::{plan_at_level_within, SMALL_BASES};
use sim::random::tables::some_or_base_levels;
use sim::random::Random;
use sim::Levels;
use tools::script::{largest, Pass, Script, D_BITS};

/// Document 01's example with its eight speeds in front: the level block, the plan block, then 8001
/// 8007 8002 8004, and 8005 0001 as 02's No. 4 has it.
pub const EXAMPLE: [u8; 38] = [
    0x80, 0x28, 0x14, 0x07, 0x82, 0x80, 0xc8, 0x3c, 0x14, 0x06, 0x40, 0x11, 0x80, 0x05, 0x00, 0x0c,
    0x80, 0x00, 0x50, 0x00, 0xc8, 0x00, 0x0f, 0x00, 0x12, 0xc0, 0x80, 0x01, 0x80, 0x07, 0x80, 0x02,
    0x80, 0x04, 0x80, 0x05, 0x00, 0x01,
];

/// Where its level block and its plan block end.
pub const LEVELS_END: usize = 11;
pub const PLAN_END: usize = 26;

/// 01's level block in front of something.
pub fn with_levels(rest: &[u8]) -> Vec<u8> {
    [&EXAMPLE[..LEVELS_END], rest].concat()
}

pub const EXAMPLE_TEXT: &str = "\
task 10 400
task 10 400
task 30 600

finish 1
finish 7
finish 2
finish 4
finish 5
pass 1
";

/// Tasks without fixed ticks and without floors.
pub fn tasks(pairs: &[(u64, u64)]) -> Vec<Task> {
    let four = |(period, worst): &(u64, u64)| (*period, *worst, 0, 0);
    tasks_with_floors(&pairs.iter().map(four).collect::<Vec<_>>())
}

/// Period, worst case and fixed ticks of each task.
pub fn tasks_with_fixed(triples: &[(u64, u64, u64)]) -> Vec<Task> {
    let four = |(period, worst, fixed): &(u64, u64, u64)| (*period, *worst, *fixed, 0);
    tasks_with_floors(&triples.iter().map(four).collect::<Vec<_>>())
}

/// Period, worst case, fixed ticks and floor of each task.
pub fn tasks_with_floors(fours: &[(u64, u64, u64, u64)]) -> Vec<Task> {
    let task = |(period, worst, fixed, floor): &(u64, u64, u64, u64)| Task {
        period: *period,
        worst: *worst,
        fixed: *fixed,
        floor: *floor,
    };
    fours.iter().map(task).collect()
}

/// Any script that fits its fields: most plans in it are refused, half of them have no fixed ticks, and
/// half no floors.
pub fn any_script(random: &mut Random) -> Script {
    let field = |random: &mut Random, bits: usize| match random.below(4) {
        0 => 0,
        1 => largest(bits),
        _ => random.between(0, largest(bits)),
    };
    let mut script = Script::default();
    if !random.one_in(3) {
        script.speeds.clear();
        for _ in 0..random.below(16) {
            let speed = field(random, SPEED_BITS);
            script.speeds.push(speed);
        }
    }
    let fixed_bits = random.pick(&[0, FIXED_BITS]);
    let floor_bits = random.pick(&[0, FLOOR_BITS]);
    for _ in 0..random.below(32) {
        script.tasks.push(Task {
            period: field(random, PERIOD_BITS),
            worst: field(random, WORST_BITS),
            fixed: field(random, fixed_bits),
            floor: field(random, floor_bits),
        });
    }
    for _ in 0..random.below(40) {
        script.passes.push(Pass {
            d: field(random, D_BITS) as u32,
            finished: random.one_in(2),
        });
    }
    script
}

/// A bench input with any speeds and an accepted plan of short periods, with fixed ticks and floors or
/// without; most of its passes are accepted, some are refused, and now and then an odd byte is left.
pub fn any_run(random: &mut Random, passes: usize) -> Vec<u8> {
    let levels = some_or_base_levels(random);
    run_at(random, &levels, passes)
}

/// The same with these speeds.
pub fn run_at(random: &mut Random, levels: &Levels, passes: usize) -> Vec<u8> {
    let level = random.place(levels.count());
    let base = random.pick(&SMALL_BASES[4..]);
    let plan = plan_at_level_within(random, levels, level, base);
    bench_input(random, levels, &plan, passes)
}
