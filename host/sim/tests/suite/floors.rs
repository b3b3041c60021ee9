//! 02, No. 8: a task's floor. Its bits in the plan block and in the state, question 24 and its place
//! among the others, the level that is chosen, and what soundness wants of one. Runs with floors are in
//! `runs`, those of every small plan among them.

use crate::base::{
    actual_book, judge, judge_list, listing, plain_book, read_plan, start, write_plan,
};
use crate::common::{
    bench_plan, fixed_tasks, floor_tasks, idle, is_sound, led, queue, refuses_pass, run,
    sensor_plan, tasks, unsound, BENCH_BLOCK, BENCH_PASSES,
};
use sim::block::{pack_block, Edition};
use sim::books::demand3_holds;
use sim::dispatch::{pass, sound};
use sim::forging::{self, Progress};
use sim::layout::{self, STATE_BYTES};
use sim::plan::{Judged, Task};
use sim::random::blocks::{block_of, block_of_no_additions};
use sim::random::states::put_table;
use sim::state::{pack, unpack, Running, State};
use sim::{write_levels, Levels};

/// Period 40, worst case 300, no fixed tick and floor 3, packed by hand: 0010 00001, 16 and 20 bits as in
/// 01's example, 00000000, 011. That is 56 bits, so no closing bit.
const EXAMPLE: [u8; 7] = [0x20, 0x80, 0x14, 0x00, 0x09, 0x60, 0x03];

/// Speeds of 10, 20 .. units a tick, as many as told.
fn so_many(count: u64) -> Levels {
    let speeds: Vec<u64> = (1..=count).map(|nth| 10 * nth).collect();
    Levels::new(&speeds)
}

/// Reads the block over these levels as these tasks, copies it to the byte, and starts with it.
#[track_caller]
fn accepts_block(levels: &Levels, block: &[u8], plan: &[Task]) {
    let level_block = write_levels(levels);
    let (read, judged) = sim::read_plan(&level_block, block).unwrap();
    assert_eq!(read, plan);
    assert_eq!(sim::judge_list(&level_block, plan), Ok(judged));
    let mut buffer = [0xa5; 97];
    let copied = sim::copy_plan(&level_block, block, &mut buffer);
    assert_eq!(copied, Ok(block.len()));
    assert_eq!(&buffer[..block.len()], block);
    assert!(buffer[block.len()..].iter().all(|byte| *byte == 0xa5));
    let mut state = [0; STATE_BYTES];
    assert!(sim::start(&level_block, block, &[], &mut state).is_ok());
    assert_eq!(unpack(&state).unwrap().tasks(), plan);
}

/// Each call that reads the block refuses it so, whatever the pairs and the room, with no byte changed.
#[track_caller]
fn refuses_block(levels: &Levels, block: &[u8], number: u32) {
    let level_block = write_levels(levels);
    assert_eq!(sim::read_plan(&level_block, block), Err(number));
    for pairs in [&[][..], &[1, 0], &[0]] {
        assert_eq!(sim::pairs(&level_block, block, pairs), Err(number));
        for length in [0, 96, STATE_BYTES] {
            let mut lent = vec![0xa5; length];
            let started = sim::start(&level_block, block, pairs, &mut lent);
            assert_eq!(started, Err(number));
            let copied = sim::copy_plan(&level_block, block, &mut lent);
            assert_eq!(copied, Err(number));
            assert_eq!(lent, vec![0xa5; length]);
        }
    }
}

/// Judging and writing refuse the tasks so, whatever the room.
#[track_caller]
fn refuses_tasks(levels: &Levels, list: &[Task], number: u32) {
    let (level_block, count) = (write_levels(levels), list.len() as u64);
    assert_eq!(sim::judge_list(&level_block, list), Err(number));
    assert_eq!(sim::judge(&level_block, count, list), Err(number));
    for length in [0, 100] {
        let mut buffer = vec![0xa5; length];
        let written = sim::write_plan(&level_block, count, list, &mut buffer);
        assert_eq!(written, Err(number));
        assert_eq!(buffer, vec![0xa5; length]);
    }
}

#[test]
fn the_example_with_a_floor() {
    let plan = floor_tasks(&[(40, 300, 0, 3)]);
    accepts_block(&Levels::base(), &EXAMPLE, &plan);
    let mut buffer = [0xa5; 8];
    assert_eq!(write_plan(1, &plan, &mut buffer), Ok(7));
    assert_eq!((&buffer[..7], buffer[7]), (&EXAMPLE[..], 0xa5));
    assert_eq!(write_plan(1, &plan, &mut [0; 6]), Err(9));
    // With 5 fixed ticks as well, as in No. 2's own example.
    let both = floor_tasks(&[(40, 300, 5, 3)]);
    let block = [0x20, 0x80, 0x14, 0x00, 0x09, 0x60, 0x2b];
    accepts_block(&Levels::base(), &block, &both);
    assert_eq!(block_of(&both), block);
}

#[test]
fn every_floor_of_every_task_comes_back() {
    for count in 1..=16 {
        for place in 0..count {
            for floor in 0..8 {
                for fixed in [0, 255] {
                    let mut plan = fixed_tasks(&vec![(65_000, 37, fixed); count]);
                    plan[place].floor = floor;
                    let block = block_of(&plan);
                    let edition = if floor == 0 && fixed == 0 { 1 } else { 2 };
                    assert_eq!(block[0] >> 4, edition);
                    accepts_block(&Levels::base(), &block, &plan);
                }
            }
        }
    }
}

#[test]
fn the_edition_that_is_written() {
    let edition = |plan: &[Task]| {
        let mut buffer = [0; 96];
        let length = write_plan(plan.len() as u64, plan, &mut buffer).unwrap();
        assert_eq!(read_plan(&buffer[..length]).unwrap().0, plan);
        (buffer[0] >> 4, length)
    };
    for count in 1..=16 {
        let mut plan = tasks(&vec![(4_000, 37); count]);
        let (first, second) = ((9 + 36 * count + 7) / 8, (9 + 47 * count + 7) / 8);
        assert_eq!(edition(&plan), (1, first));
        // The floor of any single task will do, and so will a floor of 0 beside fixed ticks.
        for place in 0..count {
            plan[place].floor = 1;
            assert_eq!(edition(&plan), (2, second));
            plan[place].floor = 0;
            plan[place].fixed = 1;
            assert_eq!(edition(&plan), (2, second));
            plan[place].fixed = 0;
        }
    }
    // One past the count doesn't.
    let plan = floor_tasks(&[(4_000, 37, 0, 0), (4_000, 37, 0, 0), (4_000, 37, 0, 7)]);
    let mut buffer = [0; 96];
    assert_eq!(
        (write_plan(2, &plan, &mut buffer), buffer[0]),
        (Ok(11), 0x11)
    );
    assert_eq!(
        (write_plan(3, &plan, &mut buffer), buffer[0]),
        (Ok(19), 0x21)
    );
}

#[test]
fn a_floor_is_a_level_of_the_table() {
    for count in 1..=8 {
        let levels = so_many(count);
        for place in 0..3 {
            let with = |floor| {
                let mut plan = fixed_tasks(&[(4_000, 37, 1); 3]);
                plan[place].floor = floor;
                plan
            };
            for floor in 0..8 {
                let plan = with(floor);
                if floor < count {
                    accepts_block(&levels, &block_of(&plan), &plan);
                } else {
                    refuses_tasks(&levels, &plan, 24);
                    refuses_block(&levels, &block_of(&plan), 24);
                }
            }
            // Past the bits of a block, so for a host's list only; some would be fine with bits left out.
            for floor in [8, 9, 15, 16, 255, 256, 65_536, 1 << 31, u64::MAX] {
                refuses_tasks(&levels, &with(floor), 24);
            }
        }
    }
    // A floor of 7 with eight levels, and alone.
    accepts_block(
        &Levels::base(),
        &block_of(&floor_tasks(&[(40, 300, 0, 7)])),
        &floor_tasks(&[(40, 300, 0, 7)]),
    );
}

#[test]
fn entries_past_the_count_may_have_any_floor() {
    let mut long = bench_plan();
    long.push(floor_tasks(&[(10, 10, 0, u64::MAX)])[0]);
    assert_eq!(judge(3, &long), judge_list(&bench_plan()));
    let mut buffer = [0; 15];
    assert_eq!(write_plan(3, &long, &mut buffer), Ok(15));
    assert_eq!(buffer, BENCH_BLOCK);
    assert_eq!(judge(4, &long), Err(24));
}

/// Judging takes a floor of any size for 24, and never for 6.
#[test]
fn number_24_among_the_questions_of_a_list() {
    let base = Levels::base();
    // After 3.
    refuses_tasks(&base, &floor_tasks(&[(1_000, 1, 0, 8); 17]), 3);
    refuses_tasks(&base, &[], 3);
    // After 6, of the same task and of another, before it and behind it.
    for bad in [
        (0, 1, 0, 8),
        (1, 0, 0, 8),
        (65_536, 1, 0, 8),
        (1, 1, 256, 8),
    ] {
        refuses_tasks(&base, &floor_tasks(&[bad]), 6);
    }
    refuses_tasks(&base, &floor_tasks(&[(10, 10, 0, 8), (0, 1, 0, 0)]), 6);
    refuses_tasks(&base, &floor_tasks(&[(10, 0, 0, 0), (10, 10, 0, 8)]), 6);
    // Before 7 and 8.
    let long = [(1_000, 1, 0, 0), (1_001, 1, 0, 8)];
    refuses_tasks(&base, &floor_tasks(&long), 24);
    refuses_tasks(&base, &fixed_tasks(&[(1_000, 1, 0), (1_001, 1, 0)]), 7);
    refuses_tasks(&base, &floor_tasks(&[(1, 101, 0, 8)]), 24);
    refuses_tasks(&base, &floor_tasks(&[(1, 101, 0, 7)]), 8);
    // And before 9: see `refuses_tasks`, in which a buffer has no byte.
    refuses_tasks(&base, &floor_tasks(&[(40, 300, 0, 8)]), 24);
    assert_eq!(
        write_plan(1, &floor_tasks(&[(40, 300, 0, 7)]), &mut []),
        Err(9)
    );
}

#[test]
fn number_24_among_the_questions_of_a_block() {
    // Two levels, so that a block has room for a floor that is none of them.
    let levels = so_many(2);
    let block = |list: &[(u64, u64, u64, u64)]| {
        let list = floor_tasks(list);
        pack_block(Edition::SECOND, list.len() as u64, &list)
    };
    refuses_block(&levels, &block(&[(40, 300, 0, 2)]), 24);
    refuses_block(&levels, &block(&[(40, 300, 5, 2), (40, 300, 0, 0)]), 24);
    accepts_block(
        &levels,
        &block(&[(40, 300, 0, 1)]),
        &floor_tasks(&[(40, 300, 0, 1)]),
    );
    // After 1 to 6. With two tasks the last bit of 13 bytes is a closing one.
    let good = block(&[(40, 300, 0, 2), (40, 300, 0, 0)]);
    refuses_block(&levels, &good, 24);
    refuses_block(&levels, &good[..1], 1);
    refuses_block(&levels, &[&[0x31][..], &good[1..]].concat(), 2);
    refuses_block(&levels, &[&[0x29][..], &good[1..]].concat(), 3);
    refuses_block(&levels, &good[..12], 4);
    let mut closed = good;
    closed[12] |= 1;
    refuses_block(&levels, &closed, 5);
    refuses_block(&levels, &block(&[(0, 300, 0, 2)]), 6);
    refuses_block(&levels, &block(&[(40, 300, 0, 2), (40, 0, 0, 0)]), 6);
    // 21 and 24 are never both no: a floor that names no level is an addition.
    refuses_block(&levels, &block_of_no_additions(&tasks(&[(40, 300)])), 21);
    // Before 7 and 8.
    refuses_block(&levels, &block(&[(1_000, 1, 0, 2), (1_001, 1, 0, 0)]), 24);
    refuses_block(&levels, &block(&[(1_000, 1, 0, 1), (1_001, 1, 0, 0)]), 7);
    refuses_block(&levels, &block(&[(1, 101, 0, 2)]), 24);
    refuses_block(&levels, &block(&[(1, 101, 0, 1)]), 8);
    // Before 22 and 9, with lists and buffers of every kind: see `refuses_block`. After 20.
    let worse = block(&[(40, 300, 0, 2)]);
    assert_eq!(sim::read_plan(&[0x10, 0x00], &worse), Err(20));
}

/// A floor counts as an addition, and the bits that were spare are tested under 5 no longer.
#[test]
fn number_21_with_floors() {
    for count in 1..=16 {
        let plan = tasks(&vec![(4_000, 37); count]);
        refuses_block(&Levels::base(), &block_of_no_additions(&plan), 21);
        for place in 0..count {
            for floor in 1..8 {
                let mut floored = plan.clone();
                floored[place].floor = floor;
                accepts_block(&Levels::base(), &block_of(&floored), &floored);
            }
        }
    }
}

/// Admission, nominal level and hyperperiod, and with them the allotments, don't look at floors.
#[test]
fn the_verdict_is_the_same_with_every_floor() {
    for floor in 0..8 {
        let mut bench = bench_plan();
        for task in &mut bench {
            task.floor = floor;
        }
        let wanted = Judged {
            nominal: 7,
            hyperperiod: 30,
        };
        assert_eq!(judge_list(&bench), Ok(wanted));
        bench[2].worst = 601;
        assert_eq!(judge_list(&bench), Err(8));
        // 300 units in 40 ticks are level 0's, whatever the floor; and 30 plain ticks.
        let one = floor_tasks(&[(40, 300, 0, floor)]);
        assert_eq!(judge_list(&one).map(|it| it.nominal), Ok(0));
        assert_eq!(queue(&led(&one, &[]).0), [(0, 30)]);
    }
}

#[test]
fn the_level_of_a_lone_job() {
    // 300 units are 30, 15, 10, 8, 6, 5, 4 and 3 ticks at 01's speeds. Nominal is level 0.
    let ticks = [30, 15, 10, 8, 6, 5, 4, 3];
    for (floor, ticks) in ticks.into_iter().enumerate() {
        let plan = floor_tasks(&[(40, 300, 0, floor as u64)]);
        let (mut state, order) = led(&plan, &[]);
        assert_eq!(order, run(0, floor as u8, ticks));
        // It can't go on past that time, and after it there is nothing to do.
        refuses_pass(&state, ticks, false, 14);
        refuses_pass(&state, ticks + 1, true, 14);
        assert_eq!(pass(&mut state, ticks, true), Ok(idle(40 - ticks)));
        // In the plain schedule it has its 30 ticks all the same.
        let left = 30 - u64::from(ticks);
        let plain = if left > 0 { vec![(0, left)] } else { vec![] };
        assert_eq!(queue(&state), plain);
    }
}

#[test]
fn the_level_of_one_of_several() {
    // The bench plan at 1: task 1 has 7 ticks for 400 units, which is level 5; nominal is 7.
    let at_1 = |floor| {
        let plan = floor_tasks(&[(10, 400, 0, 0), (10, 400, 0, floor), (30, 600, 0, 0)]);
        led(&plan, &BENCH_PASSES[..1]).1
    };
    for floor in 0..=5 {
        assert_eq!(at_1(floor), run(1, 5, 7));
    }
    assert_eq!(at_1(6), run(1, 6, 5));
    assert_eq!(at_1(7), run(1, 7, 4));
    // Above nominal, beside others: level 1 admits the plan, which has 5 + 10 ticks of 20 then.
    let both = |first, second| floor_tasks(&[(20, 100, 0, first), (20, 200, 0, second)]);
    assert_eq!(judge_list(&both(7, 2)).map(|it| it.nominal), Ok(1));
    let (mut state, order) = led(&both(7, 2), &[]);
    assert_eq!(order, run(0, 7, 1));
    // A tick at 100 units a tick is all of it. The 4 that it leaves make 14 for task 1, and alone it has
    // the 19 to the next arrival: 20 at level 0 are too many, and its floor is above both.
    assert_eq!(pass(&mut state, 1, true), Ok(run(1, 2, 7)));
    assert_eq!(queue(&state), [(0, 4), (1, 10)]);
    assert_eq!(led(&both(7, 0), &[(1, true)]).1, run(1, 1, 10));
}

/// The level that meets the allowance is above the floor: then the floor is nothing to it.
#[test]
fn a_floor_that_is_low_enough_changes_nothing() {
    let plan = bench_plan();
    let mut floored = plan.clone();
    // The lowest level of the listing is 5.
    for task in &mut floored {
        task.floor = 5;
    }
    for passes in 0..=BENCH_PASSES.len() {
        let (state, order) = led(&plan, &BENCH_PASSES[..passes]);
        let (other, same) = led(&floored, &BENCH_PASSES[..passes]);
        assert_eq!(order, same);
        let mut without = unpack(&other).unwrap();
        for entry in &mut without.entries {
            assert_eq!(entry.task.floor, 5);
            entry.task.floor = 0;
        }
        assert_eq!(pack(&without), state);
    }
}

#[test]
fn the_gap_of_a_lone_job_and_its_floor() {
    // 02, No. 4: at 14 task 1 is alone, with 4 plain ticks for 400 units and 6 to the next arrival, so it
    // has level 6 and 5 ticks. A floor of 7 takes the gap from it, and lower ones leave it.
    let at_14 = |floor| {
        let plan = floor_tasks(&[(10, 400, 0, 0), (10, 400, 0, floor), (30, 600, 0, 0)]);
        led(&plan, &[(4, true), (4, true), (2, true), (4, true)]).1
    };
    assert_eq!(at_14(5), run(1, 6, 5));
    assert_eq!(at_14(6), run(1, 6, 5));
    assert_eq!(at_14(7), run(1, 7, 4));
}

#[test]
fn fixed_ticks_take_their_time_at_every_floor() {
    // 2 fixed ticks and 100 units at 40, 50, 60, 80 and 100 a tick, of 10; nominal is level 3.
    let at = |floor| {
        let mut plan = sensor_plan();
        plan[0].floor = floor;
        led(&plan, &[]).1
    };
    assert_eq!([at(0), at(3)], [run(0, 3, 5), run(0, 3, 5)]);
    assert_eq!([at(4), at(5)], [run(0, 4, 4), run(0, 5, 4)]);
    assert_eq!([at(6), at(7)], [run(0, 6, 4), run(0, 7, 3)]);
    // While its fixed ticks last nothing of its work goes, at a level above nominal either.
    let mut plan = sensor_plan();
    plan[0].floor = 7;
    let (state, _) = led(&plan, &[(2, false)]);
    assert_eq!(unpack(&state).unwrap().entries[0].left.work, 100);
    assert_eq!(pass(&mut state.clone(), 1, true), Ok(run(1, 3, 7)));
}

#[test]
fn a_listing_with_floors() {
    // At 50 units a tick, which is level 4 and nominal, they have 4, 4 and 6 plain ticks: 18 of 20. The
    // floors are below nominal, at it and above it.
    let plan = floor_tasks(&[(10, 200, 0, 3), (20, 180, 0, 4), (20, 290, 0, 6)]);
    let passes = [
        0x80, 0x01, 0x80, 0x03, 0x00, 0x02, 0x80, 0x02, 0x00, 0x02, 0x80, 0x05, 0x00, 0x05,
    ];
    // At 1 task 1 has 3 + 4 ticks for 180 units, which would do at level 2. At 4 task 2 is alone with 4 + 6
    // plain ticks and 6 to the next arrival: level 2 again, and its floor is 6. At 10 task 0 is alone, with
    // 4 + 4 plain ticks and 10 to the next arrival: level 1 would do.
    let expected = "\
plan 3 4 20
0 run 0 4 4
1 run 1 4 4
4 run 2 6 4
6 run 2 6 2
8 idle 2
10 run 0 3 5
15 idle 5
20 run 0 4 4
";
    let input = [&block_of(&plan)[..], &passes].concat();
    assert_eq!(String::from_utf8(listing(&input)).unwrap(), expected);
    // Without floors the same passes lead to the levels named above.
    let without = tasks(&[(10, 200), (20, 180), (20, 290)]);
    let (_, order) = led(&without, &[(1, true)]);
    assert_eq!(order, run(1, 2, 6));
    assert_eq!(led(&without, &[(1, true), (3, true)]).1, run(2, 2, 6));
    let to_10 = [(1, true), (3, true), (4, true), (2, false)];
    assert_eq!(led(&without, &to_10).1, run(0, 1, 10));
}

#[test]
fn the_bench_refuses_a_floor_that_is_no_level() {
    let plan = floor_tasks(&[(40, 300, 0, 2)]);
    let over = |levels: &Levels| {
        let input = [&write_levels(levels)[..], &block_of(&plan), &[0x80, 0x01]].concat();
        String::from_utf8(sim::listing(&input)).unwrap()
    };
    // The pass follows the seventh byte of the plan block.
    assert_eq!(over(&so_many(3)), "plan 1 0 40\n0 run 0 2 10\n1 idle 39\n");
    assert_eq!(over(&so_many(2)), "refused 24\n");
    assert_eq!(over(&so_many(1)), "refused 24\n");
}

/// The entry of a task in a state, byte by byte.
fn entry_of(state: &[u8; STATE_BYTES], task: usize) -> &[u8] {
    &state[8 + 12 * task..20 + 12 * task]
}

#[test]
fn the_floor_in_the_state() {
    let plan = floor_tasks(&[(10, 400, 0, 6), (10, 400, 0, 0), (30, 600, 0, 7)]);
    let (state, order) = led(&plan, &[]);
    assert_eq!(order, run(0, 7, 4));
    // The top four bits of the worst case's three bytes; the work left has none.
    assert_eq!(
        entry_of(&state, 0),
        [0, 10, 0x60, 1, 144, 0, 1, 144, 0, 4, 0, 0]
    );
    assert_eq!(
        entry_of(&state, 1),
        [0, 10, 0x00, 1, 144, 0, 1, 144, 0, 4, 0, 0]
    );
    assert_eq!(
        entry_of(&state, 2),
        [0, 30, 0x70, 2, 88, 0, 2, 88, 0, 6, 0, 0]
    );
    assert!(state[44..200].iter().all(|byte| *byte == 0));
    // It stays there, when the job has finished and when the next one arrives.
    let to_10 = [(1, true), (5, true), (2, true), (2, false)];
    let (state, _) = led(&plan, &to_10[..1]);
    assert_eq!(
        entry_of(&state, 0),
        [0, 10, 0x60, 1, 144, 0, 0, 0, 0, 3, 0, 0]
    );
    let (state, _) = led(&plan, &to_10);
    assert_eq!(
        entry_of(&state, 0),
        [0, 10, 0x60, 1, 144, 0, 1, 144, 0, 4, 0, 0]
    );
    // The largest of both: a worst case of twenty bits, all set, and a floor of 7.
    let (state, _) = led(&floor_tasks(&[(65_535, 1_048_575, 255, 7)]), &[]);
    assert_eq!(
        entry_of(&state, 0),
        [255, 255, 0x7f, 255, 255, 0x0f, 255, 255, 0xcd, 0xcc, 255, 255]
    );
}

#[test]
fn the_two_numbers_of_one_field() {
    let mut block = [0; STATE_BYTES];
    layout::put_worst(&mut block, 1, 1_048_575);
    layout::put_floor(&mut block, 1, 9);
    assert_eq!(layout::floor_in(&block, 1), 9);
    assert_eq!(layout::worst_in(&block, 1), 1_048_575);
    assert_eq!(block[22..25], [0x9f, 0xff, 0xff]);
    // Either leaves the other, and only its lowest bits get in.
    layout::put_worst(&mut block, 1, (1 << 20) + 5);
    layout::put_floor(&mut block, 1, 16 + 3);
    assert_eq!(block[22..25], [0x30, 0x00, 0x05]);
    assert!(block[..22]
        .iter()
        .chain(&block[25..])
        .all(|byte| *byte == 0));
}

/// The bench plan with a floor of task 1's, at tick 1, where task 1 runs, changed as told.
fn changed(floor: u64, change: impl Fn(&mut State)) -> [u8; STATE_BYTES] {
    let plan = floor_tasks(&[(10, 400, 0, 0), (10, 400, 0, floor), (30, 600, 0, 0)]);
    let (state, _) = led(&plan, &BENCH_PASSES[..1]);
    let mut state = unpack(&state).unwrap();
    change(&mut state);
    pack(&state)
}

/// Which of the levels up to 9 the order of a state may have.
fn sound_levels(state: &[u8; STATE_BYTES]) -> Vec<u64> {
    let taken = |level: &u64| {
        let mut other = *state;
        layout::LEVEL.put(&mut other, *level);
        if sound(&other).is_some() {
            is_sound(&other);
            return true;
        }
        unsound(&other);
        false
    };
    (0..=9).chain([255]).filter(taken).collect()
}

#[test]
fn soundness_of_the_level() {
    // Level 5 is the lowest that meets the allowance, and 7 is nominal.
    for floor in 0..=5 {
        assert_eq!(sound_levels(&changed(floor, |_| {})), [5, 6, 7]);
    }
    assert_eq!(sound_levels(&changed(6, |_| {})), [6, 7]);
    assert_eq!(sound_levels(&changed(7, |_| {})), [7]);
    // The floor of another task is nothing to it.
    let other = changed(0, |state| {
        state.entries[0].task.floor = 7;
        state.entries[2].task.floor = 7;
    });
    assert_eq!(sound_levels(&other), [5, 6, 7]);
    // Above nominal the floor is the only level. 300 units in 40 ticks are nominal at level 0.
    for floor in 0..8 {
        let (state, _) = led(&floor_tasks(&[(40, 300, 0, floor)]), &[]);
        assert_eq!(sound_levels(&state), [floor]);
    }
    // Another task's floor above nominal lifts the bound of that task alone. 31 ticks of 40 are
    // nominal at level 0.
    for floor in 0..8 {
        let (state, _) = led(&floor_tasks(&[(40, 300, 0, floor), (80, 20, 0, 7)]), &[]);
        assert_eq!(sound_levels(&state), [floor]);
    }
    // Nominal is level 2 here, with 30 units a tick: 7 ticks of 7.
    for (floor, levels) in [(0, &[2][..]), (1, &[2]), (2, &[2]), (3, &[3]), (7, &[7])] {
        let (state, _) = led(&floor_tasks(&[(7, 210, 0, floor)]), &[]);
        assert_eq!(sound_levels(&state), levels);
    }
    // With little work left a level may be any from the floor up to nominal.
    let little = |floor| changed(floor, |state| state.entries[1].left.work = 60);
    assert_eq!(sound_levels(&little(0)), [0, 1, 2, 3, 4, 5, 6, 7]);
    assert_eq!(sound_levels(&little(1)), [1, 2, 3, 4, 5, 6, 7]);
    assert_eq!(sound_levels(&little(4)), [4, 5, 6, 7]);
}

#[test]
fn soundness_puts_24() {
    // Of the task that runs, of one that has finished and of one that waits, in turn.
    for place in 0..3 {
        for floor in 0..16 {
            let mut forged = changed(0, |_| {});
            layout::LEVEL.put(&mut forged, 7);
            layout::put_floor(&mut forged, place, floor);
            if floor < 8 {
                is_sound(&forged);
            } else {
                unsound(&forged);
            }
        }
    }
    // The same with fewer levels: the bench plan is nominal at the highest of each of these tables.
    for count in 1..=8 {
        let speeds: Vec<u64> = (0..count).map(|level| 101 - count + level).collect();
        for place in 0..3 {
            for floor in 0..16 {
                let mut forged = changed(0, |_| {});
                put_table(&mut forged, &speeds);
                layout::LEVEL.put(&mut forged, count - 1);
                layout::put_floor(&mut forged, place, floor);
                if floor < count {
                    is_sound(&forged);
                } else {
                    unsound(&forged);
                }
            }
        }
    }
    // While nothing runs, too.
    let (idling, _) = led(&bench_plan(), &BENCH_PASSES[..5]);
    for floor in 0..16 {
        let mut forged = idling;
        layout::put_floor(&mut forged, 2, floor);
        assert_eq!(sound(&forged).is_some(), floor < 8);
    }
    // An entry past the count has no floor.
    let mut forged = idling;
    layout::put_floor(&mut forged, 3, 1);
    unsound(&forged);
}

#[test]
fn soundness_of_an_idle_order() {
    let plan = floor_tasks(&[(40, 300, 0, 3), (40, 10, 0, 7)]);
    let (state, order) = led(&plan, &[(1, true), (1, true)]);
    assert_eq!(order, idle(38));
    assert_eq!(layout::LEVEL.get(&state), 0);
    assert_eq!(sound_levels(&state), [0]);
}

/// Two tasks of period 3 with 2 units each, at 1, 2 or 4 units a tick; nominal is level 1, with one plain
/// tick each. Task 0 has ended; task 1, of this floor, runs at this level with this work and these plain
/// ticks left.
fn two_at(
    clock: u64,
    floor: u64,
    level: usize,
    (work, plain_left): (u64, u64),
) -> [u8; STATE_BYTES] {
    let plan = floor_tasks(&[(3, 2, 0, 0), (3, 2, 0, floor)]);
    let progress: [Progress; 2] = [(0, 0, 0), (0, work, plain_left)];
    let running = Some(Running { task: 1, level });
    forging::forged(&[1, 2, 4], &plan, clock, running, &progress)
}

/// 02, No. 4's exception stays as it was, whatever the level.
#[test]
fn soundness_of_a_lone_job_behind_its_plain_ticks() {
    // At 1 there are two ticks to the next arrival, and at 2 there is one.
    is_sound(&two_at(1, 0, 0, (2, 0)));
    is_sound(&two_at(2, 0, 1, (2, 0)));
    unsound(&two_at(2, 0, 0, (2, 0)));
    // With a floor the same times do, at levels that it allows: up to nominal, and above it.
    unsound(&two_at(1, 1, 0, (2, 0)));
    is_sound(&two_at(1, 1, 1, (2, 0)));
    unsound(&two_at(1, 1, 2, (2, 0)));
    unsound(&two_at(1, 2, 1, (2, 0)));
    is_sound(&two_at(1, 2, 2, (2, 0)));
    is_sound(&two_at(2, 2, 2, (2, 0)));
    // One tick too long for the gap, at a floor above nominal: 5 units at 4 a tick.
    let plan = floor_tasks(&[(8, 2, 0, 0), (8, 5, 0, 2)]);
    let at = |clock, work| {
        let running = Some(Running { task: 1, level: 2 });
        forging::forged(
            &[1, 2, 4],
            &plan,
            clock,
            running,
            &[(0, 0, 0), (0, work, 0)],
        )
    };
    is_sound(&at(7, 4));
    unsound(&at(7, 5));
    is_sound(&at(6, 5));
}

/// "an order that stays keeps its level": it isn't chosen anew, above its floor or at it.
#[test]
fn an_order_that_stays_keeps_its_level() {
    // Level 6 or 7 where the floor is 6; chosen anew a tick later it would be 6.
    for (level, hold) in [(6, 4), (7, 3)] {
        let mut state = changed(6, |_| {});
        layout::LEVEL.put(&mut state, u64::from(level));
        assert_eq!(pass(&mut state, 1, false), Ok(run(1, level, hold)));
    }
    let (mut state, _) = led(&floor_tasks(&[(40, 300, 0, 2)]), &[]);
    assert_eq!(pass(&mut state, 3, false), Ok(run(0, 2, 7)));
    assert_eq!(unpack(&state).unwrap().entries[0].left.work, 300 - 3 * 30);
}

#[test]
fn an_interrupted_job_goes_on_at_its_floor() {
    // Task 1 is interrupted at 4 and goes on at 5, each time at level 2, above nominal.
    let plan = floor_tasks(&[(4, 10, 0, 0), (12, 120, 0, 2)]);
    let (mut state, order) = led(&plan, &[]);
    assert_eq!(
        (order, judge_list(&plan).unwrap().nominal),
        (run(0, 0, 1), 1)
    );
    assert_eq!(pass(&mut state, 1, true), Ok(run(1, 2, 3)));
    assert_eq!(pass(&mut state, 3, false), Ok(run(0, 0, 1)));
    assert_eq!(unpack(&state).unwrap().entries[1].left.work, 30);
    assert_eq!(pass(&mut state, 1, true), Ok(run(1, 2, 1)));
    assert_eq!(pass(&mut state, 1, true), Ok(idle(2)));
}

/// Would catch books that mistake a floor for a level that is always enough.
#[test]
fn a_dispatcher_that_runs_at_the_floor_alone_breaks_demand_3() {
    // 300 of 400 units in 4 ticks at 80 a tick, where nominal is 100.
    let plan = floor_tasks(&[(10, 400, 0, 6), (10, 400, 0, 0), (30, 600, 0, 0)]);
    let mut actual = actual_book(&plan, run(0, 6, 4));
    let mut plain = plain_book(&plan);
    for (tick, kept) in [(3, true), (4, false)] {
        let d = tick - actual.clock() as u32;
        actual.pass(d, false, Ok(run(0, 6, 5 - tick)));
        plain.pass(d, Ok(run(0, 6, 5 - tick)));
        let verdict = demand3_holds(&plan, &actual, &plain);
        assert_eq!(verdict.is_ok(), kept, "{verdict:?}");
    }
}

/// A run at floors above nominal: the books are the plain schedule's, which doesn't look at them.
#[test]
fn books_of_floors_above_nominal() {
    let plan = floor_tasks(&[(20, 100, 0, 7), (20, 200, 0, 6)]);
    let first = led(&plan, &[]).1;
    assert_eq!(first, run(0, 7, 1));
    let mut actual = actual_book(&plan, first);
    let mut plain = plain_book(&plan);
    let mut state = [0; STATE_BYTES];
    start(&block_of(&plan), &mut state).unwrap();
    let mut enter = |d, finished| {
        let reply = pass(&mut state, d, finished);
        actual.pass(d, finished, reply);
        plain.pass(d, reply);
        assert_eq!(demand3_holds(&plan, &actual, &plain), Ok(()));
        let open: Vec<(usize, u64)> = plain
            .open_jobs()
            .iter()
            .map(|it| (it.task, it.left))
            .collect();
        assert_eq!(queue(&state), open);
        (reply, open)
    };
    assert_eq!(enter(1, false), (Err(14), vec![(0, 5), (1, 10)]));
    assert_eq!(enter(1, true), (Ok(run(1, 6, 3)), vec![(0, 4), (1, 10)]));
    assert_eq!(enter(2, false), (Ok(run(1, 6, 1)), vec![(0, 2), (1, 10)]));
    assert_eq!(enter(1, true), (Ok(idle(16)), vec![(0, 1), (1, 10)]));
    assert_eq!(enter(11, false), (Ok(idle(5)), vec![]));
    assert_eq!(enter(5, false), (Ok(first), vec![(0, 5), (1, 10)]));
}

/// With every table, the simulator's own choice is the floor, or the lowest level that meets the
/// allowance if that is higher.
#[test]
fn the_level_with_any_table() {
    for count in 1..=8 {
        let levels = so_many(count);
        for worst in [10, 35, 70, 10 * count * 7] {
            for floor in 0..count {
                let plan = floor_tasks(&[(7, worst, 0, floor)]);
                let mut state = [0; STATE_BYTES];
                let first = sim::start(&write_levels(&levels), &block_of(&plan), &[], &mut state);
                // 10 units a tick more at each level, and 7 ticks: the lowest has 70 units for each.
                let lowest = (worst + 69) / 70 - 1;
                let level = lowest.max(floor);
                let speed = 10 * (level + 1);
                let hold = (worst + speed - 1) / speed;
                assert_eq!(first, Ok(run(0, level as u8, hold as u32)), "{plan:?}");
            }
        }
    }
}
