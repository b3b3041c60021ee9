//! 02, No. 3: "for every work and speed in range the result stays 01's". The rounding-up division is
//! put to the simulator alone, and where it is built into the calls: there a plan on a board of one
//! level tells it by what is admitted, held, queued and refused.

use crate::dispatch::STATE_BYTES;
use crate::made::{fixed_tasks, numbers_of};
use differ::dispatcher::{pass, show, start, Order};
use differ::proved::{judge, Judged};
use sim::job::{time_needed, Left};
use sim::levels::{Levels, FASTEST};
use sim::plan::Task;
use sim::random::blocks::block_of;
use sim::write_levels;

#[link(name = "time_needed", kind = "static")]
extern "C" {
    #[link_name = "time_needed"]
    fn proved_time_needed(speed: u32, work: u32) -> u32;
}

/// Every work up to here is tried at every speed.
const ALL_WORKS: u32 = 4_096;
/// The most work that three bytes of a state hold, which is what the division is asked of.
const MOST_WORK: u32 = (1 << 24) - 1;
const LARGEST_WORST: u32 = 1_048_575;
const LONGEST_PERIOD: u32 = 65_535;

/// The division alone.
fn alone(speed: u32, work: u32) -> u32 {
    assert!((1..=1_000).contains(&speed) && work <= MOST_WORK);
    // SAFETY: numbers go in and one comes out, and the two are within what its contract asks.
    unsafe { proved_time_needed(speed, work) }
}

/// The simulator's time, which must be the least one that covers the work.
fn wanted(speed: u32, work: u32) -> u32 {
    let (speed, work) = (u64::from(speed), u64::from(work));
    let ticks = time_needed(Left { fixed: 0, work }, speed);
    assert!(work <= ticks * speed && ticks * speed < work + speed);
    ticks as u32
}

/// The works around those at which a range ends, and around the last before each that the speed
/// divides.
fn edges(speed: u32) -> Vec<u32> {
    let ends = [LARGEST_WORST, LONGEST_PERIOD * speed, 1 << 16, MOST_WORK];
    let mut works = Vec::new();
    for end in ends {
        for centre in [end, end - end % speed] {
            works.extend(centre - 2..=centre + 2);
        }
    }
    works.retain(|work| (ALL_WORKS + 1..=MOST_WORK).contains(work));
    works.sort_unstable();
    works.dedup();
    works
}

fn speeds() -> std::ops::RangeInclusive<u32> {
    1..=FASTEST as u32
}

/// Would catch a time rounded down, one tick too many where the speed divides the work, a sum or a
/// speed cut to fewer bits.
#[test]
fn the_division_alone() {
    let (mut tried, mut divided) = (0, 0);
    for speed in speeds() {
        for work in (0..=ALL_WORKS).chain(edges(speed)) {
            let ticks = wanted(speed, work);
            assert_eq!(alone(speed, work), ticks, "work {work} at speed {speed}");
            tried += 1;
            divided += u32::from(work % speed == 0);
        }
    }
    println!("the division alone: {tried} works, {divided} of them divided by the speed");
    assert!(tried > 4_120_000 && divided > 34_000);
}

/// Two tasks of one period on a board of one level: task 0 has the work that is tried, task 1 a single
/// unit, which takes one tick. A level is passed over without a division if the work of the two is
/// more than it does in a period; with the one unit this is so only where the speed divides the work.
fn plan(period: u32, work: u32) -> Vec<Task> {
    fixed_tasks(&[(period.into(), work.into(), 0), (period.into(), 1, 0)])
}

/// The plans whose period is just long enough and just too short for a time.
struct Plans {
    ticks: u32,
    admitted: Vec<Task>,
    refused: Vec<Task>,
    block: Vec<u8>,
    refused_block: Vec<u8>,
}

impl Plans {
    fn new(work: u32, ticks: u32) -> Plans {
        let (admitted, refused) = (plan(ticks + 1, work), plan(ticks, work));
        Plans {
            ticks,
            block: block_of(&admitted),
            refused_block: block_of(&refused),
            admitted,
            refused,
        }
    }

    /// The shortest period that admits the plan is the time that its tasks need.
    #[track_caller]
    fn judged(&self, levels: &[u8]) {
        let accepted = Judged {
            level: 0,
            hyperperiod: u64::from(self.ticks) + 1,
        };
        assert_eq!(judge(levels, 2, &numbers_of(&self.admitted)), Ok(accepted));
        assert_eq!(judge(levels, 2, &numbers_of(&self.refused)), Err(8));
    }

    /// From the start to the second jobs: the ticks held and queued are those that task 0 needs, one
    /// fewer leave it one to go, and as many are refused with 14 if it hasn't finished.
    #[track_caller]
    fn played(&self, levels: &[u8]) {
        let ticks = self.ticks;
        let mut state = [0; STATE_BYTES];
        assert_eq!(start(levels, &self.refused_block, &[], &mut state), Err(8));
        assert_eq!(start(levels, &self.block, &[], &mut state), run(0, ticks));
        assert_eq!(queue(&state), [(0, ticks), (1, 1)]);
        assert_eq!(pass(&mut state, ticks, 0), Err(14));
        if ticks > 1 {
            assert_eq!(pass(&mut state, ticks - 1, 0), run(0, 1));
        }
        assert_eq!(pass(&mut state, 1, 0), Err(14));
        assert_eq!(pass(&mut state, 1, 1), run(1, 1));
        assert_eq!(pass(&mut state, 1, 1), run(0, ticks));
        assert_eq!(queue(&state), [(0, ticks), (1, 1)]);
    }
}

/// The order to run a task at the only level.
fn run(task: u8, hold: u32) -> Result<Order, u32> {
    let level = 0;
    Ok(Order::Run { task, level, hold })
}

/// The two entries of a queue: a task and its ticks.
fn queue(state: &[u8]) -> [(u8, u32); 2] {
    let mut bytes = [0; 6];
    assert_eq!(show(state, &mut bytes), Ok(6));
    let entry = |at: usize| {
        let ticks = u16::from_be_bytes([bytes[at + 1], bytes[at + 2]]);
        (bytes[at], ticks.into())
    };
    [entry(0), entry(3)]
}

fn level_block(speed: u32) -> Vec<u8> {
    write_levels(&Levels::new(&[speed.into()]))
}

/// Would catch the same, up to 4,096, in any of the places where the division is built in: judging,
/// starting, a new order, the order that stands, and a new job.
#[test]
fn small_works_in_the_calls() {
    let boards: Vec<(u32, Vec<u8>)> = speeds().map(|speed| (speed, level_block(speed))).collect();
    let (mut tried, mut made) = (0, 0);
    for work in 1..=ALL_WORKS {
        let mut plans = Plans::new(work, work);
        for (speed, levels) in &boards {
            // Many speeds need the same time.
            let ticks = wanted(*speed, work);
            if ticks != plans.ticks {
                plans = Plans::new(work, ticks);
                made += 1;
            }
            plans.judged(levels);
            plans.played(levels);
            tried += 1;
        }
    }
    println!("small works in the calls: {tried}, {made} times another time");
    assert!(tried == 4_096_000 && made > 100_000);
}

/// The same at the edges, as far as a plan can have such a work.
#[test]
fn large_works_in_the_calls() {
    let mut tried = 0;
    for speed in speeds() {
        let levels = level_block(speed);
        for work in edges(speed) {
            let ticks = wanted(speed, work);
            if work <= LARGEST_WORST && ticks < LONGEST_PERIOD {
                let plans = Plans::new(work, ticks);
                plans.judged(&levels);
                plans.played(&levels);
                tried += 1;
            }
        }
    }
    println!("large works in the calls: {tried}");
    assert!(tried > 10_000);
}
