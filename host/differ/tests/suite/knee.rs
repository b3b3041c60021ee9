//! 02, No. 7: the damping for an angle of the knee. What it promises of the valve's finishes is checked
//! in `runs`; here is the smallest run that comes to its bound.

use crate::both::{Both, Call, ACCEPTED};
use crate::dispatch::{as_simulated, STATE_BYTES};
use crate::made::tasks;
use differ::proved::damping;
use sim::books::ActualBook;
use sim::knee::{most_change, refresh_holds, Refresh, LARGEST_ANGLE, SMALLEST_ANGLE};
use sim::levels::Levels;
use sim::random::blocks::block_of;
use sim::random::Random;

/// The angles that have a damping, told by 02's own numbers.
fn angles() -> std::ops::RangeInclusive<i32> {
    -50..=1_300
}

/// 02's points in tenths of a degree, with the angles beside them, worked out by hand.
const BY_HAND: [(i32, u64); 27] = [
    (-50, 12),
    (-49, 12),
    (-1, 12),
    (0, 12),
    (1, 12),
    (24, 12),
    (25, 13),
    (49, 13),
    (50, 14),
    (51, 14),
    (99, 16),
    (100, 17),
    (101, 17),
    (199, 24),
    (200, 25),
    (201, 25),
    (399, 48),
    (400, 49),
    (401, 49),
    (599, 72),
    (600, 73),
    (601, 73),
    (899, 96),
    (900, 97),
    (901, 97),
    (1_299, 111),
    (1_300, 112),
];

/// Would catch a point that isn't met, a range that ends elsewhere, and a refusal with another number,
/// also where the simulator had the same one.
#[test]
fn the_points_and_the_ends_of_the_range() {
    let mut both = Both::new(&Levels::base());
    for (angle, wanted) in BY_HAND {
        assert_eq!(both.damping(angle), Ok(wanted), "{angle}");
    }
    for angle in [-52, -51, 1_301, 1_302, i32::MIN, i32::MAX] {
        assert_eq!(both.damping(angle), Err(23), "{angle}");
    }
    assert_eq!((SMALLEST_ANGLE, LARGEST_ANGLE), (-50, 1_300));
    both.saw("the points and the ends of the range", 33);
    both.wants(Call::Damping, ACCEPTED, 27);
    both.wants(Call::Damping, 23, 6);
}

/// Would catch any entry of the table that is wrong, one that is read from the wrong place, and an angle
/// of up to 17 bits that is cut to fewer.
#[test]
fn every_angle_to_100_000() {
    let mut both = Both::new(&Levels::base());
    for angle in -100_000..=100_000 {
        assert_eq!(both.damping(angle).is_ok(), angles().contains(&angle));
    }
    both.saw("every angle to 100,000", 200_001);
    both.wants(Call::Damping, ACCEPTED, 1_351);
    both.wants(Call::Damping, 23, 198_650);
}

/// Would catch a range that is asked for in fewer bits, without the sign, or after a sum that has gone
/// round: the ends of 32 bits, the powers of two of both signs, and what lies beside each.
#[test]
fn angles_at_the_ends_and_the_powers_of_two() {
    let mut both = Both::new(&Levels::base());
    let powers = (0..31).map(|bit| 1 << bit);
    let centres = powers.flat_map(|power: i32| [power, -power]);
    for centre in centres.chain([i32::MIN, i32::MAX]) {
        for beside in -1_400..=1_400 {
            // Past one end it goes on at the other.
            let _ = both.damping(centre.wrapping_add(beside));
        }
    }
    both.saw("angles at the ends and the powers of two", 179_000);
    both.wants(Call::Damping, ACCEPTED, 28_000);
    both.wants(Call::Damping, 23, 150_000);
}

/// The same where a single bit makes a fine angle another one.
#[test]
fn angles_with_a_bit_flipped() {
    let mut both = Both::new(&Levels::base());
    for angle in angles() {
        for bit in 0..32 {
            let _ = both.damping(angle ^ 1 << bit);
        }
    }
    both.saw("angles with a bit flipped", 43_232);
    both.wants(Call::Damping, ACCEPTED, 13_000);
    both.wants(Call::Damping, 23, 28_000);
}

/// Any of 32 bits, and as often one that is likely in range.
#[test]
fn angles_of_any_kind() {
    let mut both = Both::new(&Levels::base());
    let mut random = Random::new(1_201);
    for round in 0..400_000 {
        let angle = match round % 2 {
            0 => random.number() as i32,
            _ => random.between(0, 1_500) as i32 - 100,
        };
        let _ = both.damping(angle);
    }
    both.saw("angles of any kind", 400_000);
    both.wants(Call::Damping, ACCEPTED, 170_000);
    both.wants(Call::Damping, 23, 210_000);
}

/// "An angle change of k tenths moves the damping by at most 1 plus 12 times k divided by 100, rounded
/// down": every two angles of the library's own answers. Would catch a table with a step in it, were the
/// simulator's points wrong as well.
#[test]
fn every_change_of_the_angle() {
    let answers: Vec<u64> = angles()
        .map(|it| damping(it).expect("it is in range"))
        .collect();
    let (mut changes, mut moved_most, mut moved) = (0, 0, 0);
    for (from, before) in answers.iter().enumerate() {
        for (to, after) in answers.iter().enumerate() {
            let (tenths, by) = (from.abs_diff(to) as u64, before.abs_diff(*after));
            // Said here once more, so that it isn't the simulator's alone.
            assert!(by <= 1 + 12 * tenths / 100, "{by} in {tenths} tenths");
            assert!(by <= most_change(tenths), "{by} in {tenths} tenths");
            changes += 1;
            moved += u32::from(by > 0);
            moved_most += u32::from(by == most_change(tenths));
        }
    }
    println!("every change of the angle: {changes}, {moved} move it, {moved_most} by the most there may be");
    assert_eq!(changes, 1_825_201);
    assert!(moved > 1_700_000 && moved_most > 10_000);
}

/// Would catch a library that refuses this run, or lets the second finish come a tick later. At one unit a
/// tick a valve of period 2 and 2 units finishes at 1, and its next job takes both ticks, from 2 to 4.
#[test]
fn two_periods_less_a_tick() {
    let levels = Levels::new(&[1]);
    let plan = tasks(&[(2, 2)]);
    let mut both = Both::new(&levels);
    let mut state = [0; STATE_BYTES];
    let first = both.start(&block_of(&plan), &[], &mut state);
    let first = first.expect("the plan is an accepted one");
    let mut book = ActualBook::new(&levels, &plan, as_simulated(first));
    let mut valve = Refresh::new(&plan);
    for (d, finished) in [(1, true), (1, false), (2, true)] {
        // Past the next arrival none can go, so no finish can be told from there.
        let to_arrival = 2 - book.clock() as u32 % 2;
        assert_eq!(both.pass(&mut state, to_arrival + 1, 1), Err(12));
        let before = book.clone();
        let reply = both.pass(&mut state, d, u8::from(finished));
        assert!(reply.is_ok());
        book.pass(d, finished, reply.map(as_simulated));
        assert_eq!(valve.pass(&before, &book), finished);
        assert_eq!(refresh_holds(&valve), Ok(()));
    }
    assert_eq!(valve.consecutive(), [(1, 4)]);
}
