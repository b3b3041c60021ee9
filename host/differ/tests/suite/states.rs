//! States that a host may hand over without having got them from the library: of another length,
//! with bits and bytes changed, or forged with care.

use crate::both::{Both, Call, ACCEPTED};
use crate::dispatch::STATE_BYTES;
use crate::made::{bench_plan, some_plan};
use crate::sums::sum_of;
use crate::view::{told, View};
use sim::dispatch::{choose, sound};
use sim::job::{time_needed, Left};
use sim::layout::{entry_at, of_task, put_floor};
use sim::layout::{speed_of, LEVEL_COUNT, SPEEDS};
use sim::layout::{CLOCK, COUNT, ENTRIES, ENTRIES_END, FIXED, FIXED_LEFT, HEAD_ZERO, LEVEL, TASK};
use sim::layout::{FLOOR_AND_WORST, SPEEDS_END, TOTAL};
use sim::levels::{Levels, FASTEST, MOST_LEVELS};
use sim::plan::{judge_list, Task, LARGEST_FIXED};
use sim::random::states::{
    forged_state, invented_state, late_state, put_table, reached_state, with_a_table_changed,
};
use sim::random::tables::some_or_base_levels;
use sim::random::totals::put_total;
use sim::random::Random;
use sim::schedule::allotment;
use sim::state::{pack, unpack, Entry};

/// Puts a state to passing and showing, and asks for its total, which any block of the right length has.
/// Says whether it was taken for a sound one; the total is then that of its entries.
pub fn put_state(both: &mut Both, random: &mut Random, state: &[u8]) -> bool {
    let (d, finished) = match sound(state) {
        Some(_) if random.one_in(2) => View::of(state).whole_hold(),
        Some(_) => View::of(state).one_tick(random),
        None => (random.pick(&[0, 1, 2, 100]), random.one_in(2)),
    };
    let mut after = state.to_vec();
    let passed = both.pass(&mut after, d, told(random, finished));
    let shown = both.show(state, random.pick(&[0, 1, 47, 48, 60]));
    assert_eq!(passed == Err(10), shown == Err(10), "{state:02x?}");
    let total = both.queued(state);
    assert_eq!(total == Err(10), state.len() != STATE_BYTES);
    if shown != Err(10) {
        assert_eq!(total.map(u64::from), Ok(sum_of(state)), "{state:02x?}");
    }
    shown != Err(10)
}

/// Sound states of each kind, from plans of each kind, with any speeds.
pub fn some_sound_state(random: &mut Random) -> [u8; STATE_BYTES] {
    let (levels, plan) = some_plan(random);
    let passes = random.pick(&[0, 1, 3, 10, 30]);
    match random.below(3) {
        0 => reached_state(random, &levels, &plan, passes).0,
        1 => {
            let (reached, _) = reached_state(random, &levels, &plan, passes);
            late_state(random, &reached)
        }
        _ => invented_state(random, &levels, &plan),
    }
}

/// One of these in which a job of a task with fixed ticks has done a part of its work.
fn some_begun_state(random: &mut Random) -> [u8; STATE_BYTES] {
    let begun = |entry: &Entry| {
        let work = entry.left.work;
        work > 0 && work < entry.task.worst && entry.task.fixed > 0
    };
    loop {
        let state = some_sound_state(random);
        let entries = unpack(&state).expect("the state is a sound one").entries;
        if entries.iter().any(begun) {
            return state;
        }
    }
}

/// What the entries of a state have of fixed ticks and of those left, told for whole states.
#[derive(Default, Debug)]
struct FixedSeen {
    /// Sound, with fixed ticks left in an entry, and with these and work below the worst case.
    sound_with_some: u32,
    sound_with_part: u32,
    /// Unsound, with more left than there are, and with some left in a finished job.
    above: u32,
    in_finished: u32,
}

impl FixedSeen {
    fn note(&mut self, state: &[u8], taken: bool) {
        let entries = match unpack(state) {
            Some(state) => state.entries,
            None => return,
        };
        let left = |entry: &Entry| entry.left.fixed > 0;
        let part = |entry: &Entry| left(entry) && entry.left.work < entry.task.worst;
        let above = entries
            .iter()
            .any(|entry| entry.left.fixed > entry.task.fixed);
        let in_finished = entries
            .iter()
            .any(|entry| left(entry) && entry.left.work == 0);
        // No sound state has either, whatever else is in it.
        assert!(!taken || !above && !in_finished, "{state:02x?}");
        self.sound_with_some += u32::from(taken && entries.iter().any(left));
        self.sound_with_part += u32::from(taken && entries.iter().any(part));
        self.above += u32::from(above);
        self.in_finished += u32::from(in_finished);
    }

    /// Wants each kind at least so often.
    #[track_caller]
    fn wants(&self, least: u32) {
        println!("{self:?}");
        let seen = [
            self.sound_with_some,
            self.sound_with_part,
            self.above,
            self.in_finished,
        ];
        assert!(seen.iter().all(|times| *times >= least), "{self:?}");
    }
}

/// Would catch a state of another length that is read, past its end or short of it, and one whose
/// tail is not looked at.
#[test]
fn states_of_every_length() {
    let mut both = Both::new(&Levels::base());
    let mut random = Random::new(601);
    for _ in 0..16 {
        let state = some_sound_state(&mut random);
        for length in 0..=2 * STATE_BYTES + 20 {
            let filler = random.pick(&[0x00, 0xff]);
            let mut other = state.to_vec();
            other.resize(length, filler);
            let taken = put_state(&mut both, &mut random, &other);
            assert_eq!(taken, length == STATE_BYTES);
        }
        let twice = [&state[..], &state[..]].concat();
        assert!(!put_state(&mut both, &mut random, &twice));
    }
    both.saw("states of every length", 22_000);
    both.wants_editions(&[Call::Show], 2);
    both.wants(Call::Pass, 10, 6_000);
    both.wants(Call::Show, 10, 6_000);
    both.wants(Call::Pass, ACCEPTED, 10);
}

/// Would catch a bit of the state that soundness does not look at though it should, or that it looks
/// at though it may be either. A bit of the plain ticks left is put with the old total, and with the one
/// that the entries then have.
#[test]
fn every_flipped_bit_of_sound_states() {
    let mut both = Both::new(&Levels::base());
    let mut random = Random::new(602);
    let mut sound_still = 0;
    let mut sound_again = 0;
    let mut fixed = FixedSeen::default();
    for _ in 0..24 {
        let state = some_sound_state(&mut random);
        for place in 0..8 * STATE_BYTES {
            let mut flipped = state;
            flipped[place / 8] ^= 0x80 >> (place % 8);
            let taken = put_state(&mut both, &mut random, &flipped);
            sound_still += u32::from(taken);
            fixed.note(&flipped, taken);
            let mut mended = flipped;
            put_total(&mut mended);
            // With a bit of the total itself flipped, this is the state again.
            if mended != flipped && mended != state {
                assert!(!taken);
                sound_again += u32::from(put_state(&mut both, &mut random, &mended));
            }
        }
    }
    both.saw("flipped bits of states", 145_000);
    fixed.wants(8);
    both.wants(Call::Pass, 10, 25_000);
    both.wants(Call::Show, 10, 25_000);
    assert!(sound_still > 200, "{sound_still}");
    assert!(sound_again > 50, "{sound_again}");
}

/// Would catch an order or a count that is let through though no sound state has it.
#[test]
fn every_value_of_the_head() {
    let mut both = Both::new(&Levels::base());
    let mut random = Random::new(603);
    let mut sound_still = 0;
    for _ in 0..24 {
        let state = some_sound_state(&mut random);
        for field in [TASK, LEVEL, COUNT, HEAD_ZERO] {
            for value in 0..=255 {
                let mut other = state;
                field.put(&mut other, value);
                sound_still += u32::from(put_state(&mut both, &mut random, &other));
            }
        }
        // The task and the level together, as far as they can mean something.
        for task in (0..=16).chain([254, 255]) {
            for level in 0..=MOST_LEVELS as usize {
                let mut other = state;
                TASK.put(&mut other, task);
                LEVEL.put(&mut other, level as u64);
                sound_still += u32::from(put_state(&mut both, &mut random, &other));
            }
        }
    }
    both.saw("heads of states", 86_000);
    both.wants_editions(&[Call::Show], 20);
    both.wants(Call::Pass, 10, 25_000);
    assert!(sound_still > 120, "{sound_still}");
}

/// Would catch a rule of soundness left out or off by one: the forgeries move single fields to the
/// edges of what is sound, and some are sound still.
#[test]
fn forged_states() {
    let mut both = Both::new(&Levels::base());
    let mut random = Random::new(604);
    let mut sound_still = 0;
    let mut fixed = FixedSeen::default();
    for _ in 0..2_500 {
        let state = some_sound_state(&mut random);
        for _ in 0..8 {
            let forged = forged_state(&mut random, &state);
            let taken = put_state(&mut both, &mut random, &forged);
            sound_still += u32::from(taken);
            fixed.note(&forged, taken);
        }
    }
    both.saw("forged states", 60_000);
    fixed.wants(200);
    both.wants(Call::Pass, 10, 8_000);
    both.wants(Call::Show, 10, 8_000);
    both.wants(Call::Pass, ACCEPTED, 1_000);
    assert!(sound_still > 2_000, "{sound_still}");
}

/// Would catch fixed ticks, or ones left, that are let through though no sound state has them, or
/// refused though one has: every value of either in every entry, and of both together in one.
#[test]
fn every_value_of_fixed_ticks() {
    let mut both = Both::new(&Levels::base());
    let mut random = Random::new(610);
    let mut fixed = FixedSeen::default();
    for round in 0..40 {
        let state = if round % 2 == 0 {
            some_sound_state(&mut random)
        } else {
            some_begun_state(&mut random)
        };
        let count = COUNT.get(&state) as usize;
        for task in 0..count {
            for field in [FIXED, FIXED_LEFT] {
                for value in 0..=255 {
                    let mut other = state;
                    of_task(task, field).put(&mut other, value);
                    let taken = put_state(&mut both, &mut random, &other);
                    fixed.note(&other, taken);
                }
            }
        }
        let task = random.place(count);
        for _ in 0..400 {
            let mut other = state;
            let most = random.pick(&[2, 10, 255]);
            of_task(task, FIXED).put(&mut other, random.between(0, most));
            of_task(task, FIXED_LEFT).put(&mut other, random.between(0, most));
            let taken = put_state(&mut both, &mut random, &other);
            fixed.note(&other, taken);
        }
    }
    both.saw("values of fixed ticks", 250_000);
    both.wants(Call::Pass, 10, 50_000);
    both.wants(Call::Pass, ACCEPTED, 500);
    fixed.wants(500);
}

/// A state whose entry has any work, fixed ticks and ones left, at most those of its plan or beyond,
/// with plain ticks that are more than enough or just enough: soundness hangs on the entry alone.
fn with_any_left(random: &mut Random, state: &[u8; STATE_BYTES]) -> [u8; STATE_BYTES] {
    let mut other = unpack(state).expect("the state is a sound one");
    let judged = judge_list(&other.levels, &other.tasks()).expect("the state is a sound one");
    let nominal = other.levels.speed(judged.nominal);
    let place = random.place(other.entries.len());
    let entry = &mut other.entries[place];
    let Task { worst, fixed, .. } = entry.task;
    let beyond = (fixed + 1).min(LARGEST_FIXED);
    let some_fixed = random.between(0, fixed);
    let some_work = random.between(1, worst);
    entry.left = Left {
        fixed: random.pick(&[0, 1, some_fixed, some_fixed, fixed, beyond]),
        work: random.pick(&[0, 1, some_work, some_work, worst - 1, worst]),
    };
    let needed = time_needed(entry.left, nominal);
    let full = allotment(&entry.task, nominal);
    entry.plain_left = random.pick(&[needed.min(full), needed.saturating_sub(1).min(full), full]);
    // The order that such a state would have, if it is one that can be: a lone job that was behind its
    // plain ticks may have got company.
    let behind = |entry: &Entry| time_needed(entry.left, nominal) > entry.plain_left;
    if !other.entries.iter().any(behind) {
        other.running = choose(&other);
    }
    pack(&other)
}

/// Would catch a time needed without the fixed ticks left, soundness that wants all of the work with
/// these, and one that lets them be in a finished job.
#[test]
fn any_work_and_fixed_ticks_left() {
    let mut both = Both::new(&Levels::base());
    let mut random = Random::new(611);
    let mut fixed = FixedSeen::default();
    let mut sound = 0;
    for _ in 0..4_000 {
        let state = some_sound_state(&mut random);
        for _ in 0..6 {
            let other = with_any_left(&mut random, &state);
            let taken = put_state(&mut both, &mut random, &other);
            fixed.note(&other, taken);
            sound += u32::from(taken);
        }
    }
    both.saw("any work and fixed ticks left", 72_000);
    both.wants(Call::Pass, 10, 5_000);
    both.wants(Call::Pass, ACCEPTED, 3_000);
    assert!(sound > 8_000, "{sound}");
    fixed.wants(1_000);
}

/// Would catch a count of levels that is let through though no table has it, or though speeds beyond
/// it are not zero.
#[test]
fn every_count_of_levels() {
    let mut both = Both::new(&Levels::base());
    let mut random = Random::new(607);
    let mut sound_still = 0;
    for _ in 0..40 {
        let state = some_sound_state(&mut random);
        let own = LEVEL_COUNT.get(&state);
        for count in 0..=255 {
            let mut other = state;
            LEVEL_COUNT.put(&mut other, count);
            let taken = put_state(&mut both, &mut random, &other);
            assert_eq!(taken, count == own);
            sound_still += u32::from(taken);
        }
    }
    both.saw("counts of levels", 30_000);
    both.wants_editions(&[Call::Show], 5);
    both.wants(Call::Pass, 10, 10_000);
    assert_eq!(sound_still, 40);
}

/// Values of a speed at and beside the ends of its range, at and beside its neighbours, and ones that
/// would be fine with some bits left out.
fn speeds_to_try(state: &[u8; STATE_BYTES], level: usize) -> Vec<u64> {
    let mut values = vec![0, 1, 2, FASTEST - 1, FASTEST, FASTEST + 1];
    for near in [level.saturating_sub(1), level, (level + 1).min(SPEEDS - 1)] {
        let speed = speed_of(near).get(state);
        values.extend([speed.saturating_sub(1), speed, speed + 1]);
        values.extend([10, 11, 15].map(|bit| speed | 1 << bit));
        // With its bytes in the other order.
        values.push(speed % 256 * 256 + speed / 256);
    }
    values
}

/// Would catch a speed in the state that isn't asked about its range or its neighbours, an unused one
/// that may be anything, and one that is read with fewer bits or from another place.
#[test]
fn every_speed_at_its_edges() {
    let mut both = Both::new(&Levels::base());
    let mut random = Random::new(608);
    let mut sound_still = 0;
    for _ in 0..150 {
        let state = some_sound_state(&mut random);
        let used = LEVEL_COUNT.get(&state) as usize;
        for level in 0..SPEEDS {
            for speed in speeds_to_try(&state, level) {
                let mut other = state;
                speed_of(level).put(&mut other, speed);
                let taken = put_state(&mut both, &mut random, &other);
                assert!(level < used || taken == (speed == 0));
                sound_still += u32::from(taken && other != state);
            }
        }
    }
    both.saw("speeds at their edges", 97_000);
    both.wants_editions(&[Call::Show], 1_000);
    both.wants(Call::Pass, 10, 20_000);
    assert!(sound_still > 1_000, "{sound_still}");
}

/// Would catch damage to a table that slips through, and a state judged with another table than its
/// own: some of these have another one that could be loaded, and it decides whether they are sound.
#[test]
fn states_with_damaged_tables() {
    let mut both = Both::new(&Levels::base());
    let mut random = Random::new(609);
    let mut sound_still = 0;
    for _ in 0..2_500 {
        let state = some_sound_state(&mut random);
        for _ in 0..8 {
            let once = with_a_table_changed(&mut random, &state);
            let taken = put_state(&mut both, &mut random, &once);
            sound_still += u32::from(taken && once != state);
        }
    }
    both.saw("damaged tables", 60_000);
    both.wants_editions(&[Call::Show], 300);
    both.wants(Call::Pass, 10, 12_000);
    both.wants(Call::Show, 10, 12_000);
    assert!(sound_still > 1_000, "{sound_still}");
}

/// Would catch a state taken for sound, or read past the entries that it has, for no reason in its
/// first bytes.
#[test]
fn rubbish() {
    let mut both = Both::new(&Levels::base());
    let mut random = Random::new(605);
    for round in 0..4_000 {
        let mut state = [0; STATE_BYTES];
        state.fill_with(|| random.number() as u8);
        // Some look more like a state.
        if round % 2 == 0 {
            let clock = CLOCK.get(&state);
            CLOCK.put(&mut state, clock & 0x7fff_ffff);
            TASK.put(&mut state, random.below(ENTRIES as u64));
            LEVEL.put(&mut state, random.below(MOST_LEVELS));
            COUNT.put(&mut state, ENTRIES as u64);
            HEAD_ZERO.put(&mut state, 0);
            put_table(&mut state, some_or_base_levels(&mut random).speeds());
            put_total(&mut state);
        }
        if round % 4 == 0 {
            for task in 0..ENTRIES {
                of_task(task, FIXED).put(&mut state, 0);
                of_task(task, FIXED_LEFT).put(&mut state, 0);
                put_floor(&mut state, task, 0);
            }
        }
        let _ = put_state(&mut both, &mut random, &state);
    }
    for filler in 0..=255 {
        assert!(!put_state(&mut both, &mut random, &[filler; STATE_BYTES]));
    }
    both.saw("rubbish", 12_700);
    both.wants(Call::Pass, 10, 4_000);
    both.wants(Call::Show, 10, 4_000);
}

/// Would catch soundness asked after another question: unsound states with passes and buffers that
/// would be refused as well.
#[test]
fn soundness_is_asked_first() {
    let mut both = Both::new(&Levels::base());
    let mut random = Random::new(606);
    let (good, _) = reached_state(&mut random, &Levels::base(), &bench_plan(), 0);
    // Places where a 1 is wrong: in the head, as fixed ticks of the first task, for which there is no
    // room, or as ones left of them, past the third entry, in the count of levels, in the last speed,
    // and in the total, which is 14, at either end. Of a floor it is an 8 or more, as there are eight levels.
    let bad_places = [
        (HEAD_ZERO.at, 1),
        (of_task(0, FLOOR_AND_WORST).at, 0x80),
        (of_task(2, FLOOR_AND_WORST).at, 0xf0),
        (of_task(0, FIXED).at, 1),
        (of_task(0, FIXED_LEFT).at, 1),
        (entry_at(3), 1),
        (of_task(3, FLOOR_AND_WORST).at, 0x10),
        (ENTRIES_END - 1, 1),
        (LEVEL_COUNT.at, 1),
        (SPEEDS_END - 1, 1),
        (TOTAL.at, 1),
        (STATE_BYTES - 1, 1),
    ];
    for (place, value) in bad_places {
        let mut bad = good;
        bad[place] = value;
        for d in [0, 1, 4, 5, 11, u32::MAX] {
            for finished in [0, 1] {
                assert_eq!(both.pass(&mut bad, d, finished), Err(10));
            }
        }
        for room in 0..=9 {
            assert_eq!(both.show(&bad, room), Err(10));
        }
    }
    both.saw("soundness first", 264);
    both.wants(Call::Pass, 10, 144);
    both.wants(Call::Show, 10, 120);
}
