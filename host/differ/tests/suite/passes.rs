//! Passes at and beside every edge that a question has, from states of every kind.

use crate::both::{Both, Call, ACCEPTED};
use crate::dispatch::STATE_BYTES;
use crate::view::{told, View};
use sim::levels::Levels;
use sim::random::plans::{plan_at_level, plan_at_level_within, SMALL_BASES};
use sim::random::states::{invented_state, late_state, reached_state};
use sim::random::tables::some_or_base_levels;
use sim::random::Random;

/// Puts passes at each edge to copies of the state. Says how many were accepted.
fn put_edges(both: &mut Both, random: &mut Random, state: &[u8; STATE_BYTES]) -> u32 {
    let view = View::of(state);
    let mut accepted = 0;
    for d in view.edges() {
        for finished in [false, true] {
            let mut after = *state;
            let reply = both.pass(&mut after, d, told(random, finished));
            let number = reply.err().unwrap_or(ACCEPTED);
            assert_eq!(number, view.refusal(d, finished), "{d} {finished} {view:?}");
            accepted += u32::from(reply.is_ok());
        }
    }
    accepted
}

/// A state that a run reaches, with any speeds. The more passes a plan has seen, the less its jobs
/// are in step.
fn some_reached_state(random: &mut Random) -> [u8; STATE_BYTES] {
    let levels = some_or_base_levels(random);
    let level = random.place(levels.count());
    let plan = if random.one_in(3) {
        plan_at_level(random, &levels, level)
    } else {
        let base = random.pick(&SMALL_BASES);
        plan_at_level_within(random, &levels, level, base)
    };
    let passes = random.pick(&[0, 1, 2, 5, 20, 60]);
    reached_state(random, &levels, &plan, passes).0
}

/// Would catch any of 11 to 14 that is off by one, left out, asked before its turn, or told with
/// another's number; ticks cut to fewer bits; a byte for finished that must be 1; and a state
/// changed on the way to a refusal.
#[test]
fn every_edge_of_reached_states() {
    let mut both = Both::new(&Levels::base());
    let mut random = Random::new(501);
    for _ in 0..2_500 {
        let state = some_reached_state(&mut random);
        put_edges(&mut both, &mut random, &state);
    }
    both.saw("edges of reached states", 79_000);
    both.wants_inside(250);
    both.wants(Call::Pass, ACCEPTED, 5_000);
    for number in [11, 12, 14] {
        both.wants(Call::Pass, number, 4_000);
    }
    both.wants(Call::Pass, 13, 500);
}

/// The same within the last ticks before the largest clock: would catch 15 that is off by one, asked
/// before its turn, or asked about a sum that has wrapped.
#[test]
fn every_edge_of_late_states() {
    let mut both = Both::new(&Levels::base());
    let mut random = Random::new(502);
    let mut stuck = 0;
    for _ in 0..1_600 {
        let reached = some_reached_state(&mut random);
        let mut state = late_state(&mut random, &reached);
        // On towards the end, as far as it goes.
        for _ in 0..random.below(40) {
            let view = View::of(&state);
            let (d, finished) = if random.one_in(2) {
                view.whole_hold()
            } else {
                view.early_end(&mut random)
            };
            if both
                .pass(&mut state, d, told(&mut random, finished))
                .is_err()
            {
                break;
            }
        }
        if put_edges(&mut both, &mut random, &state) == 0 {
            stuck += 1;
        }
    }
    both.saw("edges of late states", 57_000);
    both.wants_inside(300);
    both.wants(Call::Pass, ACCEPTED, 6_000);
    for number in [11, 12, 14, 15] {
        both.wants(Call::Pass, number, 2_000);
    }
    both.wants(Call::Pass, 13, 200);
    assert!(stuck > 100, "{stuck}");
}

/// Would catch a pass that counts on more than soundness: any clock, any progress of the jobs, and
/// an order at a higher level than the lowest that fits.
#[test]
fn every_edge_of_invented_states() {
    let mut both = Both::new(&Levels::base());
    let mut random = Random::new(503);
    for _ in 0..3_600 {
        let levels = some_or_base_levels(&mut random);
        let level = random.place(levels.count());
        let plan = plan_at_level(&mut random, &levels, level);
        let state = invented_state(&mut random, &levels, &plan);
        put_edges(&mut both, &mut random, &state);
        let _ = both.show(&state, 48);
    }
    both.saw("edges of invented states", 120_000);
    both.wants_inside(500);
    both.wants(Call::Pass, ACCEPTED, 6_000);
    for number in 11..=14 {
        both.wants(Call::Pass, number, 1_000);
    }
    both.wants(Call::Pass, 15, 100);
    both.wants(Call::Show, ACCEPTED, 3_000);
}

/// Runs on from invented states: would catch a state left unsound by a pass from a sound one.
#[test]
fn runs_from_invented_states() {
    let mut both = Both::new(&Levels::base());
    let mut random = Random::new(504);
    for _ in 0..600 {
        let levels = some_or_base_levels(&mut random);
        let (level, base) = (random.place(levels.count()), random.pick(&SMALL_BASES));
        let plan = plan_at_level_within(&mut random, &levels, level, base);
        let mut state = invented_state(&mut random, &levels, &plan);
        for _ in 0..30 {
            let view = View::of(&state);
            let (d, finished) = view.some_pass(&mut random);
            let reply = both.pass(&mut state, d, told(&mut random, finished));
            assert_eq!(reply.err().unwrap_or(0), view.refusal(d, finished));
            let _ = both.show(&state, 48);
        }
    }
    both.saw("runs from invented states", 36_000);
    both.wants_inside(100);
    both.wants(Call::Pass, ACCEPTED, 7_000);
    both.wants(Call::Show, ACCEPTED, 12_000);
}
