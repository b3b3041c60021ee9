//! Queues shown into buffers of every length around the one that is needed.

use crate::both::{Both, Call, ACCEPTED};
use crate::made::plan_of_count;
use sim::levels::Levels;
use sim::random::plans::plan_at_level;
use sim::random::states::{invented_state, reached_state};
use sim::random::tables::some_or_base_levels;
use sim::random::Random;

/// Would catch a queue in another order, one with ended entries or without those of finished jobs, a
/// number cut to one byte, a buffer that must be longer than needed, a byte written past the queue
/// or past the buffer, and a buffer half filled before 9 is said.
#[test]
fn queues_into_buffers_of_every_length() {
    let mut both = Both::new(&Levels::base());
    let mut random = Random::new(801);
    let mut of_count = [0; 17];
    for round in 0..1_500 {
        let levels = some_or_base_levels(&mut random);
        let plan = match round % 3 {
            0 => plan_of_count(&mut random, &levels, 1 + round / 3 % 16),
            _ => plan_at_level(&mut random, &levels, round % levels.count()),
        };
        let state = if random.one_in(3) {
            reached_state(&mut random, &levels, &plan, round % 20).0
        } else {
            invented_state(&mut random, &levels, &plan)
        };
        let queue = both.show(&state, 48).unwrap();
        assert_eq!(queue.len() % 3, 0);
        of_count[queue.len() / 3] += 1;
        for room in 0..queue.len() {
            assert_eq!(both.show(&state, room), Err(9));
        }
        for room in queue.len()..=queue.len() + 8 {
            assert_eq!(both.show(&state, room).as_ref(), Ok(&queue));
        }
    }
    both.saw("queues into buffers of every length", 36_000);
    both.wants(Call::Show, ACCEPTED, 12_000);
    both.wants(Call::Show, 9, 10_000);
    both.wants_editions(&[Call::Show], 3_000);
    println!("{of_count:?}");
    assert!(of_count.iter().all(|times| *times >= 5), "{of_count:?}");
}

/// Would catch a length that is cut to fewer bits.
#[test]
fn queues_into_large_buffers() {
    let levels = Levels::base();
    let mut both = Both::new(&levels);
    let mut random = Random::new(802);
    let plan = plan_of_count(&mut random, &levels, 16);
    let (state, _) = reached_state(&mut random, &levels, &plan, 0);
    let queue = both.show(&state, 48).unwrap();
    assert_eq!(queue.len(), 48);
    for room in [255, 256, 257, 65_535, 65_536, 65_537, 1 << 20] {
        assert_eq!(both.show(&state, room).as_ref(), Ok(&queue));
    }
    both.saw("queues into large buffers", 8);
    both.wants(Call::Show, ACCEPTED, 8);
}
