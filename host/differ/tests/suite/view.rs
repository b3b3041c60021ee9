//! What a sound state says about the next pass, worked out from 01's words once more, so that tests
//! can aim at each question and know the number beforehand.

use sim::clock::LARGEST_CLOCK;
use sim::job::time_needed;
use sim::random::Random;
use sim::state::unpack;

/// A state as the questions of passing see it, all in ticks.
#[derive(Clone, Copy, Debug)]
pub struct View {
    pub clock: u64,
    /// To the next arrival of any task.
    pub to_arrival: u64,
    /// The running job's time needed at the order's level; nothing if idle.
    pub needed: Option<u64>,
    /// How much of it are fixed ticks; none if idle.
    pub fixed: u64,
    /// Whether exactly one job is open.
    pub lone: bool,
}

impl View {
    pub fn of(state: &[u8]) -> View {
        let state = unpack(state).expect("the state is a sound one");
        let clock = state.clock;
        let to_arrival = state
            .entries
            .iter()
            .map(|entry| entry.task.period - clock % entry.task.period)
            .min()
            .expect("a plan has a task");
        let needed = state.running.map(|order| {
            time_needed(
                state.entries[order.task].left,
                state.levels.speed(order.level),
            )
        });
        let fixed = state
            .running
            .map_or(0, |order| state.entries[order.task].left.fixed);
        let open = state.entries.iter().filter(|entry| entry.left.is_open());
        View {
            clock,
            to_arrival,
            needed,
            fixed,
            lone: open.count() == 1,
        }
    }

    /// Whether the running job has fixed ticks left after so many ticks.
    pub fn is_in_fixed(&self, d: u32) -> bool {
        u64::from(d) < self.fixed
    }

    pub fn hold(&self) -> u64 {
        self.needed.unwrap_or(u64::MAX).min(self.to_arrival)
    }

    /// The number of the first question that says no to such a pass, or 0.
    pub fn refusal(&self, d: u32, finished: bool) -> u32 {
        let d = u64::from(d);
        let most = |needed: u64| if finished { needed } else { needed - 1 };
        if d < 1 {
            11
        } else if d > self.to_arrival {
            12
        } else if finished && self.needed.is_none() {
            13
        } else if self.needed.map_or(false, |needed| d > most(needed)) {
            14
        } else if self.clock + d > LARGEST_CLOCK {
            15
        } else {
            0
        }
    }

    /// The pass that comes if nothing ends early: the timer rings after the hold.
    pub fn whole_hold(&self) -> (u32, bool) {
        let finished = self
            .needed
            .map_or(false, |needed| needed <= self.to_arrival);
        (self.hold() as u32, finished)
    }

    /// The running job ends within its hold, most often soon. An idle processor waits for the next
    /// arrival.
    pub fn early_end(&self, random: &mut Random) -> (u32, bool) {
        if self.needed.is_none() {
            return self.whole_hold();
        }
        let most = random.between(1, self.hold());
        (random.between(1, most) as u32, true)
    }

    /// One tick, and the job ends with it if it must, or now and then.
    pub fn one_tick(&self, random: &mut Random) -> (u32, bool) {
        let finished = self
            .needed
            .map_or(false, |needed| needed == 1 || random.one_in(16));
        (1, finished)
    }

    /// Ticks within the hold, after which the job goes on, but for one that must end with them.
    pub fn going_on(&self, random: &mut Random) -> (u32, bool) {
        let d = random.between(1, self.hold());
        (d as u32, self.needed == Some(d))
    }

    /// One of the first three above.
    pub fn some_pass(&self, random: &mut Random) -> (u32, bool) {
        match random.below(3) {
            0 => self.whole_hold(),
            1 => self.early_end(random),
            _ => self.one_tick(random),
        }
    }

    /// Ticks at and beside each edge that a question has, and some far off.
    pub fn edges(&self) -> Vec<u32> {
        let mut ticks = vec![0, 1, 2];
        let to_largest = LARGEST_CLOCK - self.clock;
        let needed = self.needed.unwrap_or(1);
        for edge in [self.to_arrival, needed, self.fixed, to_largest] {
            ticks.extend([edge.saturating_sub(1), edge, edge + 1, edge + 2]);
        }
        // With one high bit left out these would be a fine pass.
        for bit in [8, 15, 16, 24, 31] {
            ticks.push((1 << bit) + 1);
        }
        ticks.push(u64::from(u32::MAX));
        ticks.sort();
        ticks.dedup();
        ticks
            .into_iter()
            .filter_map(|d| u32::try_from(d).ok())
            .collect()
    }
}

/// The byte that says finished, which is any but 0, or not finished.
pub fn told(random: &mut Random, finished: bool) -> u8 {
    if !finished {
        return 0;
    }
    random.pick(&[1, 1, 1, 2, 0x54, 0x80, 0xfe, 0xff])
}

/// The queue of the plain schedule's open jobs as showing has it.
pub fn queue_bytes(open: &[(usize, u64)]) -> Vec<u8> {
    let entry = |(task, left): &(usize, u64)| [*task as u8, (left / 256) as u8, (left % 256) as u8];
    open.iter().flat_map(entry).collect()
}
