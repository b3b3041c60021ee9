//! Starting, passing, showing and asking for the total put to both sides. Whatever a call is lent, to
//! write or only to read, stands between marked bytes, and after the call every byte must be the
//! simulator's.

use crate::both::{Both, Call, Kind};
use crate::lent::{Element, Lent};
use crate::view::View;
use differ::dispatcher::{self, Order};
use sim::state::unpack;

pub use sim::layout::STATE_BYTES;

impl Both {
    /// Starts with the loaded levels, the block and its list of pairs in a buffer, which then holds what
    /// both sides left there.
    #[track_caller]
    pub fn start(&mut self, block: &[u8], pairs: &[u8], state: &mut [u8]) -> Result<Order, u32> {
        let nth = self.times(Call::Start);
        let (levels, room) = (&self.level_block, state.len());
        let what = || {
            format!(
                "starting {block:02x?} with pairs {pairs:02x?} in {room} bytes, levels {levels:02x?}"
            )
        };
        let mut wanted = state.to_vec();
        let simulated = sim::start(levels, block, pairs, &mut wanted).map(as_order);
        let mut lent_levels = self.lent_levels(nth);
        let mut lent_block = Lent::new(nth + 3, block);
        let mut lent_pairs = Lent::new(nth + 7, pairs);
        let mut lent_state = Lent::new(nth, state);
        let answer = dispatcher::start(
            lent_levels.slice(),
            lent_block.slice(),
            lent_pairs.slice(),
            lent_state.slice(),
        );
        assert_eq!(answer, simulated, "{}", what());
        lent_levels.wants(levels, what);
        lent_block.wants(block, what);
        lent_pairs.wants(pairs, what);
        lent_state.wants(&wanted, what);
        if answer.is_err() {
            assert!(wanted == state, "{}: refused, yet changed", what());
        } else {
            self.note_block(Call::Start, block);
            self.note_pairs(Call::Start, pairs);
        }
        state.copy_from_slice(&wanted);
        self.count(Call::Start, &answer);
        answer
    }

    /// Puts a pass to the state, which then is what both sides left. The job finished if the byte
    /// isn't 0.
    #[track_caller]
    pub fn pass(&mut self, state: &mut [u8], d: u32, finished: u8) -> Result<Order, u32> {
        let before = state.to_vec();
        let what = || format!("passing {d}, finished {finished}, in {before:02x?}");
        let mut lent = Lent::new(self.times(Call::Pass), state);
        let simulated = sim::pass(state, d, finished != 0).map(as_order);
        let answer = dispatcher::pass(lent.slice(), d, finished);
        assert_eq!(answer, simulated, "{}", what());
        lent.wants(state, what);
        if answer.is_err() {
            assert!(before == state, "{}: refused, yet changed", what());
        } else if View::of(&before).is_in_fixed(d) {
            let kinds = [Kind::WentOnInFixed, Kind::EndedInFixed];
            self.note(Call::Pass, kinds[usize::from(finished != 0)]);
        }
        self.count(Call::Pass, &answer);
        answer
    }

    /// Shows the state's queue into a buffer of this length, and returns the bytes written.
    #[track_caller]
    pub fn show(&mut self, state: &[u8], room: usize) -> Result<Vec<u8>, u32> {
        let nth = self.times(Call::Show);
        let what = || format!("showing {state:02x?} in {room} bytes");
        let before = vec![u8::mark(nth); room];
        let mut wanted = before.clone();
        let simulated = sim::show(state, &mut wanted).map(|length| length as u64);
        let mut lent_state = Lent::new(nth + 3, state);
        let mut lent_buffer = Lent::new(nth, &before);
        let answer = dispatcher::show(lent_state.slice(), lent_buffer.slice());
        assert_eq!(answer, simulated, "{}", what());
        lent_state.wants(state, what);
        lent_buffer.wants(&wanted, what);
        let written = answer.unwrap_or(0) as usize;
        assert!(
            wanted[written..] == before[written..],
            "{}: one that was not written has changed",
            what()
        );
        self.count(Call::Show, &answer);
        if answer.is_ok() {
            let shown = unpack(state).expect("the state is a sound one");
            self.note_plan(Call::Show, &shown.tasks());
        }
        answer.map(|_| wanted[..written].to_vec())
    }

    /// Asks how many plain ticks are queued in all.
    #[track_caller]
    pub fn queued(&mut self, state: &[u8]) -> Result<u32, u32> {
        let what = || format!("the total of {state:02x?}");
        let mut lent = Lent::new(self.times(Call::Queued), state);
        let answer = dispatcher::queued(lent.slice());
        assert_eq!(answer, sim::queued(state), "{}", what());
        lent.wants(state, what);
        self.count(Call::Queued, &answer);
        answer
    }
}

fn as_order(order: sim::Order) -> Order {
    match order {
        sim::Order::Run { task, level, hold } => Order::Run { task, level, hold },
        sim::Order::Idle { hold } => Order::Idle { hold },
    }
}

/// An order of the library's for the simulator's books and generators.
pub fn as_simulated(order: Order) -> sim::Order {
    match order {
        Order::Run { task, level, hold } => sim::Order::Run { task, level, hold },
        Order::Idle { hold } => sim::Order::Idle { hold },
    }
}
