//! One call put to both sides: the proved library and the simulator must answer the same and leave
//! the same bytes.

use crate::lent::{Lent, MARGIN, MARKS};
use crate::made::Additions;
use differ::proved::{self, Judged};
use sim::levels::Levels;
use sim::plan::{self, Task};
use sim::random::tables::some_or_base_levels;
use sim::random::Random;
use std::collections::BTreeMap;

/// A plan has so many places.
pub const PLACES: usize = 16;

/// Stands for "accepted" where else a refusal's number stands.
pub const ACCEPTED: u32 = 0;

#[derive(Clone, Copy, PartialEq, Eq, PartialOrd, Ord, Debug)]
pub enum Call {
    Levels,
    Judge,
    Read,
    Write,
    Copy,
    Pairs,
    Start,
    Pass,
    Show,
    Queued,
    Damping,
}

/// What an accepted call was about. Its answer doesn't tell.
#[derive(Clone, Copy, PartialEq, Eq, PartialOrd, Ord, Debug)]
pub enum Kind {
    /// A plan without fixed ticks, and one with some.
    NoFixed,
    Fixed,
    /// A plan without floors, and one with some; and one that is of edition 2 for its floors alone.
    NoFloor,
    Floors,
    FloorsAlone,
    /// An empty list of pairs, and one with pairs in it.
    NoPair,
    SomePairs,
    /// A pass at whose end the running job had fixed ticks left, and ended there or didn't.
    EndedInFixed,
    WentOnInFixed,
}

/// The calls that take a level block.
pub const WITH_LEVELS: [Call; 7] = [
    Call::Levels,
    Call::Judge,
    Call::Read,
    Call::Write,
    Call::Copy,
    Call::Pairs,
    Call::Start,
];

/// Puts calls to both sides, and counts the answers on which they agreed.
pub struct Both {
    /// The level block that both sides are handed.
    pub level_block: Vec<u8>,
    seen: BTreeMap<(Call, u32), u64>,
    kinds: BTreeMap<(Call, Kind), u64>,
}

impl Both {
    pub fn new(levels: &Levels) -> Both {
        Both {
            level_block: sim::write_levels(levels),
            seen: BTreeMap::new(),
            kinds: BTreeMap::new(),
        }
    }

    /// From now on the calls get the block of these speeds.
    pub fn load(&mut self, levels: &Levels) {
        self.level_block = sim::write_levels(levels);
    }

    /// The same with any speeds, now and then 01's.
    pub fn load_some(&mut self, random: &mut Random) -> Levels {
        let levels = some_or_base_levels(random);
        self.load(&levels);
        levels
    }

    /// The level block as a call is lent it. The places change with the calls made so far.
    pub fn lent_levels(&self, nth: u64) -> Lent<u8> {
        Lent::new(nth + 5, &self.level_block)
    }

    /// Reads the level block, and returns how many levels it has.
    #[track_caller]
    pub fn read_levels(&mut self) -> Result<u64, u32> {
        let block = &self.level_block;
        let wanted = sim::read_levels(block).map(|levels| levels.count() as u64);
        let mut lent = self.lent_levels(self.times(Call::Levels));
        let answer = proved::read_levels(lent.slice());
        assert_eq!(answer, wanted, "levels {block:02x?}");
        lent.wants(block, || format!("levels {block:02x?}"));
        self.count(Call::Levels, &answer);
        answer
    }

    /// Judges the plan of this count and these numbers.
    #[track_caller]
    pub fn judge(&mut self, count: usize, numbers: &[u32]) -> Result<Judged, u32> {
        let block = &self.level_block;
        let what = || format!("judging {count} tasks, {numbers:?}, levels {block:02x?}");
        let wanted = sim::judge(block, count as u64, &tasks_in(numbers)).map(as_judged);
        let nth = self.times(Call::Judge);
        let mut lent_levels = self.lent_levels(nth);
        let mut lent_numbers = Lent::new(nth, numbers);
        let answer = proved::judge(lent_levels.slice(), count, lent_numbers.slice());
        assert_eq!(answer, wanted, "{}", what());
        lent_levels.wants(block, what);
        lent_numbers.wants(numbers, what);
        self.count(Call::Judge, &answer);
        if answer.is_ok() {
            self.note_plan(Call::Judge, &tasks_in(numbers)[..count]);
        }
        answer
    }

    /// Reads the block.
    #[track_caller]
    pub fn read(&mut self, block: &[u8]) -> Result<Judged, u32> {
        let levels = &self.level_block;
        let what = || format!("reading {block:02x?}, levels {levels:02x?}");
        let wanted = sim::read_plan(levels, block).map(|(_, judged)| as_judged(judged));
        let nth = self.times(Call::Read);
        let mut lent_levels = self.lent_levels(nth);
        let mut lent_block = Lent::new(nth, block);
        let answer = proved::read(lent_levels.slice(), lent_block.slice());
        assert_eq!(answer, wanted, "{}", what());
        lent_levels.wants(levels, what);
        lent_block.wants(block, what);
        self.count(Call::Read, &answer);
        if answer.is_ok() {
            self.note_block(Call::Read, block);
        }
        answer
    }

    /// Writes the plan into a buffer of this length, and returns the bytes written.
    #[track_caller]
    pub fn write(&mut self, count: usize, numbers: &[u32], room: usize) -> Result<Vec<u8>, u32> {
        let block = &self.level_block;
        let what = || format!("writing {count} tasks, {numbers:?}, levels {block:02x?}");
        let nth = self.times(Call::Write);
        let tasks = tasks_in(numbers);
        let library = |buffer: &mut [u8]| {
            let mut lent_levels = self.lent_levels(nth);
            let mut lent_numbers = Lent::new(nth, numbers);
            let answer = proved::write(lent_levels.slice(), count, lent_numbers.slice(), buffer);
            lent_levels.wants(block, what);
            lent_numbers.wants(numbers, what);
            answer
        };
        let simulator = |buffer: &mut [u8]| sim::write_plan(block, count as u64, &tasks, buffer);
        let answer = same_bytes(room, library, simulator, &what);
        self.count(Call::Write, &answer);
        if let Ok(bytes) = &answer {
            self.note_block(Call::Write, bytes);
        }
        answer
    }

    /// Reads the block and writes its plan into a buffer of this length. The bytes written must be
    /// the block's.
    #[track_caller]
    pub fn copy(&mut self, block: &[u8], room: usize) -> Result<Vec<u8>, u32> {
        let levels = &self.level_block;
        let what = || format!("copying {block:02x?}, levels {levels:02x?}");
        let nth = self.times(Call::Copy);
        let library = |buffer: &mut [u8]| {
            let mut lent_levels = self.lent_levels(nth);
            let mut lent_block = Lent::new(nth, block);
            let answer = proved::copy(lent_levels.slice(), lent_block.slice(), buffer);
            lent_levels.wants(levels, what);
            lent_block.wants(block, what);
            answer
        };
        let simulator = |buffer: &mut [u8]| sim::copy_plan(levels, block, buffer);
        let answer = same_bytes(room, library, simulator, &what);
        if let Ok(bytes) = &answer {
            assert_eq!(bytes, block, "a copy is the block again");
            self.note_block(Call::Copy, bytes);
        }
        self.count(Call::Copy, &answer);
        answer
    }

    /// Reads the block and the list of pairs that is to come with it, and returns how many there are.
    #[track_caller]
    pub fn pairs(&mut self, block: &[u8], pairs: &[u8]) -> Result<u64, u32> {
        let levels = &self.level_block;
        let what = || format!("pairs {pairs:02x?} with {block:02x?}, levels {levels:02x?}");
        let wanted = sim::pairs(levels, block, pairs).map(|count| count as u64);
        let nth = self.times(Call::Pairs);
        let mut lent_levels = self.lent_levels(nth);
        let mut lent_block = Lent::new(nth + 3, block);
        let mut lent_pairs = Lent::new(nth, pairs);
        let answer = proved::pairs(lent_levels.slice(), lent_block.slice(), lent_pairs.slice());
        assert_eq!(answer, wanted, "{}", what());
        lent_levels.wants(levels, what);
        lent_block.wants(block, what);
        lent_pairs.wants(pairs, what);
        self.count(Call::Pairs, &answer);
        if answer.is_ok() {
            self.note_block(Call::Pairs, block);
            self.note_pairs(Call::Pairs, pairs);
        }
        answer
    }

    /// Asks for the damping at an angle.
    #[track_caller]
    pub fn damping(&mut self, angle: i32) -> Result<u64, u32> {
        let answer = proved::damping(angle);
        assert_eq!(answer, sim::damping(angle), "the damping at {angle} tenths");
        self.count(Call::Damping, &answer);
        answer
    }

    pub fn count<T>(&mut self, call: Call, answer: &Result<T, u32>) {
        let number = answer.as_ref().err().copied().unwrap_or(ACCEPTED);
        *self.seen.entry((call, number)).or_default() += 1;
    }

    /// Wants that the call was answered so at least this often.
    #[track_caller]
    pub fn wants(&self, call: Call, number: u32, least: u64) {
        let times = self.seen.get(&(call, number)).copied().unwrap_or(0);
        assert!(times >= least, "{call:?} gave {number} only {times} times");
    }

    /// Counts an accepted call on such a plan.
    pub fn note_plan(&mut self, call: Call, tasks: &[Task]) {
        self.note_additions(call, Additions::of(tasks));
    }

    /// Counts an accepted call on such a block.
    pub fn note_block(&mut self, call: Call, block: &[u8]) {
        self.note_additions(call, additions_in(block));
    }

    fn note_additions(&mut self, call: Call, additions: Additions) {
        let (fixed, floors) = match additions {
            Additions::None => (Kind::NoFixed, Kind::NoFloor),
            Additions::Fixed => (Kind::Fixed, Kind::NoFloor),
            Additions::Floors => (Kind::NoFixed, Kind::Floors),
            Additions::Both => (Kind::Fixed, Kind::Floors),
        };
        self.note(call, fixed);
        self.note(call, floors);
        if additions == Additions::Floors {
            self.note(call, Kind::FloorsAlone);
        }
    }

    /// Counts an accepted call with such a list of pairs.
    pub fn note_pairs(&mut self, call: Call, pairs: &[u8]) {
        let kinds = [Kind::SomePairs, Kind::NoPair];
        self.note(call, kinds[usize::from(pairs.is_empty())]);
    }

    pub fn note(&mut self, call: Call, kind: Kind) {
        *self.kinds.entry((call, kind)).or_default() += 1;
    }

    /// Wants that the call was accepted for this kind of thing at least so often.
    #[track_caller]
    pub fn wants_kind(&self, call: Call, kind: Kind, least: u64) {
        let times = self.kinds.get(&(call, kind)).copied().unwrap_or(0);
        assert!(times >= least, "{call:?} of {kind:?} only {times} times");
    }

    /// The same for plans without fixed ticks and for plans with some, and likewise for floors; and for
    /// plans with floors alone half as often.
    #[track_caller]
    pub fn wants_editions(&self, calls: &[Call], least: u64) {
        self.wants_with_and_without(calls, least);
        for call in calls {
            self.wants_kind(*call, Kind::FloorsAlone, least / 2);
        }
    }

    /// The same where no plan has floors alone.
    #[track_caller]
    pub fn wants_with_and_without(&self, calls: &[Call], least: u64) {
        let kinds = [Kind::NoFixed, Kind::Fixed, Kind::NoFloor, Kind::Floors];
        for call in calls {
            for kind in kinds {
                self.wants_kind(*call, kind, least);
            }
        }
    }

    /// The same for lists of pairs that are empty, and for ones that aren't.
    #[track_caller]
    pub fn wants_lists(&self, calls: &[Call], least: u64) {
        for call in calls {
            self.wants_kind(*call, Kind::NoPair, least);
            self.wants_kind(*call, Kind::SomePairs, least);
        }
    }

    /// The same for passes that end inside the fixed ticks, with the job ended or not.
    #[track_caller]
    pub fn wants_inside(&self, least: u64) {
        self.wants_kind(Call::Pass, Kind::EndedInFixed, least);
        self.wants_kind(Call::Pass, Kind::WentOnInFixed, least);
    }

    /// Wants that the call was never answered so.
    #[track_caller]
    pub fn wants_never(&self, call: Call, number: u32) {
        let times = self.seen.get(&(call, number)).copied().unwrap_or(0);
        assert_eq!(times, 0, "{call:?} gave {number}");
    }

    /// Wants that this many calls were put to both sides, and prints what came of them.
    #[track_caller]
    pub fn saw(&self, what: &str, least: u64) {
        let all: u64 = self.seen.values().sum();
        println!("{what}: {all} calls");
        for ((call, number), times) in &self.seen {
            println!("    {call:?} {number}: {times}");
        }
        for ((call, kind), times) in &self.kinds {
            println!("    {call:?} {kind:?}: {times}");
        }
        assert!(all >= least, "only {all} calls");
    }

    /// How many calls there are behind the answers counted.
    pub fn times(&self, call: Call) -> u64 {
        let answers = self.seen.iter().filter(|((made, _), _)| *made == call);
        answers.map(|(_, times)| times).sum()
    }
}

/// So many numbers are handed over for each task: its period, its worst case, its fixed ticks and its
/// floor.
pub const NUMBERS: usize = 4;

/// The plan's sixteen tasks; the numbers that are not there are 0.
pub fn tasks_in(numbers: &[u32]) -> Vec<Task> {
    let number = |place: usize| u64::from(numbers.get(place).copied().unwrap_or(0));
    let task = |place| Task {
        period: number(NUMBERS * place),
        worst: number(NUMBERS * place + 1),
        fixed: number(NUMBERS * place + 2),
        floor: number(NUMBERS * place + 3),
    };
    (0..PLACES).map(task).collect()
}

/// What the tasks of an accepted block have, told by its bits: 47 for each task of edition 2, the last
/// eleven of them 8 of fixed ticks and 3 of a floor.
fn additions_in(block: &[u8]) -> Additions {
    match block[0] >> 4 {
        1 => return Additions::None,
        2 => {}
        other => panic!("edition {other} was accepted"),
    }
    let count = usize::from(block[0] & 0x0f) << 1 | usize::from(block[1] >> 7);
    let is_set = |bit: usize| block[bit / 8] >> (7 - bit % 8) & 1 == 1;
    let has = |from: usize, to: usize| {
        let bits = |task: usize| 9 + 47 * task + from..9 + 47 * task + to;
        (0..count).flat_map(bits).any(is_set)
    };
    match (has(36, 44), has(44, 47)) {
        (false, false) => panic!("edition 2 was accepted without an addition"),
        (true, false) => Additions::Fixed,
        (false, true) => Additions::Floors,
        (true, true) => Additions::Both,
    }
}

fn as_judged(judged: plan::Judged) -> Judged {
    Judged {
        level: judged.nominal as u64,
        hyperperiod: judged.hyperperiod,
    }
}

/// Lends buffers of this length to both sides, marked in both ways. What was there before must not
/// matter to what is written.
#[track_caller]
fn same_bytes(
    room: usize,
    library: impl Fn(&mut [u8]) -> Result<u64, u32>,
    simulator: impl Fn(&mut [u8]) -> Result<usize, u32>,
    what: &impl Fn() -> String,
) -> Result<Vec<u8>, u32> {
    let first = same_bytes_over(MARKS[0], room, &library, &simulator, what);
    let second = same_bytes_over(MARKS[1], room, &library, &simulator, what);
    assert_eq!(first, second, "{}, into {room} bytes", what());
    first
}

/// Both sides must answer the same and leave the same bytes, and no byte but the ones written may
/// have changed, within the buffer or around it. Returns the bytes written.
#[track_caller]
fn same_bytes_over(
    mark: u8,
    room: usize,
    library: &impl Fn(&mut [u8]) -> Result<u64, u32>,
    simulator: &impl Fn(&mut [u8]) -> Result<usize, u32>,
    what: &impl Fn() -> String,
) -> Result<Vec<u8>, u32> {
    let lent = MARGIN..MARGIN + room;
    let mut left = vec![mark; MARGIN + room + MARGIN];
    let mut wanted = left.clone();
    let answer = library(&mut left[lent.clone()]);
    let simulated = simulator(&mut wanted[lent]).map(|length| length as u64);
    assert_eq!(answer, simulated, "{}, into {room} bytes", what());
    assert_eq!(left, wanted, "{}, into {room} bytes", what());
    let end = MARGIN + answer.unwrap_or(0) as usize;
    let marked = |bytes: &[u8]| bytes.iter().all(|byte| *byte == mark);
    assert!(
        marked(&left[..MARGIN]) && marked(&left[end..]),
        "{}, into {room} bytes: one that was not written has changed",
        what()
    );
    answer.map(|_| left[MARGIN..end].to_vec())
}
