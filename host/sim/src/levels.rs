//! 01: "A level is a speed in units per tick." 02, No. 1: the speeds are loaded. Here they are a
//! value that is handed on, so that each rule is written once for every table of them.

/// 02, No. 1: a table has "1 to 8" speeds, each "1 to 1,000".
pub const MOST_LEVELS: u64 = 8;
pub const FASTEST: u64 = 1_000;

pub fn count_in_range(count: u64) -> bool {
    (1..=MOST_LEVELS).contains(&count)
}

/// A table that can be loaded: speeds in units of work per tick. Level n has the speed at place n.
#[derive(Clone, PartialEq, Eq, Debug)]
pub struct Levels {
    speeds: Vec<u64>,
}

impl Levels {
    /// "Levels 0 to 7 are 10, 20, 30, 40, 50, 60, 80, 100."
    pub fn base() -> Levels {
        Levels::new(&[10, 20, 30, 40, 50, 60, 80, 100])
    }

    /// A table of these speeds, which must be ones that can be loaded.
    pub fn new(speeds: &[u64]) -> Levels {
        Levels::of(speeds).unwrap_or_else(|| panic!("{speeds:?} can't be loaded"))
    }

    /// A table of these speeds, or nothing if they can't be loaded: "1 to 8" of them, each "1 to
    /// 1,000 and strictly rising".
    pub fn of(speeds: &[u64]) -> Option<Levels> {
        let in_range = speeds.iter().all(|speed| (1..=FASTEST).contains(speed));
        let rising = speeds.windows(2).all(|pair| pair[0] < pair[1]);
        if !count_in_range(speeds.len() as u64) || !in_range || !rising {
            return None;
        }
        Some(Levels {
            speeds: speeds.to_vec(),
        })
    }

    pub fn count(&self) -> usize {
        self.speeds.len()
    }

    /// All speeds, level 0 first.
    pub fn speeds(&self) -> &[u64] {
        &self.speeds
    }

    pub fn speed(&self, level: usize) -> u64 {
        self.speeds[level]
    }

    /// The highest level.
    pub fn top(&self) -> usize {
        self.count() - 1
    }

    /// The lowest level whose speed will do, if there is one.
    pub fn lowest(&self, will_do: impl Fn(u64) -> bool) -> Option<usize> {
        self.lowest_from(0, will_do)
    }

    /// The same of this level and those above it.
    pub fn lowest_from(&self, floor: usize, will_do: impl Fn(u64) -> bool) -> Option<usize> {
        (floor..self.count()).find(|level| will_do(self.speed(*level)))
    }
}
