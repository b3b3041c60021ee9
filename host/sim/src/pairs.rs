//! 02, No. 5: the list of pairs that "comes with the plan at starting", and question 22 about it. It
//! is asked and then done with: no order depends on the list, and the state has no place for it. What
//! a good one promises of a run is in `books`.

use crate::plan::Task;

/// "A list of up to 16 pairs (earlier, later), one byte a number".
pub const MOST_PAIRS: usize = 16;
pub const PAIR_BYTES: usize = 2;

/// "one task reads what another wrote": the later task what the earlier one did.
#[derive(Clone, Copy, PartialEq, Eq, PartialOrd, Ord, Debug)]
pub struct Pair {
    pub earlier: usize,
    pub later: usize,
}

/// Reading the list that comes with these tasks: "22 list too long, an odd byte or a pair not good".
/// It may be empty, and a pair may stand in it twice.
pub fn read_pairs(tasks: &[Task], list: &[u8]) -> Result<Vec<Pair>, u32> {
    let too_long = list.len() > PAIR_BYTES * MOST_PAIRS;
    let odd_byte = list.len() % PAIR_BYTES != 0;
    if too_long || odd_byte {
        return Err(22);
    }
    let pairs = pairs_in(list);
    if pairs.iter().all(|pair| is_good(tasks, *pair)) {
        Ok(pairs)
    } else {
        Err(22)
    }
}

/// The pairs as they stand in a list, good or not. An odd byte at the end is none.
pub fn pairs_in(list: &[u8]) -> Vec<Pair> {
    let pair = |bytes: &[u8]| Pair {
        earlier: usize::from(bytes[0]),
        later: usize::from(bytes[1]),
    };
    list.chunks_exact(PAIR_BYTES).map(pair).collect()
}

/// A list of these pairs, whatever is in them. Their numbers must fit into a byte.
pub fn pack_pairs(pairs: &[Pair]) -> Vec<u8> {
    let bytes = |pair: &Pair| [pair.earlier as u8, pair.later as u8];
    pairs.iter().flat_map(bytes).collect()
}

/// "A pair is good if both task numbers exist, the later task's period is a multiple of the earlier's,
/// and where the periods are equal the earlier has the lower number." So no task is in a pair with
/// itself.
pub fn is_good(tasks: &[Task], pair: Pair) -> bool {
    let Pair { earlier, later } = pair;
    if earlier >= tasks.len() || later >= tasks.len() {
        return false;
    }
    let (first, second) = (tasks[earlier].period, tasks[later].period);
    second % first == 0 && (second != first || earlier < later)
}
