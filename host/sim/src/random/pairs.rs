//! Random lists of pairs (02, No. 5): good ones, and ones that are refused with 22.

use super::Random;
use crate::pairs::{is_good, pack_pairs, Pair, MOST_PAIRS};
use crate::plan::Task;

/// All pairs of a plan's own numbers that are good, or all that are not. Of the second kind each plan
/// has some: a task with itself is one.
fn pairs_of(tasks: &[Task], good: bool) -> Vec<Pair> {
    let mut pairs = Vec::new();
    for earlier in 0..tasks.len() {
        for later in 0..tasks.len() {
            let pair = Pair { earlier, later };
            if is_good(tasks, pair) == good {
                pairs.push(pair);
            }
        }
    }
    pairs
}

/// Every good pair of a plan.
pub fn good_pairs(tasks: &[Task]) -> Vec<Pair> {
    pairs_of(tasks, true)
}

/// A good list: often as long as there can be one, and now and then empty, as it always is for a plan
/// without a good pair. A pair may be in it more than once.
pub fn good_list(random: &mut Random, tasks: &[Task]) -> Vec<u8> {
    let most = MOST_PAIRS as u64;
    let any = random.between(0, most);
    let length = random.pick(&[1, any, any, any, most]);
    list_of(random, &good_pairs(tasks), length)
}

/// So many of these pairs; none if there are none.
fn list_of(random: &mut Random, pairs: &[Pair], length: u64) -> Vec<u8> {
    if pairs.is_empty() {
        return Vec::new();
    }
    let picked: Vec<Pair> = (0..length).map(|_| random.pick(pairs)).collect();
    pack_pairs(&picked)
}

/// A list that is refused: with an odd byte, with too many pairs, or with one that isn't good among
/// others that are.
pub fn bad_list(random: &mut Random, tasks: &[Task]) -> Vec<u8> {
    match random.below(4) {
        0 => with_an_odd_byte(random, tasks),
        1 => too_long(random, tasks),
        _ => with_a_bad_pair(random, tasks),
    }
}

/// A good list, or one time of three one that is refused.
pub fn any_list(random: &mut Random, tasks: &[Task]) -> Vec<u8> {
    if random.one_in(3) {
        bad_list(random, tasks)
    } else {
        good_list(random, tasks)
    }
}

/// A byte more, or one less if there is one.
fn with_an_odd_byte(random: &mut Random, tasks: &[Task]) -> Vec<u8> {
    let mut list = good_list(random, tasks);
    if random.one_in(2) || list.pop().is_none() {
        list.push(random.place(tasks.len()) as u8);
    }
    list
}

/// Good pairs if the plan has some, else any of its numbers.
fn too_long(random: &mut Random, tasks: &[Task]) -> Vec<u8> {
    let most = MOST_PAIRS as u64;
    let any = random.between(most + 1, 300);
    let length = random.pick(&[most + 1, most + 1, any]);
    let good = good_pairs(tasks);
    let pairs = match good.is_empty() {
        true => pairs_of(tasks, false),
        false => good,
    };
    list_of(random, &pairs, length)
}

/// One pair that isn't good at any place of a list, the last place often.
fn with_a_bad_pair(random: &mut Random, tasks: &[Task]) -> Vec<u8> {
    let mut pairs = Vec::new();
    let good = good_pairs(tasks);
    if !good.is_empty() {
        let others = random.below(MOST_PAIRS as u64);
        pairs.extend((0..others).map(|_| random.pick(&good)));
    }
    let place = match random.one_in(2) {
        true => pairs.len(),
        false => random.place(pairs.len() + 1),
    };
    pairs.insert(place, bad_pair(random, tasks));
    pack_pairs(&pairs)
}

/// A pair of the plan's numbers that isn't good, or one with a number that no task has.
fn bad_pair(random: &mut Random, tasks: &[Task]) -> Pair {
    let mut pair = random.pick(&pairs_of(tasks, false));
    if random.one_in(3) {
        let count = tasks.len();
        let past = random.between(count as u64, 255) as usize;
        let number = random.pick(&[count, count, past, 255]);
        match random.one_in(2) {
            true => pair.earlier = number,
            false => pair.later = number,
        }
    }
    pair
}
