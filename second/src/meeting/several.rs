//! Images in which more than two blocks meet: the first later one counts, whichever pair
//! is found first.

use super::asked::each;
use super::batches::BATCHES;
use super::makers::{roomy, tight, Makers};
use super::plan::Change;
use super::sequence::{ALL, MIXED};
use super::span::{Shape, MEETING};
use crate::rng::Rng;

/// Enough for whole batches and a part of one.
const COUNTS: [usize; 5] = [33, 65, 97, 129, 193];

/// Two pairs, each of an earlier and a later place, the first later one first.
type Pairs = [(usize, usize); 2];

/// How many ways the next function has.
const WAYS: usize = 6;

/// What may lead to the second later block instead of the first, which is in a batch from
/// `start` up to `end`.
fn pairs(rng: &mut Rng, way: usize, start: usize, end: usize) -> Pairs {
    // One of the batch comes before the first later block, and one behind it.
    let first = rng.range(start as u64 + 2, end as u64 - 2) as usize;
    let second = rng.range(first as u64 + 1, end as u64 - 1) as usize;
    let any = rng.range(1, first as u64 - 1) as usize;
    let of_batch = rng.range(start as u64, first as u64 - 1) as usize;
    match way {
        // Going through the earlier blocks, the second one's is found first.
        0 => [(any, first), (rng.index(any), second)],
        // The first one's is in the batch, and the second one's before it.
        1 => [(of_batch, first), (rng.index(start), second)],
        2 => [(rng.index(start), first), (of_batch, second)],
        3 => [(any, first), (any, second)],
        // The second one meets the first, which was put elsewhere.
        4 => [(any, first), (first, second)],
        // The second one is behind the batch.
        _ => [(any, first), (rng.index(any), end)],
    }
}

fn two_later(rng: &mut Rng, makers: &mut Makers) {
    for batch in BATCHES {
        for way in 0..WAYS {
            for (call, ordered) in (0..16).flat_map(|_| each()) {
                let count = rng.pick(&[2 * batch + 1, 2 * batch + 17, 3 * batch + 1]);
                let start = batch * rng.range(1, (count / batch - 1) as u64) as usize;
                let pairs = pairs(rng, way, start, start + batch);
                let changes = pairs.map(|(earlier, later)| Change::Put { earlier, later, shape: rng.pick(&MEETING) });
                let sequence = if rng.one_in(2) { rng.pick(&MIXED) } else { rng.pick(&ALL) };
                makers.add_of(call, ordered, roomy(rng, count, sequence, &changes));
            }
        }
    }
}

/// From each place on, all blocks are equal to an earlier one, or every third is.
fn from_a_place_on(rng: &mut Rng, makers: &mut Makers) {
    const COUNT: usize = 129;
    for first in 1..COUNT {
        for step in [1, 3] {
            let (earlier, sequence) = (rng.index(first), rng.pick(&ALL));
            let put = |later: usize| Change::Put { earlier, later, shape: Shape::Equal };
            let changes: Vec<Change> = (first..COUNT).step_by(step).map(put).collect();
            makers.add(roomy(rng, COUNT, sequence, &changes));
        }
    }
}

/// One block takes the addresses of several others: the last, the first, or one between.
fn covering(rng: &mut Rng, makers: &mut Makers) {
    for count in COUNTS {
        for at in [0, 1, count / 2, count - 2, count - 1] {
            for most in [2, 3, 30, count] {
                for (call, ordered) in each() {
                    let low = rng.index(count - most + 1);
                    let (high, sequence) = (low + most - 1, rng.pick(&ALL));
                    makers.add_of(call, ordered, tight(rng, count, sequence, &[Change::Cover { at, low, high }]));
                }
            }
        }
    }
}

pub fn cases(rng: &mut Rng, makers: &mut Makers) {
    two_later(rng, makers);
    from_a_place_on(rng, makers);
    covering(rng, makers);
}
