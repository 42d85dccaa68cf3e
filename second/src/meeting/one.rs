//! Images in which no blocks meet, and such in which exactly two do.

use super::asked::each;
use super::batches::{pairs, COUNTS, LARGE_COUNTS};
use super::makers::{roomy, tight, Makers};
use super::plan::Change;
use super::sequence::{Sequence, ALL, MIXED};
use super::span::{Shape, ADJOINING, MEETING};
use crate::rng::Rng;

/// Each sequence of each count, adjoining and with room, each call once.
pub fn none_meet(rng: &mut Rng, makers: &mut Makers) {
    for count in COUNTS {
        for sequence in ALL {
            for adjoining in [true, true, false, false] {
                let make = if adjoining { tight } else { roomy };
                makers.add(make(rng, count, sequence, &[]));
            }
        }
    }
}

/// One block takes a byte of the one that it lies beside: the sequence stays as it was.
/// Once beside each block, and in each count beside the one that comes last.
pub fn grown(rng: &mut Rng, makers: &mut Makers) {
    const COUNT: usize = 129;
    for sequence in ALL {
        for rank in 0..COUNT - 1 {
            let change = Change::Grow { rank, upper: rng.one_in(2) };
            makers.add(tight(rng, COUNT, sequence, &[change]));
        }
    }
    for count in COUNTS.into_iter().filter(|&count| count > 1) {
        for sequence in ALL {
            let last = sequence.ranks(count)[count - 1];
            let rank = if last == count - 1 || last > 0 && rng.one_in(2) { last - 1 } else { last };
            let change = Change::Grow { rank, upper: rng.one_in(2) };
            makers.add(tight(rng, count, sequence, &[change]));
        }
    }
}

/// A shape that makes them meet, but one in so many times one that does not.
fn shape(rng: &mut Rng, adjoins: u64) -> Shape {
    if rng.one_in(adjoins) {
        rng.pick(&ADJOINING)
    } else {
        rng.pick(&MEETING)
    }
}

/// The last block is put to each other one, a byte into it from below and from above, or
/// beside it: what a reader keeps of the earlier ones must have all of them.
pub fn to_each(rng: &mut Rng, makers: &mut Makers) {
    const COUNT: usize = 97;
    for sequence in ALL {
        for earlier in 0..COUNT - 1 {
            let mut shapes = vec![Shape::FromBelow, Shape::FromAbove];
            if rng.one_in(3) {
                shapes.push(rng.pick(&ADJOINING));
            }
            for shape in shapes {
                let change = Change::Put { earlier, later: COUNT - 1, shape };
                makers.add(roomy(rng, COUNT, sequence, &[change]));
            }
        }
    }
}

/// Each block is put to the first, to the one before it, to one about a batch before it, and
/// to any. Wherever the batches of a reader begin, both are in one of them or not.
pub fn each_to_some(rng: &mut Rng, makers: &mut Makers) {
    const COUNT: usize = 161;
    let others = [Sequence::Up, Sequence::Down, Sequence::Outwards, Sequence::Rows(8, 2)];
    for sequence in MIXED.into_iter().chain(others) {
        for later in 1..COUNT {
            let back = rng.pick(&[31, 32, 63, 64]);
            let mut places = vec![0, later - 1, later.saturating_sub(back), rng.index(later)];
            places.sort();
            places.dedup();
            for earlier in places {
                let change = Change::Put { earlier, later, shape: shape(rng, 6) };
                makers.add(roomy(rng, COUNT, sequence, &[change]));
            }
        }
    }
}

/// In each count, places at the ends of batches; in some counts all such places in each
/// call.
pub fn at_borders(rng: &mut Rng, makers: &mut Makers) {
    for count in COUNTS {
        let pairs = pairs(count);
        let cases = if pairs.is_empty() { 0 } else { 60.max(2 * pairs.len()) };
        for &(earlier, later) in pairs.iter().cycle().take(cases) {
            let (sequence, shape) = (rng.pick(&ALL), shape(rng, 6));
            makers.add(roomy(rng, count, sequence, &[Change::Put { earlier, later, shape }]));
        }
    }
    // The last batch lacks one block, is whole, or has one.
    for count in [95, 128, 129] {
        for (earlier, later) in pairs(count) {
            for (call, ordered) in each() {
                let (sequence, shape) = (rng.pick(&ALL), rng.pick(&MEETING));
                makers.add_of(call, ordered, roomy(rng, count, sequence, &[Change::Put { earlier, later, shape }]));
            }
        }
    }
}

/// So many blocks that each case costs time: few cases for each call. No blocks meet, any two
/// that lie side by side do, the last meets the first and the one before it, or two meet at
/// the ends of batches.
pub fn of_many(rng: &mut Rng, makers: &mut Makers) {
    for (count, rounds) in LARGE_COUNTS.into_iter().zip([4, 1]) {
        let borders = pairs(count);
        for (call, ordered) in (0..rounds).flat_map(|_| each()) {
            let (sequence, rank) = (rng.pick(&ALL), rng.index(count - 1));
            let grow = Change::Grow { rank, upper: rng.one_in(2) };
            makers.add_of(call, ordered, tight(rng, count, sequence, &[]));
            makers.add_of(call, ordered, tight(rng, count, sequence, &[grow]));
            let last = count - 1;
            for (earlier, later) in [(0, last), (last - 1, last), rng.pick(&borders)] {
                let (sequence, shape) = (rng.pick(&ALL), rng.pick(&MEETING));
                makers.add_of(call, ordered, roomy(rng, count, sequence, &[Change::Put { earlier, later, shape }]));
            }
        }
    }
}
