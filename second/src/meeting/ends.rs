//! Blocks that meet or adjoin at the first address and at the last.

use super::asked::each;
use super::makers::{roomy, Makers};
use super::plan::{Change, Plan};
use super::sequence::ALL;
use super::span::{Base, Spacing, ADJOINING, MEETING};
use crate::rng::Rng;

const COUNTS: [usize; 6] = [2, 3, 9, 33, 65, 129];

/// How far the outermost block lies from the end: as far as each shape needs, and less.
const FAR: [u64; 4] = [0, 1, 2, 3];

/// Blocks of which the one with this rank does not come last.
fn not_last(rng: &mut Rng, count: usize, rank: usize, base: Base) -> Plan {
    loop {
        let sequence = rng.pick(&ALL);
        let plan = Plan { base, spacing: Spacing::Roomy, ..roomy(rng, count, sequence, &[]) };
        if plan.place(rank) < count - 1 {
            return plan;
        }
    }
}

/// A later block is put to the lowest or the highest one: the next, and the last. In each
/// call it is so where the outermost block begins or ends the addresses.
pub fn cases(rng: &mut Rng, makers: &mut Makers) {
    for count in COUNTS {
        for far in FAR {
            for (rank, base) in [(0, Base::At(far)), (count - 1, Base::Below(far))] {
                for shape in MEETING.into_iter().chain(ADJOINING) {
                    let plan = not_last(rng, count, rank, base);
                    let earlier = plan.place(rank);
                    let put = |later: usize| Plan { changes: vec![Change::Put { earlier, later, shape }], ..plan.clone() };
                    makers.add(put(earlier + 1));
                    if earlier + 1 < count - 1 {
                        makers.add(put(count - 1));
                    }
                    if (count, far) == (33, 0) {
                        each().for_each(|(call, ordered)| makers.add_of(call, ordered, put(count - 1)));
                    }
                }
            }
        }
    }
}
