//! The cases of the group as they are collected: each call comes as often as the others,
//! and no case comes twice.

use std::collections::HashSet;

use super::asked::{case, Asked, ASKED};
use super::plan::{Change, Plan};
use super::sequence::{Sequence, ALL};
use super::span::{Base, Spacing};
use crate::calls::Call;
use crate::edges::Maker;
use crate::order::ORDERS;
use crate::rng::Rng;

pub struct Makers {
    pub all: Vec<Maker>,
    /// Draws what is asked, and nothing of the images.
    rng: Rng,
    /// The calls that are still to come before all four come again.
    left: Vec<Call>,
    seen: HashSet<String>,
}

const BASES: [Base; 3] = [Base::At(0), Base::Below(0), Base::Middle];

/// Blocks with room beside them: in one of four all over the addresses, else together at one
/// end or around the middle.
pub fn roomy(rng: &mut Rng, count: usize, sequence: Sequence, changes: &[Change]) -> Plan {
    let spacing = if rng.one_in(4) { Spacing::Wide } else { Spacing::Roomy };
    Plan { count, sequence, spacing, base: rng.pick(&BASES), run_at_one: rng.one_in(2), changes: changes.to_vec() }
}

/// Blocks that adjoin.
pub fn tight(rng: &mut Rng, count: usize, sequence: Sequence, changes: &[Change]) -> Plan {
    Plan { spacing: Spacing::Tight, ..roomy(rng, count, sequence, changes) }
}

/// Plans of the same image become one: few blocks come alike in several sequences, and
/// blocks all over the addresses have no base.
fn one_of_alike(plan: Plan) -> Plan {
    let ranks = plan.sequence.ranks(plan.count);
    let sequence = ALL.into_iter().find(|other| other.ranks(plan.count) == ranks).unwrap_or(plan.sequence);
    match plan.spacing {
        _ if plan.count == 0 => Plan { sequence, spacing: Spacing::Tight, base: Base::At(0), run_at_one: false, ..plan },
        Spacing::Wide => Plan { sequence, base: Base::At(0), ..plan },
        _ => Plan { sequence, ..plan },
    }
}

impl Makers {
    pub fn new(seed: u64) -> Makers {
        Makers { all: Vec::new(), rng: Rng::new(seed, 85), left: Vec::new(), seen: HashSet::new() }
    }

    /// This call, with less than it needs in one of seven times. Reading needs nothing.
    pub fn asked(&mut self, call: Call, ordered: bool) -> Asked {
        let order = ordered.then(|| self.rng.pick(&ORDERS));
        Asked { call, order, refused: call != Call::Read && self.rng.one_in(7) }
    }

    /// This call on the image of this plan, if there is such an image.
    pub fn add_of(&mut self, call: Call, ordered: bool, plan: Plan) {
        if !plan.fits() {
            return;
        }
        let mut asked = self.asked(call, ordered);
        // With no block no call has less than it needs.
        asked.refused &= plan.count > 0;
        let plan = one_of_alike(plan);
        if self.seen.insert(format!("{asked:?} {plan:?}")) {
            self.all.push(Box::new(move || case(asked, &plan)));
        }
    }

    /// One of the four calls, which come in rounds. In one of five times it is told an order.
    pub fn add(&mut self, plan: Plan) {
        if self.left.is_empty() {
            self.left = ASKED.to_vec();
            self.rng.shuffle(&mut self.left);
        }
        let call = self.left.pop().expect("four calls a round");
        let ordered = self.rng.one_in(5);
        self.add_of(call, ordered, plan);
    }
}
