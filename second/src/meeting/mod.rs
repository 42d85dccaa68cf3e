//! Images of many blocks, for rule 27: two blocks whose load ranges share an address, and
//! the first later one of them. A reader that does not compare all pairs one by one may go
//! wrong in which blocks it compares, in how their ranges lie, and in which index it tells;
//! there are images for each.

mod asked;
mod batches;
mod beside;
mod ends;
mod makers;
mod measure;
mod one;
mod plan;
mod reached;
mod sequence;
mod several;
mod span;

use crate::edges::Maker;
use crate::rng::Rng;

pub use reached::Reached;

/// The name of the group.
pub const GROUP: &str = "meeting";

pub fn makers(seed: u64) -> Vec<Maker> {
    let mut rng = Rng::new(seed, 84);
    let rng = &mut rng;
    let mut makers = makers::Makers::new(seed);
    one::none_meet(rng, &mut makers);
    one::grown(rng, &mut makers);
    one::to_each(rng, &mut makers);
    one::each_to_some(rng, &mut makers);
    one::at_borders(rng, &mut makers);
    one::of_many(rng, &mut makers);
    several::cases(rng, &mut makers);
    ends::cases(rng, &mut makers);
    beside::cases(rng, &mut makers);
    makers.all
}
