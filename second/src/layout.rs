//! Addresses for blocks of given sizes, such that no load ranges meet.

use crate::answer::ADDRESSES;
use crate::rng::Rng;

/// Load and run addresses, in the order of the sizes.
pub struct Layout {
    pub loads: Vec<u32>,
    pub runs: Vec<u32>,
}

/// Where a stretch of this length begins: at the ends of the address range,
/// around 2^31, or anywhere.
fn start(rng: &mut Rng, span: u64) -> u64 {
    match rng.below(8) {
        0 => 0,
        1 | 2 => ADDRESSES - span,
        3 => (ADDRESSES / 2).saturating_sub(span / 2).min(ADDRESSES - span),
        4 => 0x400.min(ADDRESSES - span),
        _ => rng.range(0, ADDRESSES - span),
    }
}

/// Blocks lie one after the other in any order, often without a gap. An empty
/// size must not be among them.
pub fn layout(rng: &mut Rng, sizes: &[u64]) -> Layout {
    let mut order: Vec<usize> = (0..sizes.len()).collect();
    if rng.one_in(2) {
        rng.shuffle(&mut order);
    }
    let mut offsets = vec![0; sizes.len()];
    let mut span = 0;
    for (rank, &i) in order.iter().enumerate() {
        if rank > 0 && rng.one_in(2) {
            span += rng.range(1, 16);
        }
        offsets[i] = span;
        span += sizes[i];
    }
    let base = start(rng, span);
    let loads: Vec<u32> = offsets.iter().map(|o| (base + o) as u32).collect();

    let way = rng.below(6);
    let run_base = match way {
        2 => ADDRESSES - span,
        _ => start(rng, span),
    };
    let runs = (0..sizes.len())
        .map(|i| match way {
            // the same address for both
            0 => loads[i],
            // one distance for all, so that neighbours can be joined
            1 | 2 => (run_base + offsets[i]) as u32,
            // each ends at 2^32
            3 => (ADDRESSES - sizes[i]) as u32,
            // all run at one place, one after the other
            4 => run_base.min(ADDRESSES - sizes[i]) as u32,
            _ => rng.range(0, ADDRESSES - sizes[i]) as u32,
        })
        .collect();
    Layout { loads, runs }
}

/// Sizes of which most are small and many no multiple of four.
pub fn size(rng: &mut Rng, least: u64) -> u64 {
    let most = match rng.below(12) {
        0..=7 => 9,
        8..=10 => 33,
        _ => 120,
    };
    rng.range(least, most)
}
