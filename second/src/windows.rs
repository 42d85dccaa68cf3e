//! Windows around a stretch of addresses: fitting, too small, misplaced, and
//! against rule 28.

use crate::answer::ADDRESSES;
use crate::fill::GUARDED_MOST;
use crate::rng::Rng;

pub struct Window {
    pub base: u64,
    pub length: u64,
    /// Whether the whole stretch lies in the window; not known when `None`.
    pub holds: Option<bool>,
    /// Whether rule 28 refuses it.
    pub refused: bool,
}

fn window(base: u64, length: u64, holds: bool) -> Window {
    Window { base, length, holds: Some(holds), refused: false }
}

fn refused(base: u64, length: u64) -> Window {
    Window { base, length, holds: None, refused: true }
}

/// A window that rule 28 refuses.
pub fn against_28(rng: &mut Rng) -> Window {
    let length = rng.range(1, 100);
    match rng.below(10) {
        0 => refused(ADDRESSES - length + 1, length),
        1 => refused(ADDRESSES + 1, 0),
        2 => refused(ADDRESSES, length),
        // sums that leave 64 bits
        3 => refused(u64::MAX, length),
        4 => refused(u64::MAX - length + 1, length),
        5 => refused(ADDRESSES * rng.range(2, 1 << 20), rng.below(3)),
        // lengths over the limit, whose lowest 32 bits are small or not
        6 if rng.one_in(8) => refused(rng.below(1000), ADDRESSES + length),
        7 if rng.one_in(8) => refused(rng.below(1000), GUARDED_MOST + length),
        8 => refused(rng.range(ADDRESSES + 1, u64::MAX), length),
        _ => refused(ADDRESSES + rng.range(1, 0x1000), rng.below(100)),
    }
}

/// A window for blocks from `low` up to but without `high`.
pub fn around(rng: &mut Rng, low: u64, high: u64) -> Window {
    let span = high - low;
    if span > 100_000 {
        // Too large to be lent often: only a part of it.
        return Window { base: low, length: rng.below(1000), holds: None, refused: false };
    }
    match rng.below(12) {
        0..=2 => window(low, span, true),
        3..=6 => {
            let base = low - rng.below(40).min(low);
            let end = (high + rng.below(40)).min(ADDRESSES);
            window(base, end - base, true)
        }
        7 if span > 0 => window(low, span - 1, false),
        8 if span > 0 => window(low + 1, span - 1, false),
        9 if span > 0 => {
            let base = low + rng.below(span + 3);
            let length = rng.below(50).min(ADDRESSES.saturating_sub(base));
            Window { base, length, holds: None, refused: base + length > ADDRESSES }
        }
        10 => against_28(rng),
        _ => {
            // at the top: the window ends at 2^32
            let base = ADDRESSES - rng.below(100);
            Window { base, length: ADDRESSES - base, holds: None, refused: false }
        }
    }
}
