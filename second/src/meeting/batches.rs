//! Batches of later blocks, as a reader may go through the earlier ones once for all of a
//! batch: counts on both sides of whole ones, and the places at their borders.

/// How many blocks such a batch has. Half of the greater one is the lesser.
pub const BATCHES: [usize; 2] = [32, 64];

/// Both sides of the small counts, of 8 and 16, and of one to four batches.
pub const COUNTS: [usize; 29] =
    [0, 1, 2, 3, 7, 8, 9, 10, 15, 16, 17, 31, 32, 33, 63, 64, 65, 95, 96, 97, 127, 128, 129, 191, 192, 193, 255, 256, 257];

/// A count far over them, and the greatest.
pub const LARGE_COUNTS: [usize; 2] = [1000, 4096];

/// Pairs of an earlier and a later place, at the ends of each batch and of the whole.
pub fn pairs(count: usize) -> Vec<(usize, usize)> {
    let mut all = Vec::new();
    let mut add = |earlier: usize, later: usize| {
        if earlier < later && later < count {
            all.push((earlier, later));
        }
    };
    let end = count.saturating_sub(1);
    for batch in BATCHES {
        for first in (0..count).step_by(batch) {
            let last = (first + batch).min(count) - 1;
            let before = first.saturating_sub(1);
            for later in [first, first + 1, last, end] {
                for earlier in [0, before, first, last.saturating_sub(1), last] {
                    add(earlier, later);
                }
            }
        }
    }
    for border in [8, 9, 16] {
        for (earlier, later) in [(0, border), (border - 1, border), (border, border + 1), (border, end)] {
            add(earlier, later);
        }
    }
    all.sort();
    all.dedup();
    all
}

#[cfg(test)]
mod tests {
    use super::pairs;

    #[test]
    fn ends_of_a_batch_and_of_the_whole() {
        assert_eq!(pairs(1), []);
        assert_eq!(pairs(2), [(0, 1)]);
        for pair in [(0, 31), (31, 32), (32, 33), (32, 63), (63, 64), (0, 64), (30, 31), (31, 63)] {
            assert!(pairs(65).contains(&pair), "{pair:?}");
        }
    }
}
