//! The sequences in which the blocks of an image come, told by the ranks of their
//! addresses: 0 is the lowest block.

use crate::rng::Rng;

#[derive(Clone, Copy, Debug, PartialEq, Eq)]
pub enum Sequence {
    Up,
    Down,
    /// As this number says.
    Shuffled(u64),
    /// So many rows, each going up, one above the other. They take turns, and a turn is
    /// this many blocks.
    Rows(usize, usize),
    /// So many rows, each going down, of which one block each comes in turn.
    Falling(usize),
    /// The lowest, the highest, the lowest of the rest, and so on.
    Inwards,
    /// The same from its end: from the middle on, to both sides in turn.
    Outwards,
    /// Going up, each two blocks in each other's place.
    Swapped,
    /// Going up, but that one block comes at another place. Both are told in quarters of
    /// the whole.
    OutOfPlace(usize, usize),
}
use Sequence::*;

/// How many rows there are where blocks come in rows: on both sides of 8 and of 16, where
/// a reader may run out of what it keeps of them.
pub const ROWS: [usize; 7] = [2, 3, 4, 8, 9, 16, 17];
pub const FALLING_ROWS: [usize; 3] = [4, 9, 17];

/// Those in which few blocks, or none, lie clear of all that came before.
pub const MIXED: [Sequence; 6] = [Shuffled(1), Shuffled(2), Swapped, Rows(9, 1), Rows(17, 1), Inwards];

pub const ALL: [Sequence; 32] = [
    Up,
    Down,
    Shuffled(1),
    Shuffled(2),
    Rows(2, 1),
    Rows(3, 1),
    Rows(4, 1),
    Rows(8, 1),
    Rows(9, 1),
    Rows(16, 1),
    Rows(17, 1),
    Rows(2, 5),
    Rows(3, 7),
    Rows(4, 3),
    Rows(8, 2),
    Rows(9, 2),
    Rows(16, 2),
    Rows(17, 2),
    Rows(2, 32),
    Rows(4, 33),
    Falling(4),
    Falling(9),
    Falling(17),
    Inwards,
    Outwards,
    Swapped,
    OutOfPlace(0, 4),
    OutOfPlace(4, 0),
    OutOfPlace(2, 4),
    OutOfPlace(2, 0),
    OutOfPlace(1, 3),
    OutOfPlace(3, 1),
];

/// Each row begins where the one below it ends.
fn in_turns(count: usize, rows: usize, turn: usize) -> Vec<usize> {
    let row = |place: usize| place / turn % rows;
    let mut next = Vec::new();
    let mut below = 0;
    for this in 0..rows {
        next.push(below);
        below += (0..count).filter(|&place| row(place) == this).count();
    }
    let rank = |place: usize| {
        next[row(place)] += 1;
        next[row(place)] - 1
    };
    (0..count).map(rank).collect()
}

impl Sequence {
    /// Of the block at each place its rank.
    pub fn ranks(self, count: usize) -> Vec<usize> {
        let mut ranks: Vec<usize> = (0..count).collect();
        match self {
            Up => {}
            Down => ranks.reverse(),
            Shuffled(number) => Rng::new(number, count as u64).shuffle(&mut ranks),
            Rows(rows, turn) => ranks = in_turns(count, rows, turn),
            Falling(rows) => ranks = in_turns(count, rows, 1).into_iter().map(|rank| count - 1 - rank).collect(),
            Inwards => ranks = (0..count).map(|i| if i % 2 == 0 { i / 2 } else { count - 1 - i / 2 }).collect(),
            Outwards => {
                ranks = Inwards.ranks(count);
                ranks.reverse();
            }
            Swapped => ranks.chunks_mut(2).for_each(<[usize]>::reverse),
            OutOfPlace(from, to) if count > 0 => {
                let quarters = |quarters: usize| quarters * (count - 1) / 4;
                let rank = ranks.remove(quarters(from));
                ranks.insert(quarters(to), rank);
            }
            OutOfPlace(..) => {}
        }
        ranks
    }
}

#[cfg(test)]
mod tests {
    use super::*;

    #[test]
    fn written_down_by_hand() {
        assert_eq!(Down.ranks(4), [3, 2, 1, 0]);
        assert_eq!(Rows(2, 1).ranks(5), [0, 3, 1, 4, 2]);
        assert_eq!(Rows(3, 1).ranks(7), [0, 3, 5, 1, 4, 6, 2]);
        assert_eq!(Rows(2, 2).ranks(7), [0, 1, 4, 5, 2, 3, 6]);
        assert_eq!(Falling(2).ranks(5), [4, 1, 3, 0, 2]);
        assert_eq!(Inwards.ranks(5), [0, 4, 1, 3, 2]);
        assert_eq!(Outwards.ranks(5), [2, 3, 1, 4, 0]);
        assert_eq!(Swapped.ranks(5), [1, 0, 3, 2, 4]);
        assert_eq!(OutOfPlace(0, 4).ranks(5), [1, 2, 3, 4, 0]);
        assert_eq!(OutOfPlace(3, 1).ranks(5), [0, 3, 1, 2, 4]);
    }

    #[test]
    fn every_rank_comes_once() {
        for sequence in ALL {
            for count in (0..70).chain([1000]) {
                let mut ranks = sequence.ranks(count);
                ranks.sort();
                assert!(ranks.into_iter().eq(0..count), "{sequence:?} {count}");
            }
        }
    }
}
