//! Load ranges: such as do not meet, by rank, and one put to another in each way that
//! counts.

use crate::answer::ADDRESSES;

/// From the first address up to the end, which is one more than the last.
#[derive(Clone, Copy, Debug, PartialEq, Eq)]
pub struct Span {
    pub first: u64,
    pub end: u64,
}

impl Span {
    pub fn size(self) -> u64 {
        self.end - self.first
    }
}

#[derive(Clone, Copy, Debug, PartialEq, Eq)]
pub enum Spacing {
    /// Each ends where the next begins.
    Tight,
    /// With room on both sides for a block put there.
    Roomy,
    /// The same, over all addresses: the lowest begins at 0, the highest ends at 2^32.
    Wide,
}

#[derive(Clone, Copy, Debug, PartialEq, Eq)]
pub enum Base {
    /// The lowest begins at this address.
    At(u64),
    /// The highest ends this far below 2^32.
    Below(u64),
    /// Around 2^31, where a number with a sign turns over.
    Middle,
}

/// One byte among them, and sizes that leave each padding.
const SIZES: [u64; 9] = [1, 4, 2, 7, 3, 8, 1, 5, 6];
/// Three bytes at least, so that one more fits inside with both ends free.
const ROOMY_SIZES: [u64; 9] = [3, 4, 7, 5, 8, 3, 20, 6, 9];
/// Twice what the largest shape needs beside a block, and more.
const ROOM: u64 = 8;

/// By rank.
pub fn spans(count: usize, spacing: Spacing, base: Base) -> Vec<Span> {
    let sizes = if spacing == Spacing::Tight { SIZES } else { ROOMY_SIZES };
    let size = |rank: usize| sizes[rank % sizes.len()];
    let total: u64 = (0..count).map(size).sum();
    let gaps = count.saturating_sub(1) as u64;
    let gap = match spacing {
        Spacing::Tight => 0,
        Spacing::Roomy => ROOM,
        Spacing::Wide => (ADDRESSES - total) / gaps.max(1),
    };
    let whole = total + gaps * gap;
    let mut first = match base {
        _ if spacing == Spacing::Wide => 0,
        Base::At(address) => address,
        Base::Below(far) => ADDRESSES - far - whole,
        Base::Middle => ADDRESSES / 2 - whole / 2,
    };
    let mut all = Vec::new();
    for rank in 0..count {
        all.push(Span { first, end: first + size(rank) });
        first += size(rank) + gap;
    }
    if let (Spacing::Wide, Some(last)) = (spacing, all.last_mut()) {
        // What the division left over goes below the highest.
        *last = Span { first: ADDRESSES - last.size(), end: ADDRESSES };
    }
    all
}

/// How a later block is put to an earlier one.
#[derive(Clone, Copy, Debug, PartialEq, Eq)]
pub enum Shape {
    /// Its last byte is the first of the earlier one.
    FromBelow,
    /// Its first byte is the last of the earlier one.
    FromAbove,
    Equal,
    /// One byte more at both ends.
    Contains,
    /// One byte less at both ends.
    Inside,
    /// One byte more at one end.
    LongerBelow,
    LongerAbove,
    /// One byte in all.
    FirstByte,
    LastByte,
    /// It ends where the earlier one begins, and they do not meet.
    EndsBefore,
    ByteBefore,
    /// It begins where the earlier one ends.
    BeginsBehind,
    ByteBehind,
}
use Shape::*;

pub const MEETING: [Shape; 9] = [FromBelow, FromAbove, Equal, Contains, Inside, LongerBelow, LongerAbove, FirstByte, LastByte];
pub const ADJOINING: [Shape; 4] = [EndsBefore, BeginsBehind, ByteBefore, ByteBehind];

impl Shape {
    pub fn meets(self) -> bool {
        MEETING.contains(&self)
    }

    /// None where there are no such addresses.
    pub fn put(self, to: Span) -> Option<Span> {
        let below = |bytes: u64| to.first.checked_sub(bytes);
        let (first, end) = match self {
            FromBelow => (below(2)?, to.first + 1),
            FromAbove => (to.end - 1, to.end + 2),
            Equal => (to.first, to.end),
            Contains => (below(1)?, to.end + 1),
            Inside => (to.first + 1, to.end - 1),
            LongerBelow => (below(1)?, to.end),
            LongerAbove => (to.first, to.end + 1),
            FirstByte => (to.first, to.first + 1),
            LastByte => (to.end - 1, to.end),
            EndsBefore => (below(3)?, to.first),
            ByteBefore => (below(1)?, to.first),
            BeginsBehind => (to.end, to.end + 3),
            ByteBehind => (to.end, to.end + 1),
        };
        (first < end && end <= ADDRESSES).then_some(Span { first, end })
    }
}
