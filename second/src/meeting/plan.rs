//! One image of many blocks: how many there are, in which sequence and where they lie,
//! and what is then changed so that some of them meet, or so that none do.

use super::sequence::Sequence;
use super::span::{spans, Base, Shape, Spacing, Span};
use crate::make::{Image, Piece};

pub const ENTRY: u32 = 0x8123_4567;

/// Run addresses are no part of the rule, so that blocks may all run at one place.
const RUN: u32 = 0x100;

#[derive(Clone, Copy, Debug, PartialEq, Eq)]
pub enum Change {
    /// The block at the later place is put to the one at the earlier place.
    Put { earlier: usize, later: usize, shape: Shape },
    /// Of the blocks with this rank and the next, the lower or the upper one takes one byte
    /// of the other, beside which it lies.
    Grow { rank: usize, upper: bool },
    /// The block at this place takes all from one rank up to another.
    Cover { at: usize, low: usize, high: usize },
}

#[derive(Clone, Debug)]
pub struct Plan {
    pub count: usize,
    pub sequence: Sequence,
    pub spacing: Spacing,
    pub base: Base,
    /// All run at one place; else each where it is loaded.
    pub run_at_one: bool,
    pub changes: Vec<Change>,
}

impl Plan {
    pub fn what(&self) -> String {
        let Plan { count, sequence, spacing, base, changes, .. } = self;
        format!("{count} blocks, {sequence:?}, {spacing:?} {base:?}, {changes:?}")
    }

    /// Of each rank the place at which it comes.
    fn places(&self) -> Vec<usize> {
        let mut places = vec![0; self.count];
        for (place, rank) in self.sequence.ranks(self.count).into_iter().enumerate() {
            places[rank] = place;
        }
        places
    }

    /// Where the block with this rank comes.
    pub fn place(&self, rank: usize) -> usize {
        self.places()[rank]
    }

    /// By place, before anything is changed: no two meet.
    fn unchanged(&self) -> Vec<Span> {
        let by_rank = spans(self.count, self.spacing, self.base);
        self.sequence.ranks(self.count).into_iter().map(|rank| by_rank[rank]).collect()
    }

    /// By place. None where a block would leave the addresses.
    fn changed(&self) -> Option<Vec<Span>> {
        let by_rank = spans(self.count, self.spacing, self.base);
        let places = self.places();
        let mut all = self.unchanged();
        for change in &self.changes {
            match *change {
                Change::Put { earlier, later, shape } => all[later] = shape.put(all[earlier])?,
                Change::Grow { rank, upper: true } => all[places[rank + 1]].first -= 1,
                Change::Grow { rank, upper: false } => all[places[rank]].end += 1,
                Change::Cover { at, low, high } => all[at] = Span { first: by_rank[low].first, end: by_rank[high].end },
            }
        }
        Some(all)
    }

    pub fn fits(&self) -> bool {
        self.changed().is_some()
    }

    /// The places of two blocks that a change makes meet.
    fn pairs(&self, change: Change) -> Vec<(usize, usize)> {
        let places = self.places();
        match change {
            Change::Put { earlier, later, shape } if shape.meets() => vec![(earlier, later)],
            Change::Put { .. } => Vec::new(),
            Change::Grow { rank, .. } => vec![(places[rank], places[rank + 1])],
            Change::Cover { at, low, high } => {
                let others = places[low..=high].iter().filter(|&&place| place != at);
                others.map(|&place| (at, place)).collect()
            }
        }
    }

    /// The index of rule 27 as the changes have it: of the pairs that they make meet, the
    /// first later place.
    pub fn index(&self) -> Option<usize> {
        let pairs = self.changes.iter().flat_map(|&change| self.pairs(change));
        pairs.map(|(a, b)| a.max(b)).min()
    }

    fn image_of(&self, spans: &[Span]) -> Image {
        let piece = |(place, span): (usize, &Span)| {
            let data: Vec<u8> = (0..span.size()).map(|k| (place as u64 * 31 + k * 7 + 1) as u8).collect();
            let load = span.first as u32;
            Piece::new(load, if self.run_at_one { RUN } else { load }, &data)
        };
        Image::new(ENTRY, spans.iter().enumerate().map(piece).collect())
    }

    /// The image without the changes, in which no blocks meet.
    pub fn sound(&self) -> Image {
        self.image_of(&self.unchanged())
    }

    pub fn image(&self) -> Image {
        self.image_of(&self.changed().expect("a plan that fits"))
    }
}
