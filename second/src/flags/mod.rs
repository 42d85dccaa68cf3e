//! Every set of the sixteen low flags, beside each size and raw data offset that
//! counts. What becomes of the section is said here once more: by a table of what
//! each flag does, as read off the papers by hand.

pub mod calls;

use crate::answer::pack_convert;
use crate::bench::{a_as, refused, P1};
use crate::calls::{Call, Case};

/// What one flag does to a section. Of several the strongest decides, which is the
/// last of them in this order.
#[derive(Clone, Copy, PartialEq, Eq, PartialOrd, Ord)]
enum Does {
    Nothing,
    /// It does not keep the section, which is no plain one any more.
    NotPlain,
    /// It keeps the section, with raw data or without.
    Keeps,
    /// It leaves the section out.
    Bars,
}
use Does::{Bars, Keeps, NotPlain, Nothing};

/// From 1h to 8000h.
const DOES: [Does; 16] = [
    Bars, Bars, NotPlain, NotPlain, // 1h DSECT, 2h NOLOAD, 4h, 8h
    Bars, Keeps, Keeps, NotPlain, // 10h COPY, 20h TEXT, 40h DATA, 80h BSS
    Nothing, Nothing, Nothing, Nothing, // 100h to 800h, the alignment
    Nothing, Nothing, Nothing, Keeps, // 1000h BLOCK, 2000h PASS, 4000h CLINK, 8000h VECTOR
];

/// What becomes of the section of the bench's file.
#[derive(Clone, Copy, PartialEq, Eq)]
enum Fate {
    NotKept,
    Kept,
    /// Kept, and refused by rule 10.
    TooEarly,
}

/// Its size: none, or its own.
const SIZES: [u32; 2] = [0, 5];
/// Its raw data offset: none, one in the headers, or its own.
const OFFSETS: [u32; 3] = [0, 1, 70];
/// How many cases there are for one set of flags.
const EACH: usize = SIZES.len() * OFFSETS.len();

/// The bench's file whose section has other flags, and one of those sizes and offsets.
struct Variant {
    flags: u32,
    size: u32,
    raw: u32,
}

impl Variant {
    fn of(flags: u32, number: usize) -> Variant {
        Variant { flags, size: SIZES[number / OFFSETS.len()], raw: OFFSETS[number % OFFSETS.len()] }
    }

    fn what(&self) -> String {
        format!("flags {:x}, size {}, raw offset {}", self.flags, self.size, self.raw)
    }

    fn file(&self) -> Vec<u8> {
        a_as(self.flags, self.size, self.raw)
    }

    fn fate(&self) -> Fate {
        let set = (0..16).filter(|bit| self.flags >> bit & 1 == 1);
        let strongest = set.map(|bit| DOES[bit]).max().unwrap_or(Nothing);
        match (strongest, self.raw) {
            _ if self.size == 0 => Fate::NotKept,
            (Bars | NotPlain, _) | (Nothing, 0) => Fate::NotKept,
            (_, 70) => Fate::Kept,
            _ => Fate::TooEarly,
        }
    }
}

const LOW_SETS: usize = 1 << 16;
/// High flags: each alone, and all.
const HIGH_SETS: usize = 17;
/// Low flags beside them: none, each alone, and all.
const BESIDE: usize = 18;

/// Each of sixteen flags, then all of them.
fn one_or_all(number: usize) -> u32 {
    if number < 16 { 1 << number } else { 0xffff }
}

/// All sets of low flags, then those with high ones.
fn set(number: usize) -> u32 {
    if number < LOW_SETS {
        return number as u32;
    }
    let (high, beside) = ((number - LOW_SETS) / BESIDE, (number - LOW_SETS) % BESIDE);
    let low = if beside == 0 { 0 } else { one_or_all(beside - 1) };
    one_or_all(high) << 16 | low
}

pub const CASES: usize = (LOW_SETS + HIGH_SETS * BESIDE) * EACH;

/// Conversion, for it shows the most: the code, the figures, and every byte of the image.
pub fn case(number: usize) -> Case {
    let variant = Variant::of(set(number / EACH), number % EACH);
    let case = Case::new(Call::Convert, &variant.what()).file(&variant.file()).lent(30);
    match variant.fate() {
        Fate::NotKept => case.expect_whole(pack_convert(8, 0), &[0; 8]),
        Fate::Kept => case.expect_whole(pack_convert(28, 1), &P1),
        Fate::TooEarly => case.expect_whole(refused(10, 0), &[]),
    }
}

#[cfg(test)]
mod tests {
    use super::*;

    #[test]
    fn every_set_is_there() {
        let sets: Vec<u32> = (0..CASES / EACH).map(set).collect();
        assert!((0..0x1_0000).all(|flags| sets[flags as usize] == flags));
        for high in (16..32).map(|bit| 1 << bit).chain([0xffff_0000]) {
            for low in (0..16).map(|bit| 1 << bit).chain([0, 0xffff]) {
                assert!(sets[LOW_SETS..].contains(&(high | low)), "{high:x} {low:x}");
            }
        }
    }
}
