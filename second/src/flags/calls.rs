//! Every set of the nine flags that count, in the other calls on a file: without
//! patterns, under one that takes another name, under one that takes this name, and
//! with a name that cannot be read.

use super::{Fate, Variant, EACH};
use crate::answer::{pack_convert, pack_list, pack_load};
use crate::bench::{refused, A_LISTED, P1, RAW};
use crate::bench_plain::NONE_LISTED;
use crate::calls::{Call, Case, CALLS_WITH};
use crate::every::spread;
use crate::fields::put_u32;
use crate::rng::Rng;

const COUNTING: [u32; 9] = [0x1, 0x2, 0x4, 0x8, 0x10, 0x20, 0x40, 0x80, 0x8000];
const SETS: usize = 1 << COUNTING.len();

/// What patterns make of the section's name, which is the empty one if it can be read.
#[derive(Clone, Copy, PartialEq, Eq)]
enum Name {
    NotAsked,
    NotTaken,
    Taken,
    Unreadable,
}
use Name::{NotAsked, NotTaken, Taken, Unreadable};

fn asked() -> Vec<(Call, Name)> {
    let mut all: Vec<(Call, Name)> =
        [Call::Measure, Call::List, Call::LoadCoff, Call::Check].map(|call| (call, NotAsked)).to_vec();
    for call in CALLS_WITH {
        all.extend([NotTaken, Taken, Unreadable].map(|name| (call, name)));
    }
    all
}

fn expect(case: Case, call: Call, fate: Fate) -> Case {
    let (packed, written): (u64, &'static [u8]) = match (call.plain(), fate) {
        (_, Fate::TooEarly) => (refused(10, 0), &[]),
        (Call::Measure, Fate::Kept) => (pack_convert(28, 1), &[]),
        (Call::Measure, Fate::NotKept) => (pack_convert(8, 0), &[]),
        (Call::Convert, Fate::Kept) => (pack_convert(28, 1), &P1),
        (Call::Convert, Fate::NotKept) => (pack_convert(8, 0), &[0; 8]),
        (Call::List, Fate::Kept) => (pack_list(83), A_LISTED.as_bytes()),
        (Call::List, Fate::NotKept) => (pack_list(46), NONE_LISTED.as_bytes()),
        (Call::LoadCoff, Fate::Kept) => (pack_load(5), &RAW),
        (Call::LoadCoff, Fate::NotKept) => (pack_load(0), &[]),
        // The image is that of the section kept.
        (Call::Check, Fate::Kept) => (0, &[]),
        (Call::Check, Fate::NotKept) => (refused(41, 0), &[]),
        _ => unreachable!("not among those asked"),
    };
    case.expect_whole(packed, written)
}

fn one(variant: &Variant, call: Call, name: Name) -> Case {
    let mut file = variant.file();
    if name == Unreadable {
        put_u32(&mut file, 22 + 4, 3);
    }
    let row: &[u8] = match name {
        NotAsked => b"",
        Taken => b"*",
        _ => b"x",
    };
    let case = Case::new(call, &variant.what()).file(&file).row(row);
    let case = match call.plain() {
        Call::Convert => case.lent(28),
        Call::List => case.lent(90),
        Call::LoadCoff => case.number(0x400).lent(8),
        Call::Check => case.image(&P1),
        _ => case,
    };
    match (variant.fate(), name) {
        (Fate::Kept | Fate::TooEarly, Unreadable) => case.expect_whole(refused(16, 0), &[]),
        (_, Taken) => expect(case, call, Fate::NotKept),
        (fate, _) => expect(case, call, fate),
    }
}

pub fn cases(seed: u64) -> Vec<Case> {
    let mut rng = Rng::new(seed, 82);
    let asked = asked();
    let mut all = Vec::new();
    for set in 0..SETS {
        let chosen = COUNTING.iter().enumerate().filter(|(bit, _)| set >> bit & 1 == 1);
        let flags = chosen.map(|(_, flag)| flag).sum();
        for number in 0..EACH {
            let variant = Variant::of(flags, number);
            all.extend(asked.iter().map(|&(call, name)| one(&variant, call, name)));
        }
    }
    spread(&mut rng, &mut all);
    all
}
