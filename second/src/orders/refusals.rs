//! Rule 33: each number that is no order, alone and beside each other fault of the call;
//! and the refusals of lengths in each order.

use super::{block, image};
use crate::answer::{ADDRESSES, MOST};
use crate::bench;
use crate::bench_orders::IMAGES;
use crate::calls::{Call, Case, Input, CALLS_IN_ORDER};
use crate::fill::GUARDED_MOST;
use crate::order::ORDERS;
use crate::ordered::{refused, NO_ORDERS};
use crate::pairs;

/// A call on the bench's file or image, without a fault.
fn sound(call: Call, order: u32) -> Case {
    let image = &IMAGES[order as usize % 4];
    let case = Case::new(call, "sound").order(order);
    let case = if call.asks_file() { case.file(&bench::a()) } else { case };
    let case = if call.reads_image() { case.image(image) } else { case };
    match call {
        Call::LoadImageWith => case.number(0x400).lent(8),
        Call::ConvertWith => case.lent(30),
        Call::BlockAtWith => case.number(4),
        Call::WalkWith => case.lent(20),
        _ => case,
    }
}

/// Every number; in the calls with patterns also beside patterns that are sound, and
/// beside such as are refused first.
fn numbers(call: Call, all: &mut Vec<Case>) {
    let around = (4..=300).chain((2..32).flat_map(|bit| (0..4).map(move |low| (1u32 << bit) + low)));
    for number in around.chain(NO_ORDERS) {
        let case = sound(call, number % 4);
        all.extend(refused(&case, number));
        if call.has_patterns() {
            for row in [b".text".as_slice(), b"*\0x\0", b"\0", b"a\0\0", &[b'*'; 65], &b"x\0".repeat(17)] {
                all.extend(refused(&case.clone().row(row), number));
            }
        }
    }
    for order in ORDERS {
        all.push(sound(call, order).expect_at(0, 0));
        if call.has_patterns() {
            all.push(sound(call, order).row(b"\0").expect_at(17, 0));
        }
    }
}

/// The numbers that stand for all of them where there are many cases.
const FEW: [u32; 10] = [4, 5, 7, 8, 255, 256, 0x1_0001, 0x8000_0000, 0xffff_fffe, 0xffff_ffff];

/// Each other fault of the call, which is one of its own in order 0.
fn beside_faults(seed: u64, call: Call, all: &mut Vec<Case>) {
    // The plain call has the same faults, but for those of patterns.
    let faulty = if call.has_patterns() { call } else { call.plain() };
    for case in pairs::alone(seed, faulty) {
        all.extend(FEW.iter().filter_map(|&number| refused(&case, number)));
    }
}

/// At a place: what is wrong there, and with the image.
fn at_places(all: &mut Vec<Case>) {
    let image = &IMAGES[0];
    let long = Input::longer(image.to_vec(), ADDRESSES + 28);
    for call in [Call::BlockAt, Call::Walk] {
        let new = |what: &str| Case::new(call, what).number(4).lent(32);
        let mut faulty = vec![new("too long").image_input(long.clone()), new("past the end").image(image).number(28)];
        faulty.push(new("far past the end").image(image).number(u64::MAX));
        faulty.extend((0..24).map(|end| new("ended").image(&image[..end])));
        for case in &faulty {
            all.extend(FEW.iter().filter_map(|&number| refused(case, number)));
        }
    }
}

/// Lengths over the limits, which are refused before anything is read.
fn lengths(all: &mut Vec<Case>) {
    for order in ORDERS {
        let bytes = image(0, &[block(0x400, 0, &[1, 2, 3], order)], order);
        let long = [MOST + 1, GUARDED_MOST + 1, ADDRESSES + bytes.len() as u64];
        for call in CALLS_IN_ORDER.into_iter().filter(|call| call.reads_image()) {
            let case = Case::new(call, "too long").file(&bench::a()).order(order).number(4).lent(16);
            all.extend(long.map(|length| case.clone().image_input(Input::longer(bytes.clone(), length)).expect_at(20, 0)));
        }
        let load = Case::new(Call::LoadImageWith, "a window").image(&bytes).order(order);
        for (base, length) in [(0x400, ADDRESSES + 3), (0, GUARDED_MOST + 1), (ADDRESSES, 1), (u64::MAX, 2), (ADDRESSES + 1, 0)] {
            all.push(load.clone().number(base).lent(length).expect_at(28, 0));
            // The window is asked for before the image is.
            all.push(load.clone().image(&bytes[..3]).number(base).lent(length).expect_at(28, 0));
        }
        let convert = Case::new(Call::ConvertWith, "a file too long").order(order).lent(28);
        all.push(convert.file_input(Input::longer(bench::a(), ADDRESSES + 75)).expect_at(1, 0));
    }
}

pub fn cases(seed: u64, all: &mut Vec<Case>) {
    for call in CALLS_IN_ORDER {
        numbers(call, all);
        beside_faults(seed, call, all);
    }
    at_places(all);
    lengths(all);
}
