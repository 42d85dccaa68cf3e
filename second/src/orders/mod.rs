//! Byte orders at every boundary. Each byte is put here where its order has it: no image
//! of order 0 is turned.

mod alike;
mod cuts;
mod fields;
mod refusals;
mod sizes;

use crate::calls::{Call, Case};
use crate::every::spread;
use crate::make::{pad, File};
use crate::rng::Rng;
use crate::samples::Sample;

/// The calls that read an image, in an order.
const IMAGE_CALLS: [Call; 4] = [Call::ReadWith, Call::BlockWith, Call::LoadImageWith, Call::CheckWith];

/// A number as it stands in this order.
fn number(value: u32, order: u32) -> [u8; 4] {
    let [a, b, c, d] = value.to_le_bytes();
    if order == 1 || order == 3 { [d, c, b, a] } else { [a, b, c, d] }
}

/// Where in its area a byte of the data stands, or one of the padding behind it.
fn place(byte: usize, order: u32) -> usize {
    let (four, within) = (byte / 4 * 4, byte % 4);
    if order == 2 || order == 3 { four + 3 - within } else { four + within }
}

/// The data with its padding as it stands in this order.
fn area(data: &[u8], order: u32) -> Vec<u8> {
    let mut area = vec![0; data.len() + pad(data.len())];
    for (byte, &value) in data.iter().enumerate() {
        area[place(byte, order)] = value;
    }
    area
}

/// One block: its size, load address, run address and data.
fn block(load: u32, run: u32, data: &[u8], order: u32) -> Vec<u8> {
    let fields = [data.len() as u32, load, run].map(|field| number(field, order)).concat();
    [fields, area(data, order)].concat()
}

/// An image of an entry point, blocks and an end flag, all of which stand as they should.
fn image(entry: u32, blocks: &[Vec<u8>], order: u32) -> Vec<u8> {
    let mut image = number(entry, order).to_vec();
    image.extend(blocks.concat());
    image.extend([0; 4]);
    image
}

/// The calls that read an image, all of them answering this code and index.
fn refuses(what: &str, image: &[u8], order: u32, code: u8, index: u64, all: &mut Vec<Case>) {
    let file = File::empty().bytes();
    for call in IMAGE_CALLS {
        let case = Case::new(call, what).file(&file).image(image).order(order).number(0x400).lent(64);
        let case = if call == Call::BlockWith { case.number(0) } else { case };
        all.push(case.expect_at(code, index));
    }
}

pub fn cases(seed: u64, samples: &[Sample]) -> Vec<Case> {
    let mut rng = Rng::new(seed, 83);
    let mut all = Vec::new();
    sizes::cases(&mut all);
    cuts::cases(&mut all);
    fields::cases(&mut rng, &mut all);
    refusals::cases(seed, &mut all);
    alike::cases(&mut rng, samples, &mut all);
    spread(&mut rng, &mut all);
    for case in &mut all {
        case.place |= (rng.below(2) as u8) << 4;
    }
    all
}
