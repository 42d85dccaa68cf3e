//! The byte order of an image: rule 33, undoing it, and putting an image into it.
//!
//! Fields and data areas are turned where they stand. What is not whole stays as it
//! is, and so does all that follows an end flag: for any bytes the two directions
//! keep their number and are the inverse of each other.

use crate::answer::{because, Refusal};
use crate::fields::{u32_at, up_to_four};

/// What stands reversed in each four bytes.
#[derive(Clone, Copy, Debug, PartialEq, Eq)]
pub struct Order {
    /// Entry point, sizes and addresses.
    pub numbers: bool,
    /// Raw data with its padding.
    pub data: bool,
}

pub const ORDERS: [u32; 4] = [0, 1, 2, 3];

/// Why a number is no order; what narrower looks at it would make of it.
fn cause(number: u32) -> &'static str {
    match number {
        4..=7 => "4 to 7",
        _ if number & 0xff < 4 => "lowest byte 0 to 3",
        _ => "any other",
    }
}

pub fn read_order(number: u32) -> Result<Order, Refusal> {
    match number {
        0 => Ok(Order { numbers: false, data: false }),
        1 => Ok(Order { numbers: true, data: false }),
        2 => Ok(Order { numbers: false, data: true }),
        3 => Ok(Order { numbers: true, data: true }),
        _ => Err(because(33, 0, cause(number))),
    }
}

impl Order {
    fn turn_number(self, field: &mut [u8]) {
        if self.numbers {
            field.reverse();
        }
    }

    fn turn_data(self, area: &mut [u8]) {
        if self.data {
            area.chunks_exact_mut(4).for_each(<[u8]>::reverse);
        }
    }
}

/// The image in order 0, out of one in this order.
pub fn undone(image: &[u8], order: Order) -> Vec<u8> {
    let mut plain = image.to_vec();
    if plain.len() < 4 {
        return plain;
    }
    order.turn_number(&mut plain[..4]);
    let mut at = 4;
    while let Some(field) = plain.get_mut(at..at + 4) {
        order.turn_number(field);
        let size = u32_at(&plain, at);
        if size == 0 {
            break;
        }
        for address in [at + 4, at + 8] {
            if let Some(field) = plain.get_mut(address..address + 4) {
                order.turn_number(field);
            }
        }
        let next = at + 12 + up_to_four(u64::from(size)) as usize;
        match plain.get_mut(at + 12..next) {
            Some(area) => order.turn_data(area),
            None => break,
        }
        at = next;
    }
    plain
}

enum Part {
    Number,
    Data,
}

/// The whole fields and data areas of an image in order 0: where, how long, which.
fn parts(image: &[u8]) -> Vec<(usize, usize, Part)> {
    let mut all = vec![(0, 4, Part::Number)];
    let mut at = 4;
    while at + 4 <= image.len() {
        all.push((at, 4, Part::Number));
        let size = u32_at(image, at);
        if size == 0 {
            break;
        }
        all.extend([(at + 4, 4, Part::Number), (at + 8, 4, Part::Number)]);
        let length = up_to_four(u64::from(size)) as usize;
        all.push((at + 12, length, Part::Data));
        at += 12 + length;
    }
    all.retain(|(at, length, _)| at + length <= image.len());
    all
}

/// The image in this order, out of one in order 0.
pub fn written(plain: &[u8], order: Order) -> Vec<u8> {
    let mut image = plain.to_vec();
    for (at, length, part) in parts(plain) {
        let bytes = &mut image[at..at + length];
        match part {
            Part::Number => order.turn_number(bytes),
            Part::Data => order.turn_data(bytes),
        }
    }
    image
}

/// Of an image only what is read at a place: a size and two addresses, each as far as
/// it is there. This is its own inverse.
pub fn turned_at(image: &[u8], place: u64, order: Order) -> Vec<u8> {
    let mut turned = image.to_vec();
    if place < image.len() as u64 {
        let rest = &mut turned[place as usize..];
        rest.chunks_exact_mut(4).take(3).for_each(|field| order.turn_number(field));
    }
    turned
}

#[cfg(test)]
mod tests {
    use super::*;
    use crate::given::{given_image, some_image};
    use crate::rng::Rng;

    #[test]
    fn inverse_on_all_bytes() {
        let mut rng = Rng::new(3, 1);
        for _ in 0..20_000 {
            let image = some_image(&mut rng);
            let bytes = given_image(&mut rng, &image).input.bytes;
            for number in ORDERS {
                let order = read_order(number).unwrap();
                assert_eq!(undone(&written(&bytes, order), order), bytes);
                assert_eq!(written(&undone(&bytes, order), order), bytes);
            }
        }
    }
}
