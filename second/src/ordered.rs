//! Cases without an order once more under orders. Written in an order and told it, an
//! image is answered as before. Told another order than it stands in, what is answered
//! depends on what it then says. A number that is no order is refused.

use crate::answer::MOST;
use crate::calls::{Call, Case, Input};
use crate::order::{read_order, turned_at, written};
use crate::patterns::read_patterns;

/// Numbers that are no order: next to those that are, and such as are equal to one in
/// their lowest bits or byte, in two bytes, reversed, or as numbers with a sign.
pub const NO_ORDERS: [u32; 34] = [
    4, 5, 6, 7, 8, 9, 11, 16, 32, 64, 127, 128, 130, 254, 255, 256, 257, 258, 259, 260, 0x1_0000, 0x1_0001, 0x1_0002,
    0x1_0003, 0x100_0000, 0x200_0000, 0x300_0000, 0x7fff_ffff, 0x8000_0000, 0x8000_0001, 0x8000_0003, 0xffff_fffc,
    0xffff_fffd, 0xffff_ffff,
];

/// The image of the case, written in an order. At a place only what is read there
/// counts, which need not be a block's.
fn image_in(case: &Case, order: u32) -> Input {
    let image = &case.image;
    // Of one that is too long nothing is read.
    if image.length > MOST {
        return image.clone();
    }
    let order = read_order(order).expect("an order");
    let whole = image.whole();
    let mut bytes = match case.call.plain() {
        Call::BlockAt => turned_at(&whole, case.number, order),
        _ => written(&whole, order),
    };
    if image.length > image.bytes.len() as u64 {
        // Zeros at the end need not be sent.
        let end = bytes.iter().rposition(|&b| b != 0).map_or(0, |last| last + 1);
        bytes.truncate(end);
    }
    Input::longer(bytes, image.length)
}

/// The case in this order, with the same answer. A conversion writes another image, so
/// that of its answer only code and index are known.
pub fn in_order(case: &Case, order: u32) -> Option<Case> {
    let call = case.call.in_order()?;
    let expect = case.expect.map(|expect| if order == 0 { expect } else { expect.without_bytes() });
    Some(Case { call, image: image_in(case, order), order, expect, ..case.clone() })
}

/// The case told an order that its image does not stand in.
pub fn told(case: &Case, order: u32) -> Option<Case> {
    let call = case.call.in_order()?;
    call.reads_image().then(|| Case { call, order, expect: None, ..case.clone() })
}

/// The case with a number that is no order: whatever else is wrong, it answers 33, or 17
/// where that is.
pub fn refused(case: &Case, number: u32) -> Option<Case> {
    let call = case.call.in_order()?;
    let code = if read_patterns(&case.row.whole()).is_err() { 17 } else { 33 };
    Some(Case { call, order: number, ..case.clone() }.expect_at(code, 0))
}

/// How many variants there are of one case.
pub const VARIANTS: usize = 6;

/// In each of the four orders, told one that it does not stand in, and refused. Large
/// cases are not asked in the first order again, and those that are refused only in one,
/// which goes by their number.
pub fn variant(case: &Case, number: usize) -> Option<Case> {
    let (case_number, variant) = (number / VARIANTS, number % VARIANTS);
    let other = 1 + (case_number % 3) as u32;
    let refused_anyway = case.expect.map_or(false, |expect| expect.code != 0);
    match variant {
        _ if case.is_big() && !(1..=3).contains(&variant) => None,
        _ if case.is_big() && refused_anyway && variant != other as usize => None,
        0..=3 => in_order(case, variant as u32),
        4 => told(case, other),
        _ => refused(case, NO_ORDERS[case_number % NO_ORDERS.len()]),
    }
}
