//! Byte orders by other means. Undoing goes byte by byte: each byte is that of its own
//! place, or of the mirrored place in its four. A sound image is written anew from what
//! was read in it, each number and each four bytes as they have to stand.

use crate::answer::MOST;
use crate::calls::{answer, difference, Call, Case, Input, Outcome, Own};
use crate::check::check_with;
use crate::image::{image_of, read_image};
use crate::loader::{load_image, load_image_with};
use crate::make::pad;
use crate::naive;
use crate::program::Program;

fn numbers_turned(order: u32) -> bool {
    order % 2 == 1
}

fn data_turned(order: u32) -> bool {
    order >= 2
}

fn number(bytes: &[u8], order: u32) -> u32 {
    let bytes = bytes.try_into().expect("four bytes");
    if numbers_turned(order) { u32::from_be_bytes(bytes) } else { u32::from_le_bytes(bytes) }
}

/// Of each byte whether it lies in a data area that is whole.
fn in_data(image: &[u8], order: u32) -> Vec<bool> {
    let mut data = vec![false; image.len()];
    let mut at = 4;
    while let Some(field) = image.get(at..at + 4) {
        let size = number(field, order) as usize;
        let end = at + 12 + size + pad(size);
        if size == 0 || end > image.len() {
            break;
        }
        data[at + 12..end].fill(true);
        at = end;
    }
    data
}

/// The image in order 0. Of what is not whole the bytes may be any.
fn by_bytes(image: &[u8], order: u32) -> Vec<u8> {
    let data = in_data(image, order);
    let byte = |i: usize| {
        let turned = if data[i] { data_turned(order) } else { numbers_turned(order) };
        let mirrored = image.get(i ^ 3).filter(|_| turned);
        *mirrored.unwrap_or(&image[i])
    };
    (0..image.len()).map(byte).collect()
}

/// The same of the three fields at a place alone.
fn by_bytes_at(image: &[u8], place: usize, order: u32) -> Vec<u8> {
    let mut plain = image.to_vec();
    for k in 0..12 {
        let (to, from) = (place.saturating_add(k), place.saturating_add(k ^ 3));
        if numbers_turned(order) && to < image.len() && from < image.len() {
            plain[to] = image[from];
        }
    }
    plain
}

/// The image of a case in order 0.
pub fn undone_input(case: &Case) -> Input {
    if case.image.length > MOST || case.order == 0 {
        return case.image.clone();
    }
    let image = case.image.whole();
    Input::of(match case.call {
        Call::BlockAtWith => by_bytes_at(&image, case.number as usize, case.order),
        _ => by_bytes(&image, case.order),
    })
}

/// The image of a program whose raw bytes lie in `source`, written in this order.
pub fn image_in(program: &Program, source: &[u8], order: u32) -> Vec<u8> {
    let put = |turned: bool, value: u32| if turned { value.to_be_bytes() } else { value.to_le_bytes() };
    let number = |value: u64| put(numbers_turned(order), value as u32);
    let mut image = number(u64::from(program.entry)).to_vec();
    for block in &program.blocks {
        for field in [block.size, block.load, block.run] {
            image.extend(number(field));
        }
        for some in block.bytes(source).chunks(4) {
            let mut four = [0; 4];
            four[..some.len()].copy_from_slice(some);
            image.extend(put(data_turned(order), u32::from_le_bytes(four)));
        }
    }
    image.extend(number(0));
    image
}

/// What is wrong with an image in this order that is to be that of the program.
fn image_fault(image: &[u8], program: &Program, source: &[u8], order: u32) -> Option<String> {
    if image != image_in(program, source, order) {
        return Some("written anew in its order the image is another".to_string());
    }
    let fours = |plain: Vec<u8>| plain.chunks(4).flat_map(|four| four.iter().rev().copied()).collect::<Vec<u8>>();
    let both = order == 3 && image != fours(image_of(program, source));
    both.then(|| "order 3 is not every four bytes reversed".to_string())
}

/// Rule 33, where 17 has been asked.
pub fn rule_33(case: &Case, own: &Own) -> Option<String> {
    let refused = ![0, 1, 2, 3].contains(&case.order);
    (refused != (own.code == 33) || refused && own.index != 0).then(|| "rule 33".to_string())
}

/// The outcome as it would be in order 0: a conversion's image is undone.
pub fn undone_outcome(case: &Case, own: &Own) -> Outcome {
    if case.call != Call::ConvertWith || own.code != 0 {
        return own.outcome.clone();
    }
    let length = (own.outcome.packed >> 8 & 0xffff_ffff) as usize;
    let mut after = by_bytes(&own.after[..length], case.order);
    after.extend_from_slice(&own.after[length..]);
    let (changed_at, changed) = difference(&own.before, &after);
    Outcome { changed_at, changed, ..own.outcome }
}

/// A conversion in this order, which was accepted: it is the program's image in it,
/// checks in it, and loads as that of order 0 does.
pub fn written_fault(case: &Case, own: &Own, program: &Program, file: &[u8]) -> Option<String> {
    let length = (own.outcome.packed >> 8 & 0xffff_ffff) as usize;
    let image = &own.after[..length];
    let fault = image_fault(image, program, file, case.order);
    if fault.is_some() {
        return fault;
    }
    if check_with(&case.file.bytes, image, &case.row.bytes, case.order).is_err() {
        return Some("in its order the check refuses the conversion".to_string());
    }
    let low = program.blocks.iter().map(|b| b.load).min()?;
    let high = program.blocks.iter().map(|b| b.load_end()).max()?;
    if high - low > 5000 {
        return None;
    }
    let mut windows = [vec![0xaa; (high - low) as usize], vec![0xaa; (high - low) as usize]];
    let plain = load_image(&image_of(program, file), low, &mut windows[0]);
    let turned = load_image_with(image, low, &mut windows[1], case.order);
    (plain != turned || windows[0] != windows[1]).then(|| "in its order it loads otherwise".to_string())
}

/// A call on an image in an order has to answer as the plain call does of the image
/// that is undone.
pub fn order_fault(case: &Case, own: &Own) -> Option<String> {
    let fault = rule_33(case, own);
    if fault.is_some() || own.code == 33 {
        return fault;
    }
    let plain = Case { call: case.call.plain(), image: undone_input(case), order: 0, expect: None, ..case.clone() };
    let without = answer(&plain);
    if without.outcome != own.outcome {
        return Some(format!("undone by bytes, code {} index {}", without.code, without.index));
    }
    naive::fault(&plain, &without).or_else(|| read_fault(case, &plain))
}

/// An image that can be read is the one that would be written of what it says.
pub fn read_fault(case: &Case, plain: &Case) -> Option<String> {
    if case.call == Call::BlockAtWith {
        return None;
    }
    let image = plain.image.whole();
    let program = read_image(&image).ok()?;
    image_fault(&case.image.whole(), &program, &image, case.order)
}
