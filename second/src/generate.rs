//! The numbered cases: seed and number make one call with all it is given.

use crate::calls::{Call, Case};
use crate::gen_check::{change, rearrange};
use crate::gen_file::{sharing, Made};
use crate::gen_image;
use crate::gen_place;
use crate::given::{given_file, given_image, some_file, some_image};
use crate::listing::TEXT_ROOM;
use crate::make::{Image, Piece};
use crate::rng::Rng;
use crate::windows::{self, Window};

pub fn call_of(seed: u64, number: u64) -> Call {
    draw_call(&mut Rng::new(seed, number))
}

fn draw_call(rng: &mut Rng) -> Call {
    match rng.below(36) {
        0..=5 => Call::Convert,
        6..=8 => Call::List,
        9..=12 => Call::Read,
        13..=15 => Call::Block,
        16..=20 => Call::LoadImage,
        21..=25 => Call::LoadCoff,
        26..=31 => Call::Check,
        32 => Call::Measure,
        33 | 34 => Call::BlockAt,
        _ => Call::Walk,
    }
}

pub fn case(seed: u64, number: u64) -> Case {
    let mut rng = Rng::new(seed, number);
    let rng = &mut rng;
    let call = draw_call(rng);
    let mut case = of_call(rng, call);
    case.place = (number % 8) as u8 | (rng.below(2) as u8) << 3;
    case.fill = rng.below(60_000) as u32;
    case
}

/// One of the plain calls.
pub fn of_call(rng: &mut Rng, call: Call) -> Case {
    match call {
        Call::Measure if rng.one_in(300) => measure_long(rng),
        Call::Read | Call::Block => read_or_block(rng, call),
        Call::LoadImage => load_image(rng),
        Call::BlockAt => gen_place::block_at(rng),
        Call::Walk => gen_place::walk(rng),
        _ => {
            let made = some_file(rng);
            of_file(rng, call, &made)
        }
    }
}

/// A call on a file, on this one or one with faults.
pub fn of_file(rng: &mut Rng, call: Call, made: &Made) -> Case {
    match call {
        Call::Convert => convert(rng, made),
        Call::List => list(rng, made),
        Call::LoadCoff => load_coff(rng, made),
        Call::Check => check(rng, made),
        Call::Measure => measure(rng, made),
        _ => unreachable!("never drawn"),
    }
}

fn convert(rng: &mut Rng, made: &Made) -> Case {
    let given = given_file(rng, made);
    let length = made.image_length();
    let lent = match rng.below(12) {
        0..=4 => length,
        5 | 6 => length - 1,
        7..=9 => length + rng.below(20),
        10 => rng.below(length),
        _ => rng.below(40),
    };
    let mut case = Case::new(Call::Convert, &given.what).file_input(given.input).lent(lent);
    match given.code {
        Some(0) if lent < length => case = case.expect_at(15, 0),
        Some(code) => case = case.expect(code),
        None => {}
    }
    case
}

/// Sections share their bytes, and the image is about as long as the limit.
fn measure_long(rng: &mut Rng) -> Case {
    let mut made = sharing(rng, 256, 65_524);
    let last = 65_506 + rng.below(19) as u32;
    made.file.sections[255].size = last;
    let case = Case::new(Call::Measure, "an image of about the limit").file_input(made.file.input());
    case.expect_at(if last > 65_516 { 14 } else { 0 }, 0)
}

fn measure(rng: &mut Rng, made: &Made) -> Case {
    let given = given_file(rng, made);
    let case = Case::new(Call::Measure, &given.what).file_input(given.input);
    match given.code {
        Some(code) => case.expect(code),
        None => case,
    }
}

fn list(rng: &mut Rng, made: &Made) -> Case {
    let given = given_file(rng, made);
    let length = made.text_length();
    let lent = match rng.below(16) {
        0..=4 => length,
        5..=7 => length - 1,
        8..=10 => length + rng.below(20),
        11 => rng.below(length),
        12 => rng.below(3),
        _ => TEXT_ROOM + rng.below(50),
    };
    let mut case = Case::new(Call::List, &given.what).file_input(given.input).lent(lent);
    match given.code {
        Some(0) if lent < length => case = case.expect_at(15, 0),
        Some(code) => case = case.expect(code),
        None => {}
    }
    case
}

fn read_or_block(rng: &mut Rng, call: Call) -> Case {
    let image = some_image(rng);
    let given = given_image(rng, &image);
    let blocks = image.blocks.len() as u64;
    let number = match rng.below(10) {
        0 => blocks,
        1 => blocks + rng.below(3),
        // wrong numbers whose lowest 32 bits are right ones
        2 => (1 << 32) + rng.below(blocks + 1),
        3 => u64::MAX - rng.below(3),
        _ => rng.below(blocks + 1),
    };
    let mut case = Case::new(call, &given.what).image_input(given.input);
    if call == Call::Block {
        case = case.number(number);
    }
    match given.code {
        Some(0) if call == Call::Block && number >= blocks => case = case.expect_at(30, 0),
        Some(code) => case = case.expect(code),
        None => {}
    }
    case
}

/// What a load answers, as far as the maker of the case knows.
fn expect_load(mut case: Case, window: &Window, code: Option<u8>) -> Case {
    if window.refused {
        return case.expect_at(28, 0);
    }
    match (code, window.holds) {
        (Some(0), Some(true)) => case = case.expect_at(0, 0),
        (Some(0), Some(false)) => case = case.expect(29),
        (Some(0), None) | (None, _) => {}
        (Some(code), _) => case = case.expect(code),
    }
    case
}

fn load_image(rng: &mut Rng) -> Case {
    let image = some_image(rng);
    let given = given_image(rng, &image);
    let (low, high) = gen_image::hull(&image.blocks);
    let window = windows::around(rng, low, high);
    let case = Case::new(Call::LoadImage, &given.what)
        .image_input(given.input)
        .number(window.base)
        .lent(window.length);
    expect_load(case, &window, given.code)
}

fn load_coff(rng: &mut Rng, made: &Made) -> Case {
    let given = given_file(rng, made);
    let (low, high) = made.hull();
    let window = windows::around(rng, low, high);
    let case = Case::new(Call::LoadCoff, &given.what)
        .file_input(given.input)
        .number(window.base)
        .lent(window.length);
    expect_load(case, &window, given.code)
}

fn check(rng: &mut Rng, made: &Made) -> Case {
    let mut blocks: Vec<Piece> = made.pieces();
    let mut entry = made.entry();
    rearrange(rng, &mut blocks);
    let way = rng.below(16);
    let (what, code) = match way {
        0..=4 => ("the same in other blocks", 0),
        5..=9 => (change(rng, &mut blocks), 41),
        10 | 11 => {
            entry ^= 1 << rng.below(32);
            let also = rng.one_in(2);
            if also {
                change(rng, &mut blocks);
            }
            (if also { "another entry and placement" } else { "another entry" }, 40)
        }
        _ => ("", 0),
    };
    let image = Image::new(entry, blocks);
    if way < 12 {
        return Case::new(Call::Check, what)
            .file_input(made.file.input())
            .image_input(image.input())
            .expect_at(code, 0);
    }
    let file = given_file(rng, made);
    let image = given_image(rng, &image);
    let case = Case::new(Call::Check, &format!("{} and {}", file.what, image.what))
        .file_input(file.input)
        .image_input(image.input);
    match (file.code, image.code) {
        (Some(0), Some(code)) => case.expect(code),
        (Some(code), _) if code != 0 => case.expect(code),
        _ => case,
    }
}

#[cfg(test)]
mod tests {
    use super::case;
    use crate::naive::assert_agreed;

    #[test]
    fn answers_agree_with_the_makers_of_the_cases() {
        assert_agreed(case);
    }

    #[test]
    fn a_number_makes_the_same_case_again() {
        let (a, b) = (case(9, 41), case(9, 41));
        assert_eq!((a.call, a.file.bytes, a.image.bytes), (b.call, b.file.bytes, b.image.bytes));
        assert_eq!((a.number, a.lent, a.fill, a.place), (b.number, b.lent, b.fill, b.place));
    }
}
