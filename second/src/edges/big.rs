//! Boundaries that take 16 MiB, or lengths of more than 32 bits.

use super::{file_of, Maker};
use crate::answer::{ADDRESSES, MOST};
use crate::calls::{Call, Case, Input};
use crate::fill::GUARDED_MOST;
use crate::gen_file::{sharing, Made};
use crate::make::{File, Image, Piece};
use crate::rng::Rng;

/// A file of this length with one section that fills it.
fn full_file(length: u64) -> File {
    file_of(&[(0x10, 0x20, (length - 70) as u32)], None)
}

/// An image of this length with one block that fills it; the length must be a
/// multiple of four.
fn full_image(length: u64) -> Image {
    let file = file_of(&[(0x10, 0x20, (length - 20) as u32)], None);
    Image::new(0, vec![Piece::new(0x10, 0x20, &file.body)])
}

/// Two sections share their raw data: the image is as long as the limit.
fn twice(size: u64) -> Made {
    sharing(&mut Rng::new(5, size), 2, size)
}

pub fn files(all: &mut Vec<Maker>) {
    let mut add = |make: fn() -> Case| all.push(Box::new(make));
    let half = 8_388_592;
    assert_eq!(8 + 2 * (12 + half), MOST);

    add(|| Case::new(Call::Convert, "largest file").file_input(full_file(MOST).input()).lent(MOST).expect_at(0, 0));
    add(|| Case::new(Call::Convert, "file one over").file_input(full_file(MOST + 1).input()).lent(100).expect_at(1, 0));
    add(|| Case::new(Call::List, "largest file").file_input(full_file(MOST).input()).lent(16_384).expect_at(0, 0));
    add(|| Case::new(Call::List, "file one over").file_input(full_file(MOST + 1).input()).lent(16_384).expect_at(1, 0));
    add(|| {
        let case = Case::new(Call::LoadCoff, "largest file, largest window").file_input(full_file(MOST).input());
        case.number(0).lent(MOST).expect_at(0, 0)
    });
    add(|| {
        let case = Case::new(Call::LoadCoff, "largest file, window one over").file_input(full_file(MOST).input());
        case.number(0).lent(MOST + 1).expect_at(28, 0)
    });
    add(|| {
        let case = Case::new(Call::LoadCoff, "largest file, window a byte short").file_input(full_file(MOST).input());
        case.number(0x10).lent(MOST - 71).expect_at(29, 0)
    });
    add(|| Case::new(Call::LoadCoff, "file one over").file_input(full_file(MOST + 1).input()).expect_at(1, 0));
    add(|| {
        let made = twice(8_388_592);
        Case::new(Call::Convert, "largest image").file_input(made.file.input()).lent(MOST).expect_at(0, 0)
    });
    add(|| {
        let made = twice(8_388_592);
        Case::new(Call::Convert, "largest image, output a byte short").file_input(made.file.input()).lent(MOST - 1).expect_at(15, 0)
    });
    add(|| {
        let made = twice(8_388_592);
        Case::new(Call::Convert, "largest image, output a byte more").file_input(made.file.input()).lent(MOST + 1).expect_at(0, 0)
    });
    add(|| {
        let made = twice(8_388_593);
        Case::new(Call::Convert, "image too long").file_input(made.file.input()).lent(MOST).expect_at(14, 0)
    });
    add(|| {
        let made = sharing(&mut Rng::new(5, 1), 256, 65_523);
        Case::new(Call::Convert, "image 8 over with 256 sections").file_input(made.file.input()).lent(MOST).expect_at(14, 0)
    });
    add(|| {
        let mut made = sharing(&mut Rng::new(5, 2), 256, 65_524);
        made.file.sections[255].size = 65_516;
        Case::new(Call::Convert, "largest image with 256 sections").file_input(made.file.input()).lent(MOST).expect_at(0, 0)
    });
    add(|| {
        let mut made = sharing(&mut Rng::new(5, 2), 256, 65_524);
        made.file.sections[255].size = 65_517;
        Case::new(Call::Convert, "image 4 over with 256 sections").file_input(made.file.input()).lent(MOST).expect_at(14, 0)
    });
    add(|| {
        let most = MOST - 50 - 256 * 48;
        let made = sharing(&mut Rng::new(5, 3), 256, most);
        Case::new(Call::Convert, "longest would-be image").file_input(made.file.input()).lent(0).expect_at(14, 0)
    });
    add(|| {
        let most = MOST - 50 - 256 * 48;
        let made = sharing(&mut Rng::new(5, 3), 256, most);
        Case::new(Call::List, "longest would-be image").file_input(made.file.input()).lent(16_384).expect_at(0, 0)
    });
    // Lengths whose lowest 32 bits belong to a sound input.
    add(|| {
        let bytes = full_file(75).bytes();
        let input = Input::longer(bytes, ADDRESSES + 75);
        Case::new(Call::Convert, "file length 2^32 more").file_input(input).lent(100).expect_at(1, 0)
    });
    add(|| {
        let case = Case::new(Call::Convert, "output length 2^32 more").file_input(full_file(75).input());
        case.lent(ADDRESSES + 3).expect_at(0, 0)
    });
    add(|| {
        let case = Case::new(Call::List, "text length 2^32 more").file_input(full_file(75).input());
        case.lent(ADDRESSES + 3).expect_at(0, 0)
    });
    add(|| {
        let case = Case::new(Call::Convert, "output of 16 MiB and more").file_input(full_file(75).input());
        case.lent(GUARDED_MOST).expect_at(0, 0)
    });
}

/// The same files measured: the borders of rules 1 and 14.
pub fn measured(all: &mut Vec<Maker>) {
    let mut add = |what: &'static str, code: u8, make: fn() -> Input| {
        all.push(Box::new(move || Case::new(Call::Measure, what).file_input(make()).expect_at(code, 0)));
    };
    /// 256 sections share their bytes; the last has a size of its own.
    fn many(size: u64, last: u32) -> Input {
        let mut made = sharing(&mut Rng::new(5, 2), 256, size);
        made.file.sections[255].size = last;
        made.file.input()
    }
    add("largest file", 0, || full_file(MOST).input());
    add("file one over", 1, || full_file(MOST + 1).input());
    add("file length 2^32 more", 1, || Input::longer(full_file(75).bytes(), ADDRESSES + 75));
    add("largest image", 0, || twice(8_388_592).file.input());
    add("largest image, one byte less", 0, || twice(8_388_591).file.input());
    add("image too long", 14, || twice(8_388_593).file.input());
    add("largest image with 256 sections", 0, || many(65_524, 65_516));
    add("largest image with 256 sections, three bytes less", 0, || many(65_524, 65_513));
    add("image 4 over with 256 sections", 14, || many(65_524, 65_517));
    add("longest would-be image", 14, || {
        let most = MOST - 50 - 256 * 48;
        many(most, most as u32)
    });
}

pub fn images(all: &mut Vec<Maker>) {
    let mut add = |make: fn() -> Case| all.push(Box::new(make));
    fn one_over() -> Input {
        Input::longer(full_image(MOST).bytes(), MOST + 1)
    }
    add(|| Case::new(Call::Read, "largest image").image_input(full_image(MOST).input()).expect_at(0, 0));
    add(|| Case::new(Call::Read, "image one over").image_input(one_over()).expect_at(20, 0));
    add(|| Case::new(Call::Block, "largest image").image_input(full_image(MOST).input()).expect_at(0, 0));
    add(|| Case::new(Call::Block, "image one over").image_input(one_over()).expect_at(20, 0));
    add(|| {
        let case = Case::new(Call::LoadImage, "largest image, largest window").image_input(full_image(MOST).input());
        case.number(0x10).lent(MOST).expect_at(0, 0)
    });
    add(|| {
        let case = Case::new(Call::LoadImage, "largest image, window one over").image_input(full_image(MOST).input());
        case.number(0x10).lent(MOST + 1).expect_at(28, 0)
    });
    add(|| {
        let case = Case::new(Call::LoadImage, "largest image, window just enough").image_input(full_image(MOST).input());
        case.number(0x10).lent(MOST - 20).expect_at(0, 0)
    });
    add(|| {
        let case = Case::new(Call::LoadImage, "largest image, window a byte short").image_input(full_image(MOST).input());
        case.number(0x10).lent(MOST - 21).expect_at(29, 0)
    });
    add(|| Case::new(Call::LoadImage, "image one over").image_input(one_over()).lent(50).expect_at(20, 0));
    add(|| {
        let made = twice(8_388_592);
        let case = Case::new(Call::Check, "largest image").file_input(made.file.input());
        case.image_input(made.image().input()).expect_at(0, 0)
    });
    add(|| {
        let made = twice(8_388_592);
        let mut image = made.image();
        *image.blocks[1].data.last_mut().unwrap() ^= 0x80;
        let case = Case::new(Call::Check, "largest image, last byte changed").file_input(made.file.input());
        case.image_input(image.input()).expect_at(41, 0)
    });
    add(|| {
        let made = twice(8_388_592);
        let case = Case::new(Call::Check, "image one over").file_input(made.file.input());
        case.image_input(one_over()).expect_at(20, 0)
    });
    add(|| {
        let case = Case::new(Call::Check, "largest file").file_input(full_file(MOST).input());
        let mut image = full_image(MOST - 72);
        image.blocks[0].data = full_file(MOST).body;
        case.image_input(image.input()).expect_at(0, 0)
    });
    add(|| {
        let case = Case::new(Call::Check, "file one over").file_input(full_file(MOST + 1).input());
        case.image_input(full_image(40).input()).expect_at(1, 0)
    });
    add(|| {
        let input = Input::longer(full_image(40).bytes(), ADDRESSES + 40);
        Case::new(Call::Read, "image length 2^32 more").image_input(input).expect_at(20, 0)
    });
    add(|| {
        let case = Case::new(Call::LoadImage, "window length 2^32 more").image_input(full_image(40).input());
        case.lent(ADDRESSES + 100).expect_at(28, 0)
    });
    add(|| {
        let case = Case::new(Call::LoadImage, "window of 2^32").image_input(full_image(40).input());
        case.lent(ADDRESSES).expect_at(28, 0)
    });
}
