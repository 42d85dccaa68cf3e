//! Boundaries of the room that a listing is lent.

use super::{file_of, Maker};
use crate::answer::{ADDRESSES, MOST};
use crate::calls::{Call, Case};
use crate::fault_file::{damage, FILE_FAULTS};
use crate::fill::GUARDED_MOST;
use crate::gen_file::{self, sharing, Made};
use crate::listing::TEXT_ROOM;
use crate::make::File;
use crate::rng::Rng;

/// Rooms far larger than the text. Of the second the lowest 16 bits are 0.
const LARGE: [u64; 3] = [TEXT_ROOM, 65_536, 100_000];

fn all_kept(file: File) -> Made {
    let kept = (0..file.sections.len()).collect();
    Made { file, kept }
}

/// One listing in a room of this length.
fn add(all: &mut Vec<Maker>, what: &str, made: &Made, room: u64) {
    let (file, what) = (made.file.clone(), what.to_string());
    let code = if room < made.text_length() { 15 } else { 0 };
    all.push(Box::new(move || Case::new(Call::List, &what).file_input(file.input()).lent(room).expect_at(code, 0)));
}

fn around(all: &mut Vec<Maker>, what: &str, made: &Made) {
    let length = made.text_length();
    for room in [length - 1, length, length + 1] {
        add(all, what, made, room);
    }
}

pub fn rooms(all: &mut Vec<Maker>) {
    let none = all_kept(File::empty());
    assert_eq!(none.text_length(), "coff sections 0 kept 0 entry 00000000\nimage 8\n".len() as u64);
    let one = all_kept(file_of(&[(0x0123_4567, 0x89ab_cdef, 5)], Some(0xfedc_ba98)));
    for made in [&none, &one] {
        // Every room up to the text, and the first ones that hold it.
        for room in 0..made.text_length() + 3 {
            add(all, "each room", made, room);
        }
        for room in LARGE {
            add(all, "a large room", made, room);
        }
    }
    // Sizes and image lengths with one digit more than those below them.
    for size in [9, 10, 76, 77, 99, 100, 976, 977, 999, 1000, 9976, 9977, 9999, 10_000, 99_976, 99_977, 99_999, 100_000] {
        around(all, "digits of a size", &all_kept(file_of(&[(0, 0, size)], None)));
    }
    for count in [2, 9, 10, 11, 99, 100, 101, 255, 256] {
        let list: Vec<(u32, u32, u32)> = (0..count).map(|i| (i * 16, i * 4, 1 + i % 12)).collect();
        let mut made = all_kept(file_of(&list, Some(5)));
        around(all, "digits of a count", &made);
        // The last one alone is kept, and then none.
        for section in &mut made.file.sections[..count as usize - 1] {
            section.flags = 0x80;
        }
        made.kept = vec![count as usize - 1];
        around(all, "one kept", &made);
        let last = &mut made.file.sections[count as usize - 1];
        (last.flags, last.raw) = (0, 0);
        made.kept.clear();
        around(all, "none kept", &made);
    }
}

/// Each rule of a file, in rooms that would hold the text and in rooms that
/// would not: it is asked first.
pub fn refused(all: &mut Vec<Maker>) {
    for code in FILE_FAULTS {
        let mut rng = Rng::new(6, u64::from(code));
        let mut made = gen_file::sound_of(&mut rng, &[None, Some(6), Some(5), None, Some(7)]);
        let length = made.text_length();
        assert!(damage(&mut rng, &mut made, code, 1));
        let index = if code < 10 { 0 } else { made.kept[1] as u64 };
        for room in [0, 1, length - 1, length, length + 1].into_iter().chain(LARGE) {
            let (file, what) = (made.file.clone(), format!("fault {code} in a room of {room}"));
            all.push(Box::new(move || {
                Case::new(Call::List, &what).file_input(file.input()).lent(room).expect_at(code, index)
            }));
        }
    }
}

/// A section of this size; its raw bytes are zeros that need not be sent.
fn of_zeros(size: u32) -> Made {
    let mut made = all_kept(file_of(&[(0, 0, 0)], None));
    made.file.sections[0].size = size;
    made.file.length = Some(70 + u64::from(size));
    made
}

/// The longest text: every number in it has as many digits as it can have.
fn longest() -> Made {
    let size = MOST - 50 - 256 * 48;
    let mut made = sharing(&mut Rng::new(5, 4), 256, 0);
    for (i, section) in made.file.sections.iter_mut().enumerate() {
        (section.load, section.run, section.size) = ((i as u64 * size) as u32, 0, size as u32);
    }
    made.file.length = Some(MOST);
    made
}

pub fn big(all: &mut Vec<Maker>) {
    for size in [999_976, 999_977, 999_999, 1_000_000, 9_999_976, 9_999_977, 9_999_999, 10_000_000] {
        around(all, "digits of a large size", &of_zeros(size));
    }
    assert_eq!(longest().text_length(), 11_469);
    around(all, "the longest text", &longest());
    // Over the limit of an image by four bytes: a listing does not ask.
    let half = 8_388_593;
    let mut over = all_kept(file_of(&[(0, 0, 0), (half, 0, 0)], None));
    for section in &mut over.file.sections {
        section.size = half;
    }
    over.file.length = Some(118 + u64::from(half));
    assert!(over.image_length() > MOST);
    around(all, "an image over the limit", &over);
    add(all, "an image over the limit", &over, 0);
    // Rooms whose lowest 32 bits are too few, and the longest between guards.
    let small = all_kept(file_of(&[(0x400, 0x8000_0000, 5)], None));
    for room in [MOST, MOST + 1, GUARDED_MOST, ADDRESSES, ADDRESSES + small.text_length() - 1] {
        add(all, "a room of 16 MiB and more", &small, room);
    }
}
