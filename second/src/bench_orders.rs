//! The bench's file `A` and its image in each byte order. Images and outcomes were
//! written down by hand.

use crate::answer::{pack_addresses, pack_block, pack_convert, pack_load, pack_read};
use crate::bench::{a, aa, refused, Entry, RAW};
use crate::calls::{Call, Case, CALLS_IN_ORDER};

/// P1's image in orders 0 to 3. A line each: entry point, size, load address, run
/// address, the four bytes of data and the fifth with its padding, end flag.
pub const IMAGES: [[u8; 28]; 4] = [
    [
        0x00, 0x00, 0x00, 0x00, 0x05, 0x00, 0x00, 0x00, 0x00, 0x04, 0x00, 0x00, 0x00, 0x00, 0x00, 0x80,
        0x11, 0x22, 0x33, 0x44, 0x55, 0x00, 0x00, 0x00, 0x00, 0x00, 0x00, 0x00,
    ],
    [
        0x00, 0x00, 0x00, 0x00, 0x00, 0x00, 0x00, 0x05, 0x00, 0x00, 0x04, 0x00, 0x80, 0x00, 0x00, 0x00,
        0x11, 0x22, 0x33, 0x44, 0x55, 0x00, 0x00, 0x00, 0x00, 0x00, 0x00, 0x00,
    ],
    [
        0x00, 0x00, 0x00, 0x00, 0x05, 0x00, 0x00, 0x00, 0x00, 0x04, 0x00, 0x00, 0x00, 0x00, 0x00, 0x80,
        0x44, 0x33, 0x22, 0x11, 0x00, 0x00, 0x00, 0x55, 0x00, 0x00, 0x00, 0x00,
    ],
    [
        0x00, 0x00, 0x00, 0x00, 0x00, 0x00, 0x00, 0x05, 0x00, 0x00, 0x04, 0x00, 0x80, 0x00, 0x00, 0x00,
        0x44, 0x33, 0x22, 0x11, 0x00, 0x00, 0x00, 0x55, 0x00, 0x00, 0x00, 0x00,
    ],
];

/// In the data area P10's wrong byte is the sixth, which stands seventh where each four
/// are reversed; so do those behind it.
const PADDING: [[usize; 3]; 4] = [[21, 22, 23], [21, 22, 23], [22, 21, 20], [22, 21, 20]];

/// What P8's blocks are, the entry point 12345678h, one order a line.
const P8: [[u8; 40]; 4] = [
    [
        0x78, 0x56, 0x34, 0x12, 1, 0, 0, 0, 0x04, 4, 0, 0, 0x04, 0, 0, 0x80, 0x55, 0, 0, 0, 4, 0, 0, 0, 0, 4, 0, 0, 0, 0, 0, 0x80,
        0x11, 0x22, 0x33, 0x44, 0, 0, 0, 0,
    ],
    [
        0x12, 0x34, 0x56, 0x78, 0, 0, 0, 1, 0, 0, 4, 0x04, 0x80, 0, 0, 0x04, 0x55, 0, 0, 0, 0, 0, 0, 4, 0, 0, 4, 0, 0x80, 0, 0, 0,
        0x11, 0x22, 0x33, 0x44, 0, 0, 0, 0,
    ],
    [
        0x78, 0x56, 0x34, 0x12, 1, 0, 0, 0, 0x04, 4, 0, 0, 0x04, 0, 0, 0x80, 0, 0, 0, 0x55, 4, 0, 0, 0, 0, 4, 0, 0, 0, 0, 0, 0x80,
        0x44, 0x33, 0x22, 0x11, 0, 0, 0, 0,
    ],
    [
        0x12, 0x34, 0x56, 0x78, 0, 0, 0, 1, 0, 0, 4, 0x04, 0x80, 0, 0, 0x04, 0, 0, 0, 0x55, 0, 0, 0, 4, 0, 0, 4, 0, 0x80, 0, 0, 0,
        0x44, 0x33, 0x22, 0x11, 0, 0, 0, 0,
    ],
];

/// A call with all it needs of the bench: the file, a window or room for the image, the
/// first block or its place.
fn call(call: Call, what: &str, image: &[u8], order: u32) -> Case {
    let case = Case::new(call, what).order(order);
    match call {
        Call::ConvertWith => aa(case.file(&a()), 28),
        Call::CheckWith => case.file(&a()).image(image),
        Call::LoadImageWith => aa(case.image(image).number(0x400), 8),
        Call::BlockAtWith => case.image(image).number(4),
        Call::WalkWith => aa(case.image(image), 16),
        _ => case.image(image),
    }
}

/// Each call in the image's own order.
fn in_order(order: u32, all: &mut Vec<Entry>) {
    let image = &IMAGES[order as usize];
    let what = format!("P1 in order {order}");
    let new = |which: Call| call(which, &what, image, order);
    let (block, addresses) = (pack_block(16, 5), pack_addresses(0x400, 0x8000_0000));
    let step = [block.to_le_bytes(), addresses.to_le_bytes()].concat();
    all.push(Entry::new(new(Call::ConvertWith), pack_convert(28, 1), image));
    all.push(Entry::new(aa(new(Call::ConvertWith), 33), pack_convert(28, 1), image));
    all.push(Entry::new(aa(new(Call::ConvertWith), 27), refused(15, 0), &[]));
    all.push(Entry::new(new(Call::ConvertWith).row(b"*"), pack_convert(8, 0), &[0; 8]));
    all.push(Entry::new(new(Call::CheckWith), 0, &[]));
    all.push(Entry::new(new(Call::ReadWith), pack_read(0, 1), &[]));
    all.push(Entry::new(new(Call::BlockWith), block, &[]).addressed(addresses));
    all.push(Entry::new(new(Call::BlockWith).number(1), refused(30, 0), &[]).addressed(0));
    all.push(Entry::new(new(Call::LoadImageWith), pack_load(5), &RAW));
    all.push(Entry::new(aa(new(Call::LoadImageWith), 5), pack_load(5), &RAW));
    all.push(Entry::new(aa(new(Call::LoadImageWith), 4), refused(29, 0), &[]));
    all.push(Entry::new(new(Call::BlockAtWith), block, &[]).addressed(addresses));
    all.push(Entry::new(new(Call::BlockAtWith).number(24), 0, &[]).addressed(0));
    all.push(Entry::new(new(Call::BlockAtWith).number(28), refused(21, 0), &[]).addressed(0));
    all.push(Entry::new(new(Call::WalkWith), 0, &step));
    let p8 = &P8[order as usize];
    all.push(Entry::new(call(Call::ReadWith, "P8 with an entry point", p8, order), pack_read(0x1234_5678, 2), &[]));
    all.push(Entry::new(call(Call::CheckWith, "P8 with an entry point", p8, order), refused(40, 0), &[]));
    let second = pack_addresses(0x400, 0x8000_0000);
    all.push(Entry::new(call(Call::BlockWith, "P8's second", p8, order).number(1), pack_block(32, 4), &[]).addressed(second));
    all.push(Entry::new(call(Call::LoadImageWith, "P8 loaded", p8, order), pack_load(5), &RAW));
}

/// P10 and its like; and the bytes of the data, each made 0.
fn padding(order: u32, all: &mut Vec<Entry>) {
    for (number, &at) in PADDING[order as usize].iter().enumerate() {
        let mut image = IMAGES[order as usize];
        image[at] = 1;
        let what = format!("padding byte {number} in order {order}");
        for which in [Call::ReadWith, Call::BlockWith, Call::LoadImageWith, Call::CheckWith] {
            all.push(Entry::new(call(which, &what, &image, order), refused(25, 0), &[]));
        }
        let at_place = Entry::new(call(Call::BlockAtWith, &what, &image, order), pack_block(16, 5), &[]);
        all.push(at_place.addressed(pack_addresses(0x400, 0x8000_0000)));
    }
    // Where the fifth byte stands.
    let mut image = IMAGES[order as usize];
    image[if order < 2 { 20 } else { 23 }] = 0;
    let load = call(Call::LoadImageWith, "the fifth byte 0", &image, order);
    all.push(Entry::new(load, pack_load(5), &[0x11, 0x22, 0x33, 0x44, 0]));
}

/// Told another order, P1's image says another size, or has its fifth byte for padding.
fn otherwise(all: &mut Vec<Entry>) {
    for (stands, image) in IMAGES.iter().enumerate() {
        for told in 0..4 {
            let packed = match stands as u32 ^ told {
                0 => continue,
                2 => refused(25, 0),
                _ => refused(21, 0),
            };
            let what = format!("P1 in order {stands}, told {told}");
            for which in [Call::ReadWith, Call::BlockWith, Call::LoadImageWith, Call::CheckWith] {
                all.push(Entry::new(call(which, &what, image, told), packed, &[]));
            }
        }
    }
}

pub fn entries() -> Vec<Entry> {
    let mut all = Vec::new();
    for order in 0..4 {
        in_order(order, &mut all);
        padding(order, &mut all);
    }
    otherwise(&mut all);
    for which in CALLS_IN_ORDER {
        for order in [4, 5, 255, 256, 65_537, 0x8000_0000, 0xffff_ffff] {
            let case = call(which, "no order", &IMAGES[0], order);
            all.push(Entry::new(case, refused(33, 0), &[]).addressed(0));
            if which.has_patterns() {
                let case = call(which, "no order, and no pattern either", &IMAGES[0], order).row(b"\0");
                all.push(Entry::new(case, refused(17, 0), &[]));
            }
        }
        // 33 before 28, and before what is wrong with an image that is none.
        let wrong = aa(call(which, "no order, and more", &[], 4).number(1 << 32), 1);
        let wrong = if which.reads_image() { wrong } else { wrong.file(&[]) };
        all.push(Entry::new(wrong, refused(33, 0), &[]));
    }
    all
}
