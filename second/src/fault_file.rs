//! Faults put into COFF files.

use crate::answer::{ADDRESSES, MOST};
use crate::fill::GUARDED_MOST;
use crate::gen_file::Made;
use crate::gen_flags::is_plain;
use crate::make::optional_header;
use crate::rng::Rng;

/// Rules that a file can break, one after the other as they are asked.
pub const FILE_FAULTS: [u8; 13] = [1, 2, 3, 4, 5, 6, 7, 8, 9, 10, 11, 12, 13];

/// An address at which this many bytes go over 2^32, by one byte in half of
/// the cases. One byte alone cannot.
pub fn too_high(rng: &mut Rng, size: u64) -> Option<u32> {
    if size < 2 {
        return None;
    }
    let over = if rng.one_in(2) { 1 } else { rng.range(1, (size - 1).min(1000)) };
    Some((ADDRESSES - size + over) as u32)
}

/// A load address for `size` bytes that meets the other range.
pub fn meeting(rng: &mut Rng, size: u64, other: u64, other_size: u64) -> u32 {
    let low = (other + 1).saturating_sub(size);
    let high = (other + other_size - 1).min(ADDRESSES - size);
    match rng.below(4) {
        0 => low as u32,
        1 => high as u32,
        _ => rng.range(low, high) as u32,
    }
}

/// A length over the limit. Most of them are so large that their lowest 32
/// bits are small. One byte over costs the driver time and is rare here.
pub fn length_over(rng: &mut Rng, bytes: u64) -> u64 {
    match rng.below(64) {
        0 => MOST + 1,
        1..=16 => GUARDED_MOST + 1 + rng.below(1000),
        _ => ADDRESSES + bytes + rng.below(3),
    }
}

/// Puts the fault with this code into the file: into kept section number `at`
/// of those kept, where it is one of a section. False when the file has
/// nothing to put it into.
pub fn damage(rng: &mut Rng, made: &mut Made, code: u8, at: usize) -> bool {
    let length = made.file.bytes().len();
    let headers_end = made.file.headers_end();
    let file = &mut made.file;
    match code {
        1 => file.length = Some(length_over(rng, length as u64)),
        2 => file.cut = Some(if rng.one_in(2) { 21 } else { rng.index(22) }),
        3 => file.version = rng.pick(&[0, 0x00c1, 0x00c3, 0x01c2, 0x80c2, 0xc200, 0x00c0, 0x014c, 0xffff]),
        4 => file.target = rng.pick(&[0, 0x0098, 0x009c, 0x0199, 0x8099, 0x9900, 0x009d, 0x0093, 0xffff]),
        5 => file.optional_size = Some(rng.pick(&[1, 2, 14, 22, 27, 29, 30, 56, 256, 284, 0x1c00, 0x8000, 0xffff])),
        6 => file.flags &= !2,
        7 => file.count = Some(rng.pick(&[257, 258, 512, 513, 0x8000, 0x8001, 0xff00, 0xffff])),
        8 => {
            if headers_end == 22 {
                // Without any header behind the first, one must be promised.
                let count = rng.range(1, 256) as u16;
                file.count.get_or_insert(count);
                file.cut = Some(22);
            } else {
                file.cut = Some(if rng.one_in(3) { headers_end - 1 } else { rng.range(22, headers_end as u64 - 1) as usize });
            }
        }
        9 => {
            if file.optional.is_empty() {
                for s in &mut file.sections {
                    s.raw = s.raw.wrapping_add(28);
                }
                file.optional = optional_header(0, rng.next() as u32);
            }
            let magic: u16 = rng.pick(&[0, 0x0107, 0x0109, 0x0801, 0x0008, 0x0100, 0x8108, 0xffff]);
            file.optional[..2].copy_from_slice(&magic.to_le_bytes());
        }
        10 => {
            let i = match made.kept.get(at) {
                Some(&i) => i,
                None => return false,
            };
            let s = &mut file.sections[i];
            // At offset 0 a plain section is not kept, and nothing is asked of it.
            let least = u64::from(is_plain(s));
            let size = s.size as usize;
            match rng.below(8) {
                0 => s.raw = headers_end as u32 - 1,
                1 => s.raw = rng.range(least, headers_end as u64 - 1) as u32,
                2 => s.raw = least as u32,
                3 => s.raw = length.saturating_sub(size) as u32 + 1,
                4 => s.raw = (length + rng.index(100)) as u32,
                // sums that leave 32 bits
                5 => s.raw = (ADDRESSES - size as u64) as u32,
                6 => s.raw = 0xffff_ffff,
                _ => s.size = rng.pick(&[0xffff_ffff, 0xffff_fffd, 0x8000_0000]),
            }
        }
        11 | 12 => {
            let section = match made.kept.get(at) {
                Some(&i) => &mut file.sections[i],
                None => return false,
            };
            match too_high(rng, u64::from(section.size)) {
                Some(load) if code == 11 => section.load = load,
                Some(run) => section.run = run,
                None => return false,
            }
        }
        13 => {
            if at == 0 || at >= made.kept.len() {
                return false;
            }
            let earlier = &file.sections[made.kept[rng.index(at)]];
            let (load, size) = (u64::from(earlier.load), u64::from(earlier.size));
            let later = &mut file.sections[made.kept[at]];
            later.load = meeting(rng, u64::from(later.size), load, size);
        }
        _ => unreachable!("no fault of a file has code {code}"),
    }
    true
}
