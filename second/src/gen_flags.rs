//! Flags of sections that are kept for their type, of plain ones, and of those that
//! are not kept; many of these would be if one thing were otherwise.

use crate::make::Section;
use crate::rng::Rng;

const TYPED: [u32; 9] = [0x20, 0x40, 0x8000, 0x60, 0x520, 0x8020, 0x8060, 0x1_0040, 0x7020];
const PLAIN: [u32; 9] = [0, 0, 0, 0x100, 0x500, 0x1000, 0x4000, 0x1_0000, 0xffff_7f00];
const NOT_KEPT: [u32; 13] = [0x80, 0x80, 0x01, 0x21, 0x22, 0x42, 0x30, 0x8010, 0x08, 0x8002, 0x73, 0x1004, 0x4080];
const LEFT_OUT: u32 = 0x13;
const WANTED: u32 = 0x8060;
/// A plain section has none of these.
const LISTED: u32 = 0x80ff;
/// Each of them by itself neither keeps a section nor lets it be a plain one.
const NOT_PLAIN: [u32; 6] = [0x1, 0x2, 0x4, 0x8, 0x10, 0x80];

pub fn is_plain(section: &Section) -> bool {
    section.flags & LISTED == 0
}

pub fn plain(rng: &mut Rng) -> u32 {
    match rng.below(4) {
        0 => rng.next() as u32 & !LISTED,
        _ => rng.pick(&PLAIN),
    }
}

/// Of a section that is kept where size and raw data offset are sound.
pub fn kept(rng: &mut Rng) -> u32 {
    match rng.below(6) {
        0 => (rng.next() as u32 & !LEFT_OUT) | rng.pick(&[0x20, 0x40, 0x8000]),
        1 | 2 => plain(rng),
        _ => rng.pick(&TYPED),
    }
}

/// A section that is not kept may have anything in its other fields.
pub fn not_kept(rng: &mut Rng, headers_end: usize, section: &mut Section) {
    section.run = rng.next() as u32;
    section.load = rng.next() as u32;
    let end = headers_end as u32;
    section.raw = if rng.one_in(2) { rng.pick(&[0, 1, end - 1, end]) } else { rng.next() as u32 >> rng.below(32) };
    section.size = if rng.one_in(2) { rng.range(1, 9) as u32 } else { rng.next() as u32 >> rng.below(32) };
    section.flags = match rng.below(8) {
        0 => {
            section.size = 0;
            kept(rng)
        }
        1 => rng.next() as u32 & !WANTED | rng.pick(&NOT_PLAIN),
        2 => rng.next() as u32 | rng.pick(&[0x1, 0x2, 0x10]),
        3 => {
            section.raw = 0;
            plain(rng)
        }
        4 => plain(rng) | rng.pick(&NOT_PLAIN),
        _ => rng.pick(&NOT_KEPT),
    };
}
