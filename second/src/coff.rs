//! A COFF file as read: rules 1 to 13, and 16 where there are patterns.

use crate::answer::{because, refusal, Refusal, ADDRESSES, MOST};
use crate::fields::{u16_at, u32_at};
use crate::names::{name, string_table};
use crate::patterns::any_takes;
use crate::program::{first_that_meets, Block, Program};

pub const FILE_HEADER: usize = 22;
pub const OPTIONAL_HEADER: usize = 28;
pub const SECTION_HEADER: usize = 48;
pub const MOST_SECTIONS: usize = 256;

const DSECT: u32 = 0x1;
const NOLOAD: u32 = 0x2;
const COPY: u32 = 0x10;
const TEXT: u32 = 0x20;
const DATA: u32 = 0x40;
const BSS: u32 = 0x80;
const VECTOR: u32 = 0x8000;

/// A section with none of these is a plain one. For 4h and 8h the papers have no name.
const LISTED: [u32; 9] = [DSECT, NOLOAD, 0x4, 0x8, COPY, TEXT, DATA, BSS, VECTOR];

pub struct Coff {
    /// All sections, kept or not.
    pub sections: usize,
    /// Entry point and kept sections.
    pub program: Program,
    /// How many sections a pattern took that would have been kept.
    pub left_out: usize,
    /// Which of the sections that were kept, or would have been, are plain ones.
    pub plain: Vec<usize>,
}

impl Coff {
    /// The refusal of a section of this file, with its kind.
    pub fn of_section(&self, refused: Refusal) -> Refusal {
        Refusal { plain: self.plain.contains(&(refused.index as usize)), ..refused }
    }
}

/// The public manual's regular section, of no type. Flags that are not in the list,
/// such as those of the alignment, say nothing about the type.
pub fn is_plain(flags: u32) -> bool {
    LISTED.iter().all(|flag| flags & flag == 0)
}

/// A section with these flags, this size and this raw data offset goes into the image.
pub fn is_kept(flags: u32, size: u32, raw: u32) -> bool {
    let left_out = flags & DSECT != 0 || flags & NOLOAD != 0 || flags & COPY != 0;
    let wanted = flags & TEXT != 0 || flags & DATA != 0 || flags & VECTOR != 0;
    // No flag tells whether a plain one has raw data: its offset does. Of the others
    // that is not asked here, and offset 0 is against rule 10.
    let loaded = is_plain(flags) && raw != 0;
    size != 0 && (!left_out && wanted || loaded)
}

/// With no pattern no name is looked at.
pub fn read_coff(file: &[u8]) -> Result<Coff, Refusal> {
    read_coff_with(file, &[])
}

pub fn read_coff_with(file: &[u8], patterns: &[&[u8]]) -> Result<Coff, Refusal> {
    let length = file.len();
    if length as u64 > MOST {
        return Err(refusal(1, 0));
    }
    if length < FILE_HEADER {
        return Err(refusal(2, 0));
    }
    let version = u16_at(file, 0);
    let sections = u16_at(file, 2) as usize;
    let optional_size = u16_at(file, 16) as usize;
    let flags = u16_at(file, 18);
    let target = u16_at(file, 20);
    if version != 0x00c2 {
        return Err(refusal(3, 0));
    }
    if target != 0x0099 {
        return Err(refusal(4, 0));
    }
    if optional_size != 0 && optional_size != OPTIONAL_HEADER {
        return Err(refusal(5, 0));
    }
    if flags & 0x0002 == 0 {
        return Err(refusal(6, 0));
    }
    if sections > MOST_SECTIONS {
        return Err(refusal(7, 0));
    }
    let first_header = FILE_HEADER + optional_size;
    let headers_end = first_header + SECTION_HEADER * sections;
    if length < headers_end {
        let cause = if length < first_header { "in optional header" } else { "in section headers" };
        return Err(because(8, 0, cause));
    }
    let mut entry = 0;
    if optional_size != 0 {
        if u16_at(file, FILE_HEADER) != 0x0108 {
            return Err(refusal(9, 0));
        }
        entry = u32_at(file, FILE_HEADER + 16);
    }

    let mut blocks = Vec::new();
    let mut left_out = 0;
    let mut plain_ones = Vec::new();
    let table = string_table(file);
    for index in 0..sections {
        let header = first_header + SECTION_HEADER * index;
        let run = u64::from(u32_at(file, header + 8));
        let load = u64::from(u32_at(file, header + 12));
        let size = u32_at(file, header + 16);
        let raw = u32_at(file, header + 20);
        let flags = u32_at(file, header + 40);
        if !is_kept(flags, size, raw) {
            continue;
        }
        let plain = is_plain(flags);
        if plain {
            plain_ones.push(index);
        }
        let refused = |code: u8, index: usize, cause: &'static str| Refusal { plain, ..because(code, index, cause) };
        if !patterns.is_empty() {
            let name = name(&file[header..], &table).map_err(|cause| refused(16, 0, cause))?;
            if any_takes(patterns, name) {
                left_out += 1;
                continue;
            }
        }
        let (size, raw) = (u64::from(size), u64::from(raw));
        if raw < headers_end as u64 {
            return Err(refused(10, index, "begins too early"));
        }
        if raw + size > length as u64 {
            return Err(refused(10, index, "ends too late"));
        }
        if load + size > ADDRESSES {
            return Err(refused(11, index, ""));
        }
        if run + size > ADDRESSES {
            return Err(refused(12, index, ""));
        }
        blocks.push(Block { index, load, run, size, raw: raw as usize });
    }
    let later = first_that_meets(&blocks).map(|(_, later)| later.index);
    let coff = Coff { sections, program: Program { entry, blocks }, left_out, plain: plain_ones };
    match later {
        Some(later) => Err(coff.of_section(refusal(13, later))),
        None => Ok(coff),
    }
}

#[cfg(test)]
mod tests {
    use super::is_kept;

    #[test]
    fn kept_flags() {
        for flags in [0x20, 0x40, 0x8000, 0x60, 0x520, 0x8020, 0x24, 0x28, 0xa0, 0xffff_ffec] {
            for raw in [0, 1, 70] {
                assert!(is_kept(flags, 1, raw), "{flags:x}");
                assert!(!is_kept(flags, 0, raw), "{flags:x}");
            }
        }
        for flags in [0x80, 0x21, 0x22, 0x30, 0x42, 0x8010, 0x01, 0x04, 0x08, 0x184, 0xffff_ffff] {
            assert!(!is_kept(flags, 1, 70), "{flags:x}");
        }
    }

    #[test]
    fn plain_sections() {
        for flags in [0, 0x100, 0xf00, 0x4000, 0x1_0000, 0xffff_7f00] {
            assert!(is_kept(flags, 1, 70) && is_kept(flags, 1, 1), "{flags:x}");
            assert!(!is_kept(flags, 1, 0) && !is_kept(flags, 0, 70), "{flags:x}");
        }
    }
}
