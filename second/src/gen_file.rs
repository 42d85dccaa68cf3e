//! Sound COFF files.

use crate::answer::ADDRESSES;
use crate::gen_flags;
use crate::layout::{layout, size};
use crate::make::{optional_header, pad, File, Image, Piece, Section};
use crate::rng::Rng;

/// A file, and which of its sections are kept: known from how it was made.
#[derive(Clone)]
pub struct Made {
    pub file: File,
    pub kept: Vec<usize>,
}

impl Made {
    pub fn entry(&self) -> u32 {
        match self.file.optional.get(16..20) {
            Some(b) => u32::from_le_bytes([b[0], b[1], b[2], b[3]]),
            None => 0,
        }
    }

    /// The kept sections with their raw bytes. The file must be sound.
    pub fn pieces(&self) -> Vec<Piece> {
        let bytes = self.file.bytes();
        let piece = |&i: &usize| {
            let s = &self.file.sections[i];
            let raw = s.raw as usize;
            Piece::new(s.load, s.run, &bytes[raw..raw + s.size as usize])
        };
        self.kept.iter().map(piece).collect()
    }

    /// All its kept sections become plain ones.
    pub fn make_plain(&mut self, rng: &mut Rng) {
        for &i in &self.kept {
            self.file.sections[i].flags = gen_flags::plain(rng);
        }
    }

    pub fn image(&self) -> Image {
        Image::new(self.entry(), self.pieces())
    }

    pub fn image_length(&self) -> u64 {
        let sections = self.kept.iter().map(|&i| self.file.sections[i].size as usize);
        sections.map(|s| 12 + s as u64 + pad(s) as u64).sum::<u64>() + 8
    }

    /// The length of the listing: fixed words, eight digits for each address,
    /// and as many for each other number as it has.
    pub fn text_length(&self) -> u64 {
        let digits = |n: u64| n.to_string().len() as u64;
        let head = 36 + digits(self.file.sections.len() as u64) + digits(self.kept.len() as u64);
        let line = |&i: &usize| 34 + digits(i as u64) + digits(u64::from(self.file.sections[i].size));
        head + self.kept.iter().map(line).sum::<u64>() + 7 + digits(self.image_length())
    }

    /// First load address of the kept sections and one more than the last.
    pub fn hull(&self) -> (u64, u64) {
        let s = |i: &usize| &self.file.sections[*i];
        let low = self.kept.iter().map(|i| u64::from(s(i).load)).min();
        let high = self.kept.iter().map(|i| u64::from(s(i).load) + u64::from(s(i).size)).max();
        (low.unwrap_or(0), high.unwrap_or(0))
    }
}

/// Where raw data lies after the headers, for these sizes; and all of it.
fn raw_data(rng: &mut Rng, sizes: &[u64]) -> (Vec<usize>, Vec<u8>) {
    let mut at = vec![0; sizes.len()];
    let mut length = 0;
    match rng.below(5) {
        // shared: each begins anywhere in one stretch
        0 => {
            length = *sizes.iter().max().unwrap_or(&0) as usize + rng.index(6);
            for (i, &s) in sizes.iter().enumerate() {
                at[i] = rng.index(length - s as usize + 1);
            }
        }
        way => {
            let mut order: Vec<usize> = (0..sizes.len()).collect();
            if way == 1 {
                order.reverse();
            }
            for i in order {
                if way == 2 {
                    length += rng.index(5);
                }
                at[i] = length;
                length += sizes[i] as usize;
            }
        }
    }
    // Otherwise the last raw byte is the last of the file.
    if rng.one_in(2) {
        length += rng.index(20);
    }
    (at, rng.bytes(length))
}

/// A sound file with sections whose kept ones have these sizes; `None` stands
/// for one that is not kept.
pub fn sound_of(rng: &mut Rng, plan: &[Option<u64>]) -> Made {
    let sizes: Vec<u64> = plan.iter().flatten().copied().collect();
    let places = layout(rng, &sizes);
    let (raw, body) = raw_data(rng, &sizes);
    let mut file = File::empty();
    file.time = rng.next() as u32;
    file.symbols_at = rng.next() as u32;
    file.symbols = rng.next() as u32;
    file.flags = match rng.below(3) {
        0 => rng.next() as u16 | 2,
        _ => rng.pick(&[0x0002, 0x0003, 0x0103, 0x0117, 0x0207]),
    };
    if rng.one_in(2) {
        file.optional = rng.bytes(28);
        file.optional[..2].copy_from_slice(&0x0108u16.to_le_bytes());
    }
    file.body = body;
    let headers_end = 22 + file.optional.len() + 48 * plan.len();
    let mut kept = Vec::new();
    for (i, size) in plan.iter().enumerate() {
        let mut section = Section {
            reserved: rng.next() as u16,
            page: rng.next() as u16,
            ..Section::default()
        };
        section.name.copy_from_slice(&rng.next().to_le_bytes());
        section.relocation.copy_from_slice(&rng.bytes(16));
        match size {
            None => gen_flags::not_kept(rng, headers_end, &mut section),
            Some(size) => {
                let rank = kept.len();
                section.load = places.loads[rank];
                section.run = places.runs[rank];
                section.size = *size as u32;
                section.raw = (headers_end + raw[rank]) as u32;
                section.flags = gen_flags::kept(rng);
                kept.push(i);
            }
        }
        file.sections.push(section);
    }
    Made { file, kept }
}

pub fn sound(rng: &mut Rng) -> Made {
    let sections = match rng.below(20) {
        0 => 0,
        1..=6 => 1,
        7..=12 => 2,
        13..=16 => 3,
        17 | 18 => rng.range(4, 7),
        _ => rng.range(8, 14),
    };
    let plan: Vec<Option<u64>> = (0..sections)
        .map(|_| if rng.one_in(4) { None } else { Some(size(rng, 1)) })
        .collect();
    sound_of(rng, &plan)
}

/// Sections that share this many raw bytes: the only way to an image that is
/// longer than its file. Every other one is plain.
pub fn sharing(rng: &mut Rng, sections: usize, size: u64) -> Made {
    let mut file = File::empty();
    file.optional = optional_header(0x0108, rng.next() as u32);
    let headers_end = 22 + 28 + 48 * sections;
    for i in 0..sections {
        file.sections.push(Section {
            load: (i as u64 * size) as u32,
            run: (ADDRESSES - size) as u32,
            size: size as u32,
            raw: headers_end as u32,
            flags: if i % 2 == 0 { 0x20 } else { 0 },
            ..Section::default()
        });
    }
    file.body = rng.bytes(size as usize);
    Made { file, kept: (0..sections).collect() }
}

/// A file whose image would be over the limit.
pub fn image_too_long(rng: &mut Rng) -> Made {
    let size = 65_524 + rng.below(4);
    sharing(rng, 256, size)
}
