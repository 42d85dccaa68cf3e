//! The boundaries, each with the last input that passes and the first that
//! does not. Large inputs are made only when their turn comes.

mod big;
mod files;
mod images;
mod places;
mod plain;
mod texts;
mod windows;

use crate::calls::Case;
use crate::make::{optional_header, File, Section};

pub type Maker = Box<dyn Fn() -> Case>;

/// A file with sections (load, run, size) that lie one after the other behind
/// the headers.
fn file_of(sections: &[(u32, u32, u32)], entry: Option<u32>) -> File {
    let mut file = File::empty();
    if let Some(entry) = entry {
        file.optional = optional_header(0x0108, entry);
    }
    let mut raw = 22 + file.optional.len() + 48 * sections.len();
    for &(load, run, size) in sections {
        file.sections.push(Section { load, run, size, raw: raw as u32, flags: 0x20, ..Section::default() });
        raw += size as usize;
    }
    let total: usize = sections.iter().map(|s| s.2 as usize).sum();
    file.body = (0..total).map(|i| (i * 7 + i / 251 + 1) as u8).collect();
    file
}

pub fn makers() -> Vec<Maker> {
    let mut all = Vec::new();
    files::small(&mut all);
    files::counts(&mut all);
    images::small(&mut all);
    images::counts(&mut all);
    windows::small(&mut all);
    big::files(&mut all);
    big::images(&mut all);
    // Last, for places and fills go by number: the others keep theirs.
    texts::rooms(&mut all);
    texts::refused(&mut all);
    texts::big(&mut all);
    big::measured(&mut all);
    places::long_images(&mut all);
    places::walked(&mut all);
    plain::sections(&mut all);
    all
}
