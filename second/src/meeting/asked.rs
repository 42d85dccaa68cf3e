//! The calls that read an image, asked about one: what rule 27 does not refuse goes on to
//! what the call itself does.

use super::plan::{Plan, ENTRY};
use crate::calls::{Call, Case};
use crate::coff::MOST_SECTIONS;
use crate::gen_check::join;
use crate::gen_image::hull;
use crate::make::{optional_header, File, Image, Piece, Section};
use crate::ordered::in_order;

pub const ASKED: [Call; 4] = [Call::Read, Call::Block, Call::LoadImage, Call::Check];

/// The four calls, without an order and told one.
pub fn each() -> impl Iterator<Item = (Call, bool)> {
    ASKED.into_iter().flat_map(|call| [(call, false), (call, true)])
}

/// Which call, and in which order if it is one that takes an order.
#[derive(Clone, Copy, Debug)]
pub struct Asked {
    pub call: Call,
    pub order: Option<u32>,
    /// Not what the call needs to succeed, but less: it refuses an image that is sound too,
    /// by a rule that comes behind 27.
    pub refused: bool,
}

/// Of more than this no window is lent.
const MOST_WINDOW: u64 = 100_000;

/// A file of the right entry point that places nothing.
fn no_sections() -> File {
    File { optional: optional_header(0x0108, ENTRY), ..File::empty() }
}

/// A file that places what these blocks do, if so many sections can.
fn file_of(blocks: &[Piece]) -> Option<File> {
    let mut joined = blocks.to_vec();
    join(&mut joined);
    if joined.len() > MOST_SECTIONS {
        return None;
    }
    let mut file = no_sections();
    let mut raw = file.headers_end() + 48 * joined.len();
    for piece in &joined {
        let (load, run, size) = (piece.load, piece.run, piece.data.len() as u32);
        file.sections.push(Section { load, run, size, raw: raw as u32, flags: 0x20, ..Section::default() });
        raw += piece.data.len();
    }
    file.body = joined.into_iter().flat_map(|piece| piece.data).collect();
    Some(file)
}

/// The call on this image, and what it answers if the image is sound. A file is that of the
/// image `like`, and a window is around all these blocks, so that an image which is wrongly
/// taken would pass.
fn call_on(asked: Asked, what: &str, image: &Image, like: &Image, around: &[Piece]) -> (Case, u8) {
    let case = Case::new(asked.call, what).image_input(image.input());
    let blocks = image.blocks.len() as u64;
    match asked.call {
        Call::Block if asked.refused || blocks == 0 => (case.number(blocks), 30),
        Call::Block => (case.number(blocks - 1), 0),
        Call::LoadImage => {
            let (low, high) = hull(around);
            let short = asked.refused || high - low > MOST_WINDOW;
            let length = if short { (high - low).min(64).saturating_sub(1) } else { high - low };
            (case.number(low).lent(length), if short && blocks > 0 { 29 } else { 0 })
        }
        Call::Check => match file_of(&like.blocks).filter(|_| !asked.refused) {
            Some(file) => (case.file_input(file.input()), if like.blocks == image.blocks { 0 } else { 41 }),
            None => (case.file_input(no_sections().input()), if blocks > 0 { 41 } else { 0 }),
        },
        _ => (case, 0),
    }
}

fn in_its_order(case: Case, asked: Asked) -> Case {
    match asked.order {
        Some(order) => in_order(&case, order).expect("a call that takes an order"),
        None => case,
    }
}

/// The call on the image of a plan.
pub fn case(asked: Asked, plan: &Plan) -> Case {
    let image = plan.image();
    let (case, code) = match plan.index() {
        Some(_) => {
            let sound = plan.sound();
            let around = [&image.blocks[..], &sound.blocks[..]].concat();
            call_on(asked, &plan.what(), &image, &sound, &around)
        }
        // A block may lie elsewhere than without the change.
        None => call_on(asked, &plan.what(), &image, &image, &image.blocks),
    };
    let case = match (plan.index(), code) {
        (Some(later), _) => case.expect_at(27, later as u64),
        // Which block is the first outside is not known here.
        (None, 29) => case.expect(29),
        (None, code) => case.expect_at(code, 0),
    };
    in_its_order(case, asked)
}

/// The call on an image that another rule refuses before 27 is asked; `like` is sound.
pub fn refused_case(asked: Asked, what: &str, image: &Image, like: &Image, code: u8, index: usize) -> Case {
    let (case, _) = call_on(asked, what, image, like, &like.blocks);
    in_its_order(case.expect_at(code, index as u64), asked)
}
