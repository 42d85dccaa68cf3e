//! The check of an image against a file: rules 17, 33, 40 and 41.
//!
//! A program gives to some addresses a byte and a run address, and to all
//! others nothing. Its load ranges do not meet, so sorting the blocks by load
//! address lists these addresses in order. Two such lists are walked side by
//! side, a stretch at a time: a stretch ends where a block of either ends.

use crate::answer::{because, refusal, Refusal};
use crate::coff::read_coff_with;
use crate::image::read_image;
use crate::order::{read_order, undone};
use crate::patterns::read_patterns;
use crate::program::{Block, Program};

fn by_load(program: &Program) -> Vec<&Block> {
    let mut blocks: Vec<&Block> = program.blocks.iter().collect();
    blocks.sort_by_key(|b| b.load);
    blocks
}

/// What is left of a block after its first `done` bytes.
struct Rest<'a> {
    load: u64,
    run: u64,
    bytes: &'a [u8],
}

fn rest<'a>(block: &Block, source: &'a [u8], done: usize) -> Rest<'a> {
    Rest {
        load: block.load + done as u64,
        run: block.run + done as u64,
        bytes: &block.bytes(source)[done..],
    }
}

/// None when both give the same byte and run address to the same addresses,
/// else the first difference found.
pub fn placement_differs(
    a: &Program,
    a_source: &[u8],
    b: &Program,
    b_source: &[u8],
) -> Option<&'static str> {
    let (left, right) = (by_load(a), by_load(b));
    let (mut i, mut j) = (0, 0);
    let (mut i_done, mut j_done) = (0, 0);
    while i < left.len() && j < right.len() {
        let x = rest(left[i], a_source, i_done);
        let y = rest(right[j], b_source, j_done);
        if x.load < y.load {
            return Some("only in file");
        }
        if y.load < x.load {
            return Some("only in image");
        }
        if x.run != y.run {
            return Some("run address");
        }
        let both = x.bytes.len().min(y.bytes.len());
        if x.bytes[..both] != y.bytes[..both] {
            return Some("byte");
        }
        i_done += both;
        if i_done == left[i].size as usize {
            (i, i_done) = (i + 1, 0);
        }
        j_done += both;
        if j_done == right[j].size as usize {
            (j, j_done) = (j + 1, 0);
        }
    }
    if i < left.len() {
        return Some("only in file");
    }
    if j < right.len() {
        return Some("only in image");
    }
    None
}

pub fn check(file: &[u8], image: &[u8], row: &[u8]) -> Result<(), Refusal> {
    let a = read_coff_with(file, &read_patterns(row)?)?.program;
    let b = read_image(image)?;
    if a.entry != b.entry {
        return Err(refusal(40, 0));
    }
    match placement_differs(&a, file, &b, image) {
        Some(cause) => Err(because(41, 0, cause)),
        None => Ok(()),
    }
}

/// The order is that of the image.
pub fn check_with(file: &[u8], image: &[u8], row: &[u8], order: u32) -> Result<(), Refusal> {
    read_patterns(row)?;
    let order = read_order(order)?;
    check(file, &undone(image, order), row)
}
