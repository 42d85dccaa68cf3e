//! Placing blocks into a window: rules 17 or 33, 28, the rules of the input, rule 29.

use crate::answer::{because, Refusal, ADDRESSES, MOST};
use crate::coff::read_coff_with;
use crate::image::read_image;
use crate::order::{read_order, undone};
use crate::patterns::read_patterns;
use crate::program::Program;

fn ask_window(base: u64, length: u64) -> Result<(), Refusal> {
    if length > MOST {
        return Err(because(28, 0, "length"));
    }
    // 128 bits, because the caller may give any base.
    if u128::from(base) + u128::from(length) > u128::from(ADDRESSES) {
        return Err(because(28, 0, "base + length"));
    }
    Ok(())
}

/// Decides rule 29 for every block, then writes.
fn place(program: &Program, source: &[u8], base: u64, window: &mut [u8]) -> Result<u64, Refusal> {
    let end = base + window.len() as u64;
    for block in &program.blocks {
        if block.load < base {
            return Err(because(29, block.index, "begins before"));
        }
        if block.load_end() > end {
            return Err(because(29, block.index, "ends after"));
        }
    }
    let mut placed = 0;
    for block in &program.blocks {
        let first = (block.load - base) as usize;
        window[first..first + block.size as usize].copy_from_slice(block.bytes(source));
        placed += block.size;
    }
    Ok(placed)
}

pub fn load_image(image: &[u8], base: u64, window: &mut [u8]) -> Result<u64, Refusal> {
    ask_window(base, window.len() as u64)?;
    let program = read_image(image)?;
    place(&program, image, base, window)
}

/// An image in this order; its bytes stand in the window as those of order 0 do.
pub fn load_image_with(image: &[u8], base: u64, window: &mut [u8], order: u32) -> Result<u64, Refusal> {
    let order = read_order(order)?;
    load_image(&undone(image, order), base, window)
}

pub fn load_coff(file: &[u8], base: u64, window: &mut [u8], row: &[u8]) -> Result<u64, Refusal> {
    let patterns = read_patterns(row)?;
    ask_window(base, window.len() as u64)?;
    let coff = read_coff_with(file, &patterns)?;
    place(&coff.program, file, base, window).map_err(|refused| coff.of_section(refused))
}
