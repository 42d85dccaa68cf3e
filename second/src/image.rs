//! A boot image: measuring and writing one (rules 17, 33, 14 and 15), reading one (33,
//! 20 to 27), asking for one block (30).

use crate::answer::{because, refusal, Refusal, ADDRESSES, MOST};
use crate::coff::read_coff_with;
use crate::fields::{push_u32, u32_at, up_to_four};
use crate::order::{read_order, undone, written};
use crate::patterns::read_patterns;
use crate::program::{first_that_meets, lies, Block, Program};

pub const MOST_BLOCKS: usize = 4096;

/// 8, and for each block 12 and its size rounded up to a multiple of four.
pub fn image_length(program: &Program) -> u64 {
    8 + program.blocks.iter().map(|b| 12 + up_to_four(b.size)).sum::<u64>()
}

/// The image of a program whose raw bytes lie in `source`.
pub fn image_of(program: &Program, source: &[u8]) -> Vec<u8> {
    let mut image = Vec::new();
    push_u32(&mut image, program.entry);
    for block in &program.blocks {
        push_u32(&mut image, block.size as u32);
        push_u32(&mut image, block.load as u32);
        push_u32(&mut image, block.run as u32);
        image.extend_from_slice(block.bytes(source));
        while image.len() % 4 != 0 {
            image.push(0);
        }
    }
    push_u32(&mut image, 0);
    image
}

/// What the file becomes, and the length of its image.
fn to_write(file: &[u8], row: &[u8]) -> Result<(Program, u64), Refusal> {
    let program = read_coff_with(file, &read_patterns(row)?)?.program;
    let length = image_length(&program);
    if length > MOST {
        return Err(refusal(14, 0));
    }
    Ok((program, length))
}

/// Image length and number of kept sections.
pub fn measure(file: &[u8], row: &[u8]) -> Result<(u64, u64), Refusal> {
    to_write(file, row).map(|(program, length)| (length, program.blocks.len() as u64))
}

/// The same; the image at the start of `out`.
pub fn convert(file: &[u8], out: &mut [u8], row: &[u8]) -> Result<(u64, u64), Refusal> {
    let (program, length) = to_write(file, row)?;
    if (out.len() as u64) < length {
        return Err(refusal(15, 0));
    }
    let image = image_of(&program, file);
    assert_eq!(image.len() as u64, length);
    out[..image.len()].copy_from_slice(&image);
    Ok((length, program.blocks.len() as u64))
}

/// The same, in this order. It is as long in every order.
pub fn convert_with(file: &[u8], out: &mut [u8], row: &[u8], order: u32) -> Result<(u64, u64), Refusal> {
    read_patterns(row)?;
    let order = read_order(order)?;
    let (length, kept) = convert(file, out, row)?;
    let image = &mut out[..length as usize];
    let turned = written(image, order);
    image.copy_from_slice(&turned);
    Ok((length, kept))
}

/// An image in this order.
pub fn read_image_with(image: &[u8], order: u32) -> Result<Program, Refusal> {
    let order = read_order(order)?;
    read_image(&undone(image, order))
}

pub fn read_image(image: &[u8]) -> Result<Program, Refusal> {
    let length = image.len() as u64;
    if length > MOST {
        return Err(refusal(20, 0));
    }
    if length < 4 {
        return Err(because(21, 0, "entry point"));
    }
    let entry = u32_at(image, 0);
    let mut blocks = Vec::new();
    // Offset of the next size field. In 64 bits a size cannot make it wrap.
    let mut at: u64 = 4;
    loop {
        let whole = blocks.len();
        if at == length {
            return Err(because(21, whole, "no end flag"));
        }
        if at + 4 > length {
            return Err(because(21, whole, "size field"));
        }
        let size = u64::from(u32_at(image, at as usize));
        if size == 0 {
            at += 4;
            break;
        }
        if whole == MOST_BLOCKS {
            return Err(refusal(22, MOST_BLOCKS));
        }
        let raw = at + 12;
        let raw_end = raw + size;
        let next = raw + up_to_four(size);
        if raw > length {
            return Err(because(21, whole, "address fields"));
        }
        if raw_end > length {
            return Err(because(21, whole, "data"));
        }
        if next > length {
            return Err(because(21, whole, "padding"));
        }
        let load = u64::from(u32_at(image, at as usize + 4));
        let run = u64::from(u32_at(image, at as usize + 8));
        if load + size > ADDRESSES {
            return Err(refusal(23, whole));
        }
        if run + size > ADDRESSES {
            return Err(refusal(24, whole));
        }
        if image[raw_end as usize..next as usize].iter().any(|&b| b != 0) {
            return Err(refusal(25, whole));
        }
        blocks.push(Block { index: whole, load, run, size, raw: raw as usize });
        at = next;
    }
    if at != length {
        return Err(refusal(26, blocks.len()));
    }
    if let Some((earlier, later)) = first_that_meets(&blocks) {
        return Err(because(27, later.index, lies(earlier, later)));
    }
    Ok(Program { entry, blocks })
}

/// The block with this number.
pub fn ask_block(image: &[u8], number: u64) -> Result<Block, Refusal> {
    let program = read_image(image)?;
    if number >= program.blocks.len() as u64 {
        return Err(refusal(30, 0));
    }
    Ok(program.blocks[number as usize].clone())
}

/// The offset of its bytes is the same in every order.
pub fn ask_block_with(image: &[u8], number: u64, order: u32) -> Result<Block, Refusal> {
    let order = read_order(order)?;
    ask_block(&undone(image, order), number)
}
