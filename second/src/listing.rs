//! The listing: its text, the call that writes it into lent bytes (rule 15), and
//! what the program prints for its standard input.

use std::fmt::Write;

use crate::answer::{refusal, Refusal};
use crate::coff::{read_coff, Coff};
use crate::image::image_length;

/// More room than any text takes: 256 lines of at most 45 bytes, and two more.
pub const TEXT_ROOM: u64 = 16_384;

/// The program's input buffer.
pub const INPUT_MOST: usize = 65_536;

/// The text of a file that rules 1 to 13 accept. Rule 14 is not asked: the last
/// line tells any image length.
pub fn text_of(coff: &Coff) -> String {
    let program = &coff.program;
    let mut text = String::new();
    let kept = program.blocks.len();
    writeln!(text, "coff sections {} kept {} entry {:08X}", coff.sections, kept, program.entry).unwrap();
    for b in &program.blocks {
        writeln!(text, "{} load {:08X} run {:08X} size {}", b.index, b.load, b.run, b.size).unwrap();
    }
    writeln!(text, "image {}", image_length(program)).unwrap();
    text
}

/// The length of the text, which goes to the start of `out`.
pub fn list(file: &[u8], out: &mut [u8]) -> Result<u64, Refusal> {
    let text = text_of(&read_coff(file)?);
    if out.len() < text.len() {
        return Err(refusal(15, 0));
    }
    out[..text.len()].copy_from_slice(text.as_bytes());
    Ok(text.len() as u64)
}

/// What the program prints when this is its standard input.
pub fn printed(input: &[u8]) -> String {
    if input.len() > INPUT_MOST {
        return "input over 65536\n".to_string();
    }
    match read_coff(input) {
        Ok(coff) => text_of(&coff),
        Err(r) => format!("refused {} {}\n", r.code, r.index),
    }
}
