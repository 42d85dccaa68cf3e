//! Names for the sections of a sound file, in the headers and in a string table
//! behind the raw data; and names that cannot be read.

use crate::fields::put_u32;
use crate::gen_file::Made;
use crate::rng::Rng;

/// Bytes that end the string table without a zero byte: where the last offsets
/// lead, there is no name.
const TAIL: &[u8] = b"no end";

/// What cases are made from: usual ones, ones that differ in a byte, and the
/// characters that mean something in a pattern.
const USUAL: [&str; 16] = [
    "", ".text", ".data", ".stack", ".stac", ".test1", ".test12", ".s001", ".debug_l", ".TEXT", "*", "?", "a", "aab",
    "a*b?", "aaaaaaaa",
];
const LONG: [&str; 6] =
    [".debug_line", ".test_suite_one", "aaaaaaaaab", ".stack_of_the_second_task", "abababababababab", ".cinit:of:boot"];

fn usual(rng: &mut Rng) -> Vec<u8> {
    match rng.below(8) {
        0..=3 => rng.pick(&USUAL).as_bytes().to_vec(),
        4 | 5 => rng.pick(&LONG).as_bytes().to_vec(),
        // few letters, so that patterns of the same letters take some of them
        6 => {
            let length = rng.index(20);
            (0..length).map(|_| rng.pick(b"ab*")).collect()
        }
        _ => {
            let length = rng.index(12);
            (0..length).map(|_| rng.range(1, 255) as u8).collect()
        }
    }
}

/// The string table that is made while names go into it.
struct Strings(Vec<u8>);

impl Strings {
    /// The offset of this name; a name that ends like an earlier one shares it.
    fn offset(&mut self, rng: &mut Rng, name: &[u8]) -> u32 {
        let mut ended = name.to_vec();
        ended.push(0);
        let shared = (4..self.0.len()).find(|&at| self.0[at..].starts_with(&ended));
        let at = match shared {
            Some(at) if rng.one_in(2) => at,
            _ => {
                self.0.extend_from_slice(&ended);
                self.0.len() - ended.len()
            }
        };
        at as u32
    }

    /// What the header has for a name that is in the header if it can be.
    fn field(&mut self, rng: &mut Rng, name: &[u8]) -> [u8; 8] {
        let mut field = [0; 8];
        if name.len() > 8 || rng.one_in(4) {
            put_u32(&mut field, 4, self.offset(rng, name));
            return field;
        }
        field[..name.len()].copy_from_slice(name);
        // Behind the zero byte anything may stand; before an offset it may not.
        if (1..7).contains(&name.len()) && rng.one_in(2) {
            field[name.len() + 1..].fill(rng.next() as u8);
        }
        field
    }
}

/// Names all sections, and answers their names. The symbol table and the string
/// table stand at the end of the file.
pub fn give(rng: &mut Rng, made: &mut Made) -> Vec<Vec<u8>> {
    let mut strings = Strings(vec![0; 4]);
    let names: Vec<Vec<u8>> = made.file.sections.iter().map(|_| usual(rng)).collect();
    for (section, name) in made.file.sections.iter_mut().zip(&names) {
        section.name = strings.field(rng, name);
    }
    let mut table = strings.0;
    table.extend_from_slice(TAIL);
    // The size says exactly this, less by the tail, or more than the file has.
    let length = table.len() as u32;
    let size = match rng.below(6) {
        0 => length - TAIL.len() as u32,
        1 => length + 1,
        2 => rng.pick(&[0xffff_ffff, 0x8000_0000, length + 1000]),
        _ => length,
    };
    put_u32(&mut table, 0, size);
    let symbols = rng.pick(&[0, 0, 1, 2, 5]);
    made.file.symbols_in_body = Some(made.file.body.len());
    made.file.symbols = symbols;
    let symbol_table = rng.bytes(18 * symbols as usize);
    made.file.body.extend_from_slice(&symbol_table);
    made.file.body.extend_from_slice(&table);
    names
}

/// The length of the string table that was made above, if one was.
fn table_length(made: &Made) -> Option<u32> {
    let file = &made.file;
    let symbols_at = file.symbols_in_body?;
    Some((file.body.len() - symbols_at) as u32 - 18 * file.symbols)
}

/// A field for a name that cannot be read.
pub fn unreadable(rng: &mut Rng, made: &Made) -> [u8; 8] {
    let offset = match (rng.below(6), table_length(made)) {
        (2, Some(length)) => length - rng.range(1, TAIL.len() as u64) as u32,
        (3, Some(length)) => length,
        (4, Some(length)) => length + rng.below(40) as u32,
        (5, _) => rng.pick(&[0xffff_ffff, 0x8000_0000, 0x0100_0001]),
        _ => rng.range(1, 3) as u32,
    };
    let mut field = [0; 8];
    put_u32(&mut field, 4, offset);
    field
}
