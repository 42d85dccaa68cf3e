//! What a COFF file and an image both describe: an entry point and blocks.

/// One kept section or one block of an image. Addresses and sizes are held in
/// 64 bits so that their sums are the mathematical ones.
#[derive(Clone, Debug, PartialEq, Eq)]
pub struct Block {
    /// Index of the section among all sections, or of the block.
    pub index: usize,
    pub load: u64,
    pub run: u64,
    pub size: u64,
    /// Where the raw bytes begin in the file or image.
    pub raw: usize,
}

impl Block {
    /// The raw bytes, out of the file or image that the block was read from.
    pub fn bytes<'a>(&self, source: &'a [u8]) -> &'a [u8] {
        &source[self.raw..self.raw + self.size as usize]
    }

    /// One more than the last load address.
    pub fn load_end(&self) -> u64 {
        self.load + self.size
    }
}

#[derive(Clone, Debug, PartialEq, Eq)]
pub struct Program {
    pub entry: u32,
    pub blocks: Vec<Block>,
}

/// Two load ranges, neither of them empty, share an address.
pub fn meet(a: &Block, b: &Block) -> bool {
    a.load < b.load_end() && b.load < a.load_end()
}

/// The first block that shares a load address with one before it, behind the first such
/// one before it.
pub fn first_that_meets(blocks: &[Block]) -> Option<(&Block, &Block)> {
    for (j, later) in blocks.iter().enumerate() {
        for earlier in &blocks[..j] {
            if meet(earlier, later) {
                return Some((earlier, later));
            }
        }
    }
    None
}

/// How the later one of two that meet lies to the earlier one.
pub fn lies(earlier: &Block, later: &Block) -> &'static str {
    use std::cmp::Ordering::{Equal, Greater, Less};
    match (later.load.cmp(&earlier.load), later.load_end().cmp(&earlier.load_end())) {
        (Equal, Equal) => "equal",
        (Less | Equal, Greater | Equal) => "contains",
        (Greater | Equal, Less | Equal) => "inside",
        (Less, Less) => "from below",
        (Greater, Greater) => "from above",
    }
}
