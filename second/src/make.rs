//! Files and images built from their parts, sound or not. Nothing here reads
//! them: this is the other direction of the two formats.

use crate::calls::Input;
use crate::fields::{push_u16, push_u32};

#[derive(Clone, Default)]
pub struct Section {
    pub name: [u8; 8],
    pub run: u32,
    pub load: u32,
    pub size: u32,
    pub raw: u32,
    pub relocation: [u8; 16],
    pub flags: u32,
    pub reserved: u16,
    pub page: u16,
}

#[derive(Clone)]
pub struct File {
    pub version: u16,
    /// The section count, when it is not the number of sections there are.
    pub count: Option<u16>,
    pub time: u32,
    pub symbols_at: u32,
    /// Where in the body the symbol table begins; then this, and not the number
    /// above, says what the header has, wherever the body comes to lie.
    pub symbols_in_body: Option<usize>,
    pub symbols: u32,
    /// The optional header's size, when it is not the number of bytes there are.
    pub optional_size: Option<u16>,
    pub optional: Vec<u8>,
    pub flags: u16,
    pub target: u16,
    pub sections: Vec<Section>,
    /// All that follows the section headers.
    pub body: Vec<u8>,
    /// The file ends here, if that is sooner.
    pub cut: Option<usize>,
    /// Zeros follow up to this length.
    pub length: Option<u64>,
}

impl File {
    /// A linked C6000 file without sections.
    pub fn empty() -> File {
        File {
            version: 0x00c2,
            count: None,
            time: 0,
            symbols_at: 0,
            symbols_in_body: None,
            symbols: 0,
            optional_size: None,
            optional: Vec::new(),
            flags: 0x0002,
            target: 0x0099,
            sections: Vec::new(),
            body: Vec::new(),
            cut: None,
            length: None,
        }
    }

    pub fn headers_end(&self) -> usize {
        22 + self.optional.len() + 48 * self.sections.len()
    }

    pub fn bytes(&self) -> Vec<u8> {
        let mut b = Vec::with_capacity(self.headers_end() + self.body.len());
        push_u16(&mut b, self.version);
        push_u16(&mut b, self.count.unwrap_or(self.sections.len() as u16));
        push_u32(&mut b, self.time);
        push_u32(&mut b, self.symbols_in_body.map_or(self.symbols_at, |at| (self.headers_end() + at) as u32));
        push_u32(&mut b, self.symbols);
        push_u16(&mut b, self.optional_size.unwrap_or(self.optional.len() as u16));
        push_u16(&mut b, self.flags);
        push_u16(&mut b, self.target);
        b.extend_from_slice(&self.optional);
        for s in &self.sections {
            b.extend_from_slice(&s.name);
            push_u32(&mut b, s.run);
            push_u32(&mut b, s.load);
            push_u32(&mut b, s.size);
            push_u32(&mut b, s.raw);
            b.extend_from_slice(&s.relocation);
            push_u32(&mut b, s.flags);
            push_u16(&mut b, s.reserved);
            push_u16(&mut b, s.page);
        }
        b.extend_from_slice(&self.body);
        if let Some(cut) = self.cut {
            b.truncate(cut);
        }
        b
    }

    pub fn input(&self) -> Input {
        up_to(self.length, self.bytes())
    }
}

/// The optional header with this entry point.
pub fn optional_header(magic: u16, entry: u32) -> Vec<u8> {
    let mut b = vec![0; 28];
    b[0..2].copy_from_slice(&magic.to_le_bytes());
    b[16..20].copy_from_slice(&entry.to_le_bytes());
    b
}

#[derive(Clone, Debug, PartialEq, Eq)]
pub struct Piece {
    pub load: u32,
    pub run: u32,
    pub data: Vec<u8>,
    /// The size field, when it is not the number of data bytes.
    pub size: Option<u32>,
    /// The padding, when it is not zeros up to a multiple of four.
    pub padding: Option<Vec<u8>>,
}

impl Piece {
    pub fn new(load: u32, run: u32, data: &[u8]) -> Piece {
        Piece { load, run, data: data.to_vec(), size: None, padding: None }
    }

    pub fn size(&self) -> u64 {
        self.data.len() as u64
    }

    /// How many bytes it takes up in an image.
    pub fn space(&self) -> usize {
        12 + self.data.len() + self.padding.as_ref().map_or(pad(self.data.len()), Vec::len)
    }
}

/// The number of padding bytes after this many data bytes.
pub fn pad(size: usize) -> usize {
    [0, 3, 2, 1][size % 4]
}

fn up_to(length: Option<u64>, bytes: Vec<u8>) -> Input {
    match length {
        Some(length) => Input::longer(bytes, length),
        None => Input::of(bytes),
    }
}

#[derive(Clone)]
pub struct Image {
    pub entry: u32,
    pub blocks: Vec<Piece>,
    /// All that follows the last block: four zeros in a sound image.
    pub end: Vec<u8>,
    pub cut: Option<usize>,
    pub length: Option<u64>,
}

impl Image {
    pub fn new(entry: u32, blocks: Vec<Piece>) -> Image {
        Image { entry, blocks, end: vec![0; 4], cut: None, length: None }
    }

    /// Offset of a block's size field, or of the end flag.
    pub fn offset(&self, block: usize) -> usize {
        4 + self.blocks[..block].iter().map(Piece::space).sum::<usize>()
    }

    pub fn bytes(&self) -> Vec<u8> {
        let mut b = Vec::new();
        push_u32(&mut b, self.entry);
        for p in &self.blocks {
            push_u32(&mut b, p.size.unwrap_or(p.data.len() as u32));
            push_u32(&mut b, p.load);
            push_u32(&mut b, p.run);
            b.extend_from_slice(&p.data);
            match &p.padding {
                Some(bytes) => b.extend_from_slice(bytes),
                None => b.extend_from_slice(&[0; 3][..pad(p.data.len())]),
            }
        }
        b.extend_from_slice(&self.end);
        if let Some(cut) = self.cut {
            b.truncate(cut);
        }
        b
    }

    pub fn input(&self) -> Input {
        up_to(self.length, self.bytes())
    }
}
