//! The faults that are put together, and the order in which they are met.

use crate::calls::Call;

/// Where in a block an image ends too early.
#[derive(Clone, Copy, PartialEq, Eq, Debug)]
pub enum Part {
    SizeField,
    Addresses,
    Data,
    Padding,
    /// The size field says more than there is.
    SizeTooLarge,
}

/// What is wrong with the patterns.
#[derive(Clone, Copy, PartialEq, Eq, Debug)]
pub enum Row {
    TooMany,
    Empty,
    TooLong,
}

#[derive(Clone, Copy, PartialEq, Eq, Debug)]
pub enum Fault {
    /// Rule 17, and which way.
    Patterns(Row),
    /// Rules 1 to 9.
    Header(u8),
    /// Rule 16, and which of the kept sections.
    Name(usize),
    /// Rules 10 to 12, and which of the kept sections.
    Section(u8, usize),
    SectionsMeet,
    ImageWouldBeTooLong,
    OutputShort,
    ImageTooLong,
    NoEntry,
    Ends(Part, usize),
    NoEndFlag,
    TooManyBlocks,
    /// Rules 23 to 25, and which block.
    Block(u8, usize),
    BytesFollow,
    BlocksMeet,
    Window,
    Outside,
    NumberTooLarge,
    Entry,
    Placement,
}
use Fault::*;

/// Kept sections of the file, and blocks of the image.
pub const PLACES: usize = 3;

pub fn code(fault: Fault) -> u8 {
    match fault {
        Header(code) | Section(code, _) | Block(code, _) => code,
        Patterns(_) => 17,
        Name(_) => 16,
        SectionsMeet => 13,
        ImageWouldBeTooLong => 14,
        OutputShort => 15,
        ImageTooLong => 20,
        NoEntry | Ends(..) | NoEndFlag => 21,
        TooManyBlocks => 22,
        BytesFollow => 26,
        BlocksMeet => 27,
        Window => 28,
        Outside => 29,
        NumberTooLarge => 30,
        Entry => 40,
        Placement => 41,
    }
}

/// The order in which faults are met: the stage, within it the section or
/// block, within that the rule.
pub fn order(fault: Fault) -> (u8, usize, u8) {
    const ALL_BLOCKS: usize = usize::MAX;
    match fault {
        Patterns(_) => (0, 0, 0),
        Window => (0, 0, 1),
        Name(at) => (10, at, 0),
        Section(code, at) => (10, at, code),
        NoEntry => (21, 0, 0),
        Ends(Part::SizeField, at) => (22, at, 0),
        TooManyBlocks => (22, 4096, 1),
        Ends(_, at) => (22, at, 2),
        Block(code, at) => (22, at, code),
        NoEndFlag => (22, ALL_BLOCKS, 0),
        _ => (code(fault), 0, 0),
    }
}

fn file_faults() -> Vec<Fault> {
    let mut all: Vec<Fault> = (1..=9).map(Header).collect();
    for at in 0..PLACES {
        all.extend((10..=12).map(|code| Section(code, at)));
    }
    all.push(SectionsMeet);
    all
}

fn image_faults() -> Vec<Fault> {
    let mut all = vec![ImageTooLong, NoEntry, NoEndFlag, TooManyBlocks, BytesFollow, BlocksMeet];
    for at in 0..PLACES {
        for part in [Part::SizeField, Part::Addresses, Part::Data, Part::Padding, Part::SizeTooLarge] {
            all.push(Ends(part, at));
        }
        all.extend((23..=25).map(|code| Block(code, at)));
    }
    all
}

pub fn faults(call: Call) -> Vec<Fault> {
    let mut all = Vec::new();
    if call.asks_file() {
        all.extend(file_faults());
    }
    if call.asks_image() {
        all.extend(image_faults());
    }
    if call.has_patterns() {
        all.extend([Row::TooMany, Row::Empty, Row::TooLong].map(Patterns));
        all.extend((0..PLACES).map(Name));
    }
    match call.plain() {
        Call::Convert => all.extend([ImageWouldBeTooLong, OutputShort]),
        Call::List => all.push(OutputShort),
        Call::LoadImage | Call::LoadCoff => all.extend([Window, Outside]),
        Call::Block => all.push(NumberTooLarge),
        Call::Check => all.extend([Entry, Placement]),
        Call::Measure => all.push(ImageWouldBeTooLong),
        _ => {}
    }
    all
}

/// Faults around the block that is one too many.
pub fn late_faults() -> Vec<Fault> {
    let mut all = Vec::new();
    for at in [4094, 4095, 4096] {
        all.push(Ends(Part::SizeField, at));
        all.push(Ends(Part::Addresses, at));
        all.push(Ends(Part::Data, at));
        all.push(Ends(Part::SizeTooLarge, at));
        all.extend((23..=25).map(|code| Block(code, at)));
    }
    all
}

/// Two faults of one kind where the second would undo the first.
pub fn exclude_each_other(a: Fault, b: Fault) -> bool {
    let cuts = |f: Fault| matches!(f, NoEntry | NoEndFlag | Ends(..));
    // An image ends at one place only.
    cuts(a) && cuts(b)
}
