//! Every pair of faults at once, so that the order of the rules is tried. Each
//! fault is also put in alone: then the answer is its own code, which shows
//! that both hold in the pair.
//!
//! In a few pairs the later fault cannot hold beside the earlier one (a file
//! that is too long is not too short). They are run all the same, for the
//! answer is the earlier one's in any case.

mod fault;

use crate::answer::ADDRESSES;
use crate::calls::{Call, Case};
use crate::expect::Expect;
use crate::fault_file::{self, too_high};
use crate::fault_image;
use crate::gen_file::{self, image_too_long, Made};
use crate::gen_image;
use crate::gen_names;
use crate::listing::TEXT_ROOM;
use crate::make::{pad, Image};
use crate::rng::Rng;
use fault::{code, exclude_each_other, faults, late_faults, order, Fault, Fault::*, Part, Row, PLACES};

/// Everything a call can be given, before it is known which call it is.
struct Situation {
    made: Made,
    image: Image,
    /// Patterns that take no name.
    row: Vec<u8>,
    number: u64,
    window: u64,
    /// What the image or the text takes.
    output: u64,
    has: Vec<Fault>,
}

/// Sizes that are no multiple of four, so that every block has padding.
const SIZES: [u64; PLACES] = [6, 5, 7];

fn base(rng: &mut Rng, call: Call, faults: &[Fault], plain: bool) -> Situation {
    let mut made = if faults.contains(&ImageWouldBeTooLong) {
        image_too_long(rng)
    } else {
        let plan = [None, Some(SIZES[0]), Some(SIZES[1]), None, Some(SIZES[2])];
        gen_file::sound_of(rng, &plan)
    };
    if plain {
        made.make_plain(rng);
    }
    if call.has_patterns() && !faults.contains(&ImageWouldBeTooLong) {
        gen_names::give(rng, &mut made);
    }
    let image = if faults.contains(&TooManyBlocks) {
        gen_image::many(rng, 4097)
    } else {
        Image::new(made.entry(), if faults.contains(&ImageWouldBeTooLong) { Vec::new() } else { made.pieces() })
    };
    let (low, high) = made.hull();
    let output = if call == Call::List { made.text_length() } else { made.image_length() };
    let row = if call.has_patterns() { NO_NAMES.repeat(rng.range(1, 4) as usize) } else { Vec::new() };
    Situation { made, image, row, number: low, window: (high - low).min(1000), output, has: faults.to_vec() }
}

/// Two patterns that take none of the names that cases have.
const NO_NAMES: &[u8] = b"no such name*\0[?*]\0";

fn wrong_row(rng: &mut Rng, row: &[u8], wrong: Row) -> Vec<u8> {
    let more = match wrong {
        Row::TooMany => NO_NAMES.repeat(8),
        Row::Empty => vec![0],
        Row::TooLong => vec![b'*'; rng.pick(&[65, 66, 128, 320])],
    };
    // What is wrong comes first or last.
    if rng.one_in(2) {
        return [row, &more].concat();
    }
    let parting: &[u8] = if wrong == Row::TooLong { &[0] } else { &[] };
    [&more, parting, row].concat()
}

/// Two of the three places, without the one that another fault uses up by
/// changing its load address.
fn two_places(has: &[Fault], moved: u8) -> (usize, usize) {
    let taken = has.iter().find_map(|f| match f {
        Section(code, at) | Block(code, at) if *code == moved => Some(*at),
        _ => None,
    });
    match taken {
        Some(0) => (1, 2),
        Some(1) => (0, 2),
        _ => (0, 1),
    }
}

fn end_in(rng: &mut Rng, image: &mut Image, part: Part, at: usize) {
    let begin = image.offset(at);
    let data = image.blocks[at].data.len();
    match part {
        Part::SizeField => image.cut = Some(begin + rng.index(4)),
        Part::Addresses => image.cut = Some(begin + 4 + rng.index(8)),
        Part::Data => image.cut = Some(begin + 12 + rng.index(data)),
        Part::Padding => image.cut = Some(begin + 12 + data + rng.index(pad(data))),
        Part::SizeTooLarge => image.blocks[at].size = Some(rng.pick(&[0xffff_ffff, 0xffff_fffc, 0x1000_0000])),
    }
}

/// Blocks of a long image have any size; a fault may need a certain one.
fn resize(image: &mut Image, at: usize) {
    image.blocks[at].data = vec![0x77; SIZES[0] as usize];
    // Away from the others, which may lie close by.
    image.blocks[at].load = if image.blocks[0].load > 0x8000_0000 { 0x100 } else { 0xc000_0000 };
    image.blocks[at].run = 0x100;
}

fn put(rng: &mut Rng, s: &mut Situation, fault: Fault) {
    match fault {
        Patterns(wrong) => s.row = wrong_row(rng, &s.row, wrong),
        Name(at) => {
            let section = s.made.kept[at];
            s.made.file.sections[section].name = gen_names::unreadable(rng, &s.made);
        }
        Header(code) => assert!(fault_file::damage(rng, &mut s.made, code, 0)),
        Section(code, at) => assert!(fault_file::damage(rng, &mut s.made, code, at)),
        SectionsMeet => {
            let (earlier, later) = two_places(&s.has, 11);
            let sections = &mut s.made.file.sections;
            let load = u64::from(sections[s.made.kept[earlier]].load);
            let later = &mut sections[s.made.kept[later]];
            later.load = load.min(ADDRESSES - u64::from(later.size)) as u32;
        }
        OutputShort => s.output = if rng.one_in(2) { s.output - 1 } else { rng.below(s.output) },
        ImageTooLong => assert!(fault_image::damage(rng, &mut s.image, 20, 0)),
        NoEntry => s.image.cut = Some(rng.index(4)),
        Ends(part, at) => {
            if s.has.contains(&TooManyBlocks) {
                resize(&mut s.image, at);
            }
            end_in(rng, &mut s.image, part, at);
        }
        NoEndFlag => s.image.cut = Some(s.image.offset(s.image.blocks.len()) + rng.index(4)),
        Block(code, at) => {
            if s.has.contains(&TooManyBlocks) {
                resize(&mut s.image, at);
            }
            match code {
                23 => s.image.blocks[at].load = too_high(rng, s.image.blocks[at].size()).unwrap(),
                24 => s.image.blocks[at].run = too_high(rng, s.image.blocks[at].size()).unwrap(),
                _ => assert!(fault_image::damage(rng, &mut s.image, code, at)),
            }
        }
        BytesFollow => assert!(fault_image::damage(rng, &mut s.image, 26, 0)),
        BlocksMeet => {
            let (earlier, later) = two_places(&s.has, 23);
            let load = u64::from(s.image.blocks[earlier].load);
            let later = &mut s.image.blocks[later];
            later.load = load.min(ADDRESSES - later.size()) as u32;
        }
        Window => (s.number, s.window) = rng.pick(&[(ADDRESSES, 1), (ADDRESSES - 3, 4), (u64::MAX, 9), (ADDRESSES + 1, 0)]),
        Outside => (s.number, s.window) = (s.number + 1, s.window - 1),
        NumberTooLarge => s.number = rng.pick(&[3, 4, 4096, 1 << 32, u64::MAX]).max(s.image.blocks.len() as u64),
        Entry => s.image.entry ^= 1 << rng.below(32),
        Placement => {
            // A later byte, so that cutting the first block away leaves it.
            if let Some(last) = s.image.blocks.last_mut() {
                last.data[0] ^= 0x10;
            }
        }
        ImageWouldBeTooLong | TooManyBlocks => {}
    }
}

/// Faults go in from the last part of the file or image to the first, and what
/// changes its length at the very end.
fn putting_order(fault: Fault) -> u8 {
    match fault {
        Placement | Entry => 0,
        BlocksMeet | SectionsMeet => 1,
        Section(10, _) => 3,
        Section(..) | Block(..) => 2,
        BytesFollow => 4,
        Ends(..) | NoEndFlag | NoEntry => 5,
        Header(9) | Outside => 6,
        Header(8) => 8,
        Header(2) => 9,
        Header(1) | ImageTooLong => 10,
        _ => 7,
    }
}

/// The kept sections are plain ones, or of any kind.
fn make(rng: &mut Rng, call: Call, faults: &[Fault], plain: bool) -> Case {
    let mut s = base(rng, call, faults, plain);
    if call == Call::Block {
        s.number = rng.below(PLACES as u64);
    }
    let mut in_order = faults.to_vec();
    in_order.sort_by_key(|f| putting_order(*f));
    for fault in in_order {
        put(rng, &mut s, fault);
    }
    let first = faults.iter().copied().min_by_key(|f| order(*f)).unwrap();
    let index = match first {
        Section(_, at) => Some(s.made.kept[at] as u64),
        Ends(_, at) | Block(_, at) => Some(at as u64),
        NoEndFlag | BytesFollow => Some(s.image.blocks.len() as u64),
        TooManyBlocks => Some(4096),
        SectionsMeet | BlocksMeet | Outside => None,
        _ => Some(0),
    };
    let mut case = Case::new(call, &format!("{faults:?}"));
    if call.asks_file() {
        case = case.file_input(s.made.file.input());
    }
    if call.asks_image() {
        case = case.image_input(s.image.input());
    }
    if call.has_patterns() {
        case = case.row(&s.row);
    }
    if matches!(call.plain(), Call::Block | Call::LoadImage | Call::LoadCoff) {
        case = case.number(s.number);
    }
    match call.plain() {
        Call::Convert => case = case.lent(s.output.min(5000)),
        Call::List if faults.contains(&OutputShort) => case = case.lent(s.output),
        Call::List => case = case.lent(s.output + rng.pick(&[0, 1, TEXT_ROOM])),
        Call::LoadImage | Call::LoadCoff => case = case.lent(s.window),
        _ => {}
    }
    case.expect = Some(Expect::of(code(first), index));
    case.fill = rng.below(60_000) as u32;
    case.place = rng.below(16) as u8;
    case
}

/// Each fault of the call, once.
pub fn alone(seed: u64, call: Call) -> Vec<Case> {
    let mut rng = Rng::new(seed, 2000 + call.number());
    faults(call).into_iter().map(|fault| make(&mut rng, call, &[fault], false)).collect()
}

/// All single faults and all pairs of the call.
pub fn cases(seed: u64, call: Call) -> Vec<Case> {
    let mut rng = Rng::new(seed, 1000 + call.number());
    let rng = &mut rng;
    let all = faults(call);
    let mut cases = Vec::new();
    for (i, &a) in all.iter().enumerate() {
        for time in 0..4 {
            cases.push(make(rng, call, &[a], time == 0));
        }
        for &b in &all[i + 1..] {
            if !exclude_each_other(a, b) {
                cases.push(make(rng, call, &[a, b], false));
                cases.push(make(rng, call, &[b, a], false));
                if call.asks_file() {
                    cases.push(make(rng, call, &[a, b], true));
                }
            }
        }
    }
    if all.contains(&TooManyBlocks) {
        for late in late_faults() {
            cases.push(make(rng, call, &[TooManyBlocks, late], false));
        }
    }
    cases
}
