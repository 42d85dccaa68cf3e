//! The bench entries of the paper, those marked P and the others, as one table.

use crate::answer::{pack_block, pack_convert, pack_list, pack_load, pack_read};
use crate::bench_names;
use crate::bench_orders;
use crate::bench_plain;
use crate::calls::{answer, Call, Case};
use crate::fields::{put_u32, u32_at};
use crate::fill::FILL_BYTE;
use crate::listing::{printed, INPUT_MOST, TEXT_ROOM};
use crate::make::{File, Image, Piece, Section};

/// A case whose whole outcome the paper states.
pub struct Entry {
    pub case: Case,
    pub packed: u64,
    /// The answer of a call for a block's addresses, where it is stated.
    pub addresses: Option<u64>,
    /// The lent buffer afterwards, as a whole.
    pub after: Vec<u8>,
}

impl Entry {
    /// The lent buffer then begins with these bytes, and has AA behind them.
    pub fn new(case: Case, packed: u64, start: &[u8]) -> Entry {
        let after = then_aa(start, case.lent as usize);
        Entry { case, packed, addresses: None, after }
    }

    pub fn addressed(self, addresses: u64) -> Entry {
        Entry { addresses: Some(addresses), ..self }
    }
}

pub const RAW: [u8; 5] = [0x11, 0x22, 0x33, 0x44, 0x55];

/// The file `A`.
pub fn a() -> Vec<u8> {
    let mut file = File::empty();
    file.sections.push(Section {
        flags: 0x20,
        run: 0x8000_0000,
        load: 0x400,
        size: 5,
        raw: 70,
        ..Section::default()
    });
    file.body = RAW.to_vec();
    file.bytes()
}

/// `A` with the number at this offset in its section header changed.
fn a_with(offset: usize, value: u32) -> Vec<u8> {
    let mut file = a();
    put_u32(&mut file, 22 + offset, value);
    file
}

/// `A` whose section has these flags, this size and its raw data at this offset.
pub fn a_as(flags: u32, size: u32, raw: u32) -> Vec<u8> {
    let mut file = a_with(40, flags);
    put_u32(&mut file, 22 + 16, size);
    put_u32(&mut file, 22 + 20, raw);
    file
}

/// `A` built anew with a second section of one byte.
fn a_and(load: u32) -> Vec<u8> {
    let mut file = File::empty();
    let first = Section { flags: 0x20, run: 0x8000_0000, load: 0x400, size: 5, raw: 118, ..Section::default() };
    let second = Section { flags: 0x20, run: 0, load, size: 1, raw: 123, ..Section::default() };
    file.sections = vec![first, second];
    file.body = RAW.to_vec();
    file.body.push(0x66);
    file.bytes()
}

/// The image of P1, as the paper prints it.
pub const P1: [u8; 28] = [
    0x00, 0x00, 0x00, 0x00, 0x05, 0x00, 0x00, 0x00, 0x00, 0x04, 0x00, 0x00, 0x00, 0x00, 0x00, 0x80,
    0x11, 0x22, 0x33, 0x44, 0x55, 0x00, 0x00, 0x00, 0x00, 0x00, 0x00, 0x00,
];

fn p8(first_run: u32) -> Vec<u8> {
    let blocks = vec![
        Piece::new(0x404, first_run, &[0x55]),
        Piece::new(0x400, 0x8000_0000, &[0x11, 0x22, 0x33, 0x44]),
    ];
    Image::new(0, blocks).bytes()
}

fn p10() -> Vec<u8> {
    let mut image = P1.to_vec();
    image[16 + 5] = 0x01;
    image
}

fn p11() -> Vec<u8> {
    let mut image = P1[..24].to_vec();
    image.extend_from_slice(&P1[4..28]);
    image
}

fn p12() -> Vec<u8> {
    let mut image = P1.to_vec();
    put_u32(&mut image, 4, 0xffff_ffff);
    image
}

pub const A_LISTED: &str = "coff sections 1 kept 1 entry 00000000\n\
                            0 load 00000400 run 80000000 size 5\n\
                            image 28\n";

pub fn refused(code: u64, index: u64) -> u64 {
    code | index << 8
}

/// A lent buffer of these bytes, then AA up to the length.
fn then_aa(start: &[u8], length: usize) -> Vec<u8> {
    let mut all = start.to_vec();
    all.resize(length, 0xaa);
    all
}

pub fn aa(case: Case, length: usize) -> Case {
    case.lent(length as u64).filled(FILL_BYTE | 0xaa)
}

pub fn entries() -> Vec<Entry> {
    let mut all = Vec::new();
    let mut add = |case: Case, packed: u64, start: &[u8]| all.push(Entry::new(case, packed, start));
    let convert = |what: &str, file: &[u8], length: usize| aa(Case::new(Call::Convert, what).file(file), length);
    let load = |what: &str, image: &[u8], length: usize| {
        aa(Case::new(Call::LoadImage, what).image(image).number(0x400), length)
    };
    let load_coff = |what: &str, file: &[u8], length: usize| {
        aa(Case::new(Call::LoadCoff, what).file(file).number(0x400), length)
    };
    let read = |what: &str, image: &[u8]| Case::new(Call::Read, what).image(image);
    let check = |what: &str, file: &[u8], image: &[u8]| Case::new(Call::Check, what).file(file).image(image);

    assert_eq!(a().len(), 75);
    add(convert("P1", &a(), 28), pack_convert(28, 1), &P1);
    add(convert("P1, longer output", &a(), 33), pack_convert(28, 1), &P1);
    add(convert("P2", &a(), 27), refused(15, 0), &[]);
    add(load("P3", &P1, 8), pack_load(5), &RAW);
    add(load_coff("P3 from the file", &a(), 8), pack_load(5), &RAW);
    add(load("P4, four bytes", &P1, 4), refused(29, 0), &[]);
    add(load("P4, five bytes", &P1, 5), pack_load(5), &RAW);
    add(load_coff("P4 from the file, four bytes", &a(), 4), refused(29, 0), &[]);
    add(load_coff("P4 from the file, five bytes", &a(), 5), pack_load(5), &RAW);
    add(convert("P5", &a()[..74], 28), refused(10, 0), &[]);
    add(convert("P6", &a_with(40, 0x80), 28), pack_convert(8, 0), &[0; 8]);

    let mut at_the_end = P1.to_vec();
    put_u32(&mut at_the_end, 8, 0xffff_fffb);
    add(convert("P7, FFFFFFFBh", &a_with(12, 0xffff_fffb), 28), pack_convert(28, 1), &at_the_end);
    add(convert("P7, FFFFFFFCh", &a_with(12, 0xffff_fffc), 28), refused(11, 0), &[]);
    add(check("P8", &a(), &p8(0x8000_0004)), 0, &[]);
    add(check("P9", &a(), &p8(0x8000_0000)), refused(41, 0), &[]);
    add(read("P10", &p10()), refused(25, 0), &[]);
    add(read("P11", &p11()), refused(27, 1), &[]);
    add(read("P12", &p12()), refused(21, 0), &[]);
    add(load("P10 loaded", &p10(), 8), refused(25, 0), &[]);
    add(load("P11 loaded", &p11(), 8), refused(27, 1), &[]);
    add(load("P12 loaded", &p12(), 8), refused(21, 0), &[]);
    add(read("P1 read", &P1), pack_read(0, 1), &[]);
    add(check("P1 checked", &a(), &P1), 0, &[]);

    let mut with_second = P1[..24].to_vec();
    with_second.extend_from_slice(&[1, 0, 0, 0, 0x05, 0x04, 0, 0, 0, 0, 0, 0, 0x66, 0, 0, 0, 0, 0, 0, 0]);
    add(convert("second section at 405h", &a_and(0x405), 44), pack_convert(44, 2), &with_second);
    add(convert("second section at 404h", &a_and(0x404), 44), refused(13, 1), &[]);
    add(convert("raw offset 69", &a_with(20, 69), 28), refused(10, 0), &[]);

    let measure = |what: &str, file: &[u8]| Case::new(Call::Measure, what).file(file);
    add(measure("P1 measured", &a()), pack_convert(28, 1), &[]);
    add(measure("P5 measured", &a()[..74]), refused(10, 0), &[]);
    add(measure("P6 measured", &a_with(40, 0x80)), pack_convert(8, 0), &[]);
    add(measure("P7 measured, FFFFFFFBh", &a_with(12, 0xffff_fffb)), pack_convert(28, 1), &[]);
    add(measure("P7 measured, FFFFFFFCh", &a_with(12, 0xffff_fffc)), refused(11, 0), &[]);
    add(measure("second section at 405h, measured", &a_and(0x405)), pack_convert(44, 2), &[]);
    add(measure("second section at 404h, measured", &a_and(0x404)), refused(13, 1), &[]);
    let at = |what: &str, image: &[u8], place: u64| Case::new(Call::BlockAt, what).image(image).number(place);
    add(at("P1's block", &P1, 4), pack_block(16, 5), &[]);
    add(at("P1's end flag", &P1, 24), 0, &[]);
    add(at("P1's end", &P1, 28), refused(21, 0), &[]);
    add(at("P10's block, whose padding is not looked at", &p10(), 4), pack_block(16, 5), &[]);
    add(at("P11's second block, which meets the first", &p11(), 24), pack_block(36, 5), &[]);
    add(at("P12's block", &p12(), 4), refused(21, 0), &[]);

    let listing = |what: &str, file: &[u8], length: usize| aa(Case::new(Call::List, what).file(file), length);
    let room = TEXT_ROOM as usize;
    add(listing("A listed", &a(), room), pack_list(83), A_LISTED.as_bytes());
    add(listing("P5 listed", &a()[..74], room), refused(10, 0), &[]);
    add(listing("A listed into 83 bytes", &a(), 83), pack_list(83), A_LISTED.as_bytes());
    add(listing("A listed into 82 bytes", &a(), 82), refused(15, 0), &[]);
    add(listing("A listed into nothing", &a(), 0), refused(15, 0), &[]);
    add(listing("P5 listed into nothing", &a()[..74], 0), refused(10, 0), &[]);
    all
}

/// What is wrong with the outcome of an entry, if anything is.
pub fn wrong(entry: &Entry) -> Option<String> {
    let own = answer(&entry.case);
    if own.outcome.packed != entry.packed {
        return Some(format!("answered {:x}, not {:x}", own.outcome.packed, entry.packed));
    }
    if entry.addresses.map_or(false, |stated| stated != own.outcome.addresses) {
        return Some(format!("addresses {:x}", own.outcome.addresses));
    }
    if own.after != entry.after {
        return Some("the lent bytes are not as stated".to_string());
    }
    None
}

/// What the listing program prints: its input, then its output.
pub fn printings() -> Vec<(&'static str, Vec<u8>, String)> {
    // A padded with zeros to exactly the size of the buffer is read as usual.
    let mut full = a();
    full.resize(INPUT_MOST, 0);
    let mut over = full.clone();
    over.push(0);
    vec![
        ("A printed", a(), A_LISTED.to_string()),
        ("P5 printed", a()[..74].to_vec(), "refused 10 0\n".to_string()),
        ("nothing printed", Vec::new(), "refused 2 0\n".to_string()),
        ("65,536 bytes printed", full, A_LISTED.to_string()),
        ("65,537 bytes printed", over, "input over 65536\n".to_string()),
    ]
}

/// Prints each entry; answers how many passed and failed.
pub fn run() -> (u64, u64) {
    let (mut passed, mut failed) = (0, 0);
    let mut tell = |what: &str, fault: Option<String>| match fault {
        None => passed += 1,
        Some(fault) => {
            failed += 1;
            println!("bench {what}: {fault}");
        }
    };
    let others = bench_names::entries().into_iter().chain(bench_plain::entries()).chain(bench_orders::entries());
    for entry in entries().into_iter().chain(others) {
        tell(&entry.case.what, wrong(&entry));
    }
    for (what, input, output) in printings().into_iter().chain(bench_plain::printings()) {
        let own = printed(&input);
        tell(what, (own != output).then(|| format!("printed {own:?}")));
    }
    // The layout that the entries rest on.
    tell("A's run address", (u32_at(&a(), 30) != 0x8000_0000).then(|| "misplaced".to_string()));
    (passed, failed)
}

#[cfg(test)]
mod tests {
    #[test]
    fn all_entries_pass() {
        assert_eq!(super::run().1, 0);
    }
}
