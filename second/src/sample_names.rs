//! Sections of the sample files left out by name. Which ones are left out stands
//! here by number, as read off the files by hand, so that what remains is known
//! without a name being read: those sections marked as not loaded.

use crate::calls::{Call, Case};
use crate::coff::{read_coff, read_coff_with};
use crate::every::{forms, spread};
use crate::fields::u16_at;
use crate::image::{image_of, measure};
use crate::listing::text_of;
use crate::patterns::read_patterns;
use crate::rng::Rng;
use crate::samples::Sample;

const NOLOAD: u8 = 2;

struct Row {
    sample: &'static str,
    patterns: &'static [u8],
    /// The numbers of those left out that would be kept.
    left_out: Vec<usize>,
}

/// The same rows for the three files that come from one program.
fn of_c6x(sample: &'static str) -> Vec<Row> {
    let row = |patterns: &'static str, left_out: &[usize]| Row { sample, patterns: patterns.as_bytes(), left_out: left_out.to_vec() };
    vec![
        row(".stack", &[]),
        row(".debug*", &[]),
        row(".stack\0.debug*\0.bss\0", &[]),
        row(".co*", &[2, 4]),
        row(".c????", &[2]),
        row(".c?????", &[4]),
        row(".overlay", &[6]),
        row(".over", &[]),
        row(".over???", &[6]),
        row(".OVERLAY", &[]),
        row("?vectors", &[0]),
        row(".vectors\0.text\0.data", &[0, 1, 3]),
        row("*t*", &[0, 1, 2, 3]),
        row("*a", &[3]),
    ]
}

fn rows() -> Vec<Row> {
    let row = |sample: &'static str, patterns: &'static str, left_out: &[usize]| {
        Row { sample, patterns: patterns.as_bytes(), left_out: left_out.to_vec() }
    };
    let mut all = of_c6x("c6x.out");
    all.extend(of_c6x("c6x-ld.out"));
    all.extend([
        row("c6x.out", "long_nam", &[5]),
        row("c6x.out", "long_nam?*", &[]),
        row("c6x.out", "*", &[0, 1, 2, 3, 4, 5, 6]),
        row("long-name.out", "long_nam", &[]),
        row("long-name.out", "long_nam?*", &[5]),
        row("long-name.out", "long_named_section", &[5]),
        row("long-name.out", "long_named_sectio", &[]),
        row("long-name.out", "long_named_section?", &[]),
        row("long-name.out", "*_section\0.text\0", &[1, 5]),
        row("long-name.out", "*o*", &[0, 2, 4, 5, 6]),
        // In this file `.stack` and `.debug_x` are initialised data.
        row("c6x-initialised.out", ".stack", &[8]),
        row("c6x-initialised.out", ".stac?", &[8]),
        row("c6x-initialised.out", ".debug*", &[9]),
        row("c6x-initialised.out", ".debug", &[]),
        row("c6x-initialised.out", ".debug_?", &[9]),
        row("c6x-initialised.out", ".stack\0.debug*", &[8, 9]),
        row("c6x-initialised.out", ".stack\0.debug*\0.bss\0", &[8, 9]),
        row("c6x-initialised.out", "*ta*\0*x", &[3, 8, 9]),
        row("c6x-initialised.out", "*", &[0, 1, 2, 3, 4, 5, 6, 8, 9]),
        // Here `.coeffs` is plain, and so is `.work`, which has no raw data.
        row("c6x-plain.out", ".coeffs", &[3]),
        row("c6x-plain.out", ".co*\0.work", &[3]),
        row("c6x-plain.out", ".work", &[]),
        row("c6x-plain.out", "*", &[0, 1, 2, 3, 5]),
        // Without it the sections that remain do not meet any more.
        row("c6x-attributes.out", ".c6xabi*", &[9]),
        row("c6x-attributes.out", ".c6xabi?", &[9]),
        row("c6x-attributes.out", ".vectors", &[0]),
        row("c4x-patched.out", "*stack", &[]),
        row("c4x-patched.out", "long*", &[3]),
        row("c4x-patched.out", ".d*\0.t*", &[0, 1]),
        row("c4x-patched.out", "????????", &[3, 4]),
        row("edges.out", ".?", &[1, 2]),
        row("edges.out", ".none", &[]),
        row("edges.out", ".top", &[5]),
        row("edges.out", ".o*\0.b", &[2, 4]),
        row("many-256.out", ".s2[0-9]*", &[]),
    ]);
    let many = |patterns: &'static str, which: fn(&usize) -> bool| {
        row("many-256.out", patterns, &(1..256).filter(which).collect::<Vec<usize>>())
    };
    all.extend([
        many(".s0?1", |i| i / 100 == 0 && i % 10 == 1),
        many(".s1*", |i| i / 100 == 1),
        many(".s??7\0.s?7?", |i| i % 10 == 7 || i / 10 % 10 == 7),
        many(".s*", |_| true),
    ]);
    all
}

/// The file in which those sections are marked as not loaded.
fn marked(file: &[u8], left_out: &[usize]) -> Vec<u8> {
    let mut marked = file.to_vec();
    let first = 22 + u16_at(file, 16) as usize;
    for &i in left_out {
        marked[first + 48 * i + 40] |= NOLOAD;
    }
    marked
}

fn find<'a>(samples: &'a [Sample], name: &str) -> Option<&'a Sample> {
    samples.iter().find(|s| s.name == name)
}

/// What is wrong with what this program itself takes to remain, by its listing.
fn wrong(row: &Row, file: &[u8]) -> Option<String> {
    let by_hand = read_coff(&marked(file, &row.left_out));
    let patterns = read_patterns(row.patterns).ok()?;
    let by_name = read_coff_with(file, &patterns);
    match (by_hand, by_name) {
        (Ok(a), Ok(b)) if text_of(&a) != text_of(&b) => Some(format!("remaining {}", text_of(&b))),
        (Ok(_), Ok(b)) if b.left_out != row.left_out.len() => Some(format!("{} left out", b.left_out)),
        (Ok(_), Ok(_)) => None,
        (a, b) => Some(format!("refused {:?} {:?}", a.err(), b.err())),
    }
}

/// Prints each row that is wrong, or whose sample is missing; answers how many
/// passed and failed.
pub fn run(samples: &[Sample]) -> (u64, u64) {
    let (mut passed, mut failed) = (0, 0);
    for row in rows() {
        let fault = match find(samples, row.sample) {
            Some(sample) => wrong(&row, &sample.bytes),
            None => Some("no such sample".to_string()),
        };
        match fault {
            None => passed += 1,
            Some(fault) => {
                failed += 1;
                println!("{} without {:?}: {fault}", row.sample, String::from_utf8_lossy(row.patterns));
            }
        }
    }
    (passed, failed)
}

/// The calls on a sample, beside the image that it has by hand.
fn row_cases(row: &Row, file: &[u8], all: &mut Vec<Case>) {
    let changed = marked(file, &row.left_out);
    let program = match read_coff(&changed) {
        Ok(coff) => coff.program,
        Err(_) => return,
    };
    let image = image_of(&program, &changed);
    let length = image.len() as u64;
    let what = format!("{} without {:?}", row.sample, String::from_utf8_lossy(row.patterns));
    let new = |call: Call| Case::new(call, &what).file(file).row(row.patterns);
    all.push(new(Call::MeasureWith).expect_at(0, 0));
    for (lent, code) in [(length, 0), (length - 1, 15), (length + 9, 0)] {
        all.push(new(Call::ConvertWith).lent(lent).expect_at(code, 0));
    }
    all.push(new(Call::CheckWith).image(&image).expect_at(0, 0));
    // The image of the whole file is the same only if nothing is left out.
    if let Ok(whole) = read_coff(file) {
        let code = if row.left_out.is_empty() { 0 } else { 41 };
        all.push(new(Call::CheckWith).image(&image_of(&whole.program, file)).expect_at(code, 0));
        all.push(Case::new(Call::Check, &what).file(file).image(&image).expect_at(code, 0));
    }
    for block in program.blocks.iter().take(8) {
        let base = block.load - block.load.min(64);
        all.push(new(Call::LoadCoffWith).number(base).lent((block.load_end() + 64).min(1 << 32) - base));
    }
}

/// Bytes changed and early ends, where names, symbols and strings lie: everywhere
/// but in raw data.
fn changed(sample: &Sample, rng: &mut Rng, all: &mut Vec<Case>) {
    let file = &sample.bytes;
    for form in forms(file) {
        if !rng.one_in(if file.len() > 2000 { 400 } else { 4 }) {
            continue;
        }
        let what = format!("{} {}", sample.name, form.what());
        let case = match rng.below(3) {
            0 => Case::new(Call::ConvertWith, &what).lent(20_000),
            1 => Case::new(Call::MeasureWith, &what),
            _ => Case::new(Call::LoadCoffWith, &what).number(0x400).lent(4096),
        };
        let row = rng.pick(&[b".t*".as_slice(), b"long*\0.overlay", b"*_section", b".s0?1\0.stack"]);
        all.push(case.file(&form.of(file)).row(row));
    }
}

pub fn cases(seed: u64, samples: &[Sample]) -> Vec<Case> {
    let mut rng = Rng::new(seed, 81);
    let mut all = Vec::new();
    for row in rows() {
        if let Some(sample) = find(samples, row.sample) {
            row_cases(&row, &sample.bytes, &mut all);
        }
    }
    for sample in samples {
        changed(sample, &mut rng, &mut all);
        // Refused with and without patterns, if it is: 17 comes first.
        let code = measure(&sample.bytes, b"no such name").map_or_else(|r| r.code, |_| 0);
        for (row, code) in [(b"no such name".as_slice(), code), (b"", sample.code.unwrap_or(code)), (b"\0", 17)] {
            all.push(Case::new(Call::MeasureWith, &sample.name).file(&sample.bytes).row(row).expect(code));
        }
    }
    spread(&mut rng, &mut all);
    all
}

#[cfg(test)]
mod tests {
    use crate::samples::samples;

    #[test]
    fn what_remains_is_what_was_read_off() {
        let samples = samples(None).unwrap();
        assert_eq!(super::run(&samples).1, 0);
    }

    #[test]
    fn a_sample_that_is_missing_is_a_failure() {
        let mut samples = samples(None).unwrap();
        samples.retain(|s| s.name != "edges.out");
        assert_eq!(super::run(&samples).1, 4);
    }
}
