//! The numbered cases with patterns: seed and number make one call.

use crate::calls::{Call, Case, CALLS_WITH};
use crate::expect::Expect;
use crate::gen_file::Made;
use crate::gen_names;
use crate::gen_row;
use crate::generate;
use crate::given::some_file;
use crate::patterns::any_takes;
use crate::rng::Rng;

/// So that these cases are others than those without patterns.
const SERIES: u64 = 1 << 40;

/// Symbol counts that put the string table elsewhere, or outside the file: times 18
/// some of them are a little over 2^32.
const MOVED: [u32; 7] = [0, 1, 3, 7, 0x0e38_e38e, 0x0e38_e38f, 0xffff_ffff];

fn draw_call(rng: &mut Rng) -> Call {
    if rng.one_in(5) { Call::Takes } else { rng.pick(&CALLS_WITH) }
}

pub fn call_of(seed: u64, number: u64) -> Call {
    draw_call(&mut Rng::new(seed, SERIES + number))
}

pub fn case(seed: u64, number: u64) -> Case {
    let mut rng = Rng::new(seed, SERIES + number);
    let rng = &mut rng;
    let mut case = match draw_call(rng) {
        Call::Takes => takes(rng),
        call => with(rng, call),
    };
    case.place = (number % 32) as u8;
    case.fill = rng.below(60_000) as u32;
    case
}

/// What is answered when a name of a kept section cannot be read.
fn with_unread_name(expect: Option<Expect>) -> Option<Expect> {
    match expect.map(|e| e.code) {
        Some(1..=9 | 28) => expect,
        // Which section comes first is not known here.
        None | Some(10..=12) => None,
        _ => Some(Expect::of(16, Some(0))),
    }
}

/// Nobody reads the name of a section that flags, size or raw data offset do not keep.
fn unreadable_where_not_read(rng: &mut Rng, made: &mut Made) {
    for i in 0..made.file.sections.len() {
        if !made.kept.contains(&i) && rng.one_in(3) {
            made.file.sections[i].name = gen_names::unreadable(rng, made);
        }
    }
}

pub fn with(rng: &mut Rng, call: Call) -> Case {
    let mut made = some_file(rng);
    let names = gen_names::give(rng, &mut made);
    let patterns = gen_row::sound(rng, &names);
    let taken: Vec<&[u8]> = patterns.iter().map(Vec::as_slice).collect();
    unreadable_where_not_read(rng, &mut made);
    made.kept.retain(|&i| !any_takes(&taken, &names[i]));
    let unread = !made.kept.is_empty() && rng.one_in(10);
    if unread {
        let section = made.kept[rng.index(made.kept.len())];
        made.file.sections[section].name = gen_names::unreadable(rng, &made);
    }
    let moved = rng.one_in(30);
    if moved {
        made.file.symbols = rng.pick(&MOVED);
    }
    let mut case = generate::of_file(rng, call.plain(), &made);
    case.call = call;
    case.row.bytes = gen_row::row(rng, &patterns);
    if unread && !patterns.is_empty() {
        case.expect = with_unread_name(case.expect);
    }
    if moved {
        case.expect = None;
    }
    if rng.one_in(12) {
        case.row.bytes = gen_row::refused(rng, &names);
        case.expect = Some(Expect::of(17, Some(0)));
    }
    case.row.length = case.row.bytes.len() as u64;
    case
}

/// A name of few letters, and a pattern of the same letters or cut out of it.
fn takes(rng: &mut Rng) -> Case {
    let most = rng.pick(&[4, 12, 40, 300]);
    let length = rng.index(most + 1);
    let letters = rng.pick(&[b"aaab".as_slice(), b"ab", b"abc*?"]);
    let name: Vec<u8> = (0..length).map(|_| rng.pick(letters)).collect();
    let pattern = match rng.below(10) {
        0 => gen_row::letters(rng, b"a?*", 64),
        1 => gen_row::letters(rng, b"ab?**", 64),
        2..=4 => gen_row::letters(rng, b"ab?*", 12),
        5 => {
            let length = rng.pick(&[0, 1, 63, 64, 65, 66, 128, 256, 257]);
            vec![b'*'; length]
        }
        _ => gen_row::taking(rng, &name),
    };
    Case::new(Call::Takes, "letters").file(&name).row(&pattern)
}

#[cfg(test)]
mod tests {
    use super::case;
    use crate::naive::assert_agreed;

    #[test]
    fn answers_agree_with_the_makers_of_the_cases() {
        assert_agreed(case);
    }
}
