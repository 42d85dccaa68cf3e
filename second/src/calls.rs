//! What this program answers to a case. Its outcome is all that a caller can see
//! afterwards.

use crate::answer::{
    pack_addresses, pack_block, pack_convert, pack_list, pack_load, pack_read, pack_refusal, Refusal,
};
use crate::coff::read_coff_with;
use crate::fill;
use crate::patterns::{self, read_patterns};
use crate::{check, image, listing, loader, version, walk};

pub use crate::call::{Call, CALLS, CALLS_IN_ORDER, CALLS_WITH};
pub use crate::case::{Case, Input};

/// What a caller sees: the packed answers, and the lent buffer from the first
/// changed byte to the last.
#[derive(Clone, Debug, PartialEq, Eq)]
pub struct Outcome {
    pub packed: u64,
    /// The answer of a call for a block's addresses, else 0.
    pub addresses: u64,
    pub changed_at: u64,
    pub changed: Vec<u8>,
}

/// The outcome, and what the coverage table counts.
pub struct Own {
    pub outcome: Outcome,
    pub code: u8,
    pub index: u64,
    pub cause: &'static str,
    /// Whether a plain section was refused, or was in a file that was taken.
    pub plain: bool,
    /// The lent buffer before and after.
    pub before: Vec<u8>,
    pub after: Vec<u8>,
}

fn packed<T>(result: Result<T, Refusal>, pack: impl Fn(T) -> u64) -> (u64, Option<Refusal>) {
    match result {
        Ok(value) => (pack(value), None),
        Err(r) => (pack_refusal(&r), Some(r)),
    }
}

/// First changed offset, and the bytes from it to the last changed one.
pub fn difference(before: &[u8], after: &[u8]) -> (u64, Vec<u8>) {
    if before == after {
        return (0, Vec::new());
    }
    match before.iter().zip(after).position(|(a, b)| a != b) {
        None => (0, Vec::new()),
        Some(first) => {
            let last = before.iter().zip(after).rposition(|(a, b)| a != b).unwrap();
            (first as u64, after[first..=last].to_vec())
        }
    }
}

/// Of a call on a file that succeeded: what patterns did, if it takes any, and
/// whether the file has plain sections.
fn about(call: Call, file: &[u8], row: &[u8]) -> (&'static str, bool) {
    let patterns = read_patterns(row).expect("patterns that were taken");
    let coff = read_coff_with(file, &patterns).expect("a file that was taken");
    let did = match (coff.left_out, coff.program.blocks.len()) {
        _ if !call.has_patterns() => "",
        _ if row.is_empty() => "no pattern",
        (0, _) => "nothing left out",
        (_, 0) => "all left out",
        _ => "some left out",
    };
    (did, !coff.plain.is_empty())
}

pub fn answer(case: &Case) -> Own {
    let file = case.file.whole();
    let image = case.image.whole();
    let row = case.row.whole();
    let before = fill::before(case.lent, case.fill);
    let mut after = before.clone();
    let mut addresses = 0;
    // Of answers without a refusal, what they are.
    let mut taken = "";
    let mut plain = false;
    let (number, refused) = match case.call {
        Call::Convert => packed(image::convert(&file, &mut after, &row), |(l, k)| pack_convert(l, k)),
        Call::ConvertWith => {
            packed(image::convert_with(&file, &mut after, &row, case.order), |(l, k)| pack_convert(l, k))
        }
        Call::List => packed(listing::list(&file, &mut after), pack_list),
        Call::Read => packed(image::read_image(&image), |p| pack_read(p.entry, p.blocks.len() as u64)),
        Call::ReadWith => {
            packed(image::read_image_with(&image, case.order), |p| pack_read(p.entry, p.blocks.len() as u64))
        }
        Call::Block | Call::BlockWith => {
            let block = match case.call {
                Call::Block => image::ask_block(&image, case.number),
                _ => image::ask_block_with(&image, case.number, case.order),
            };
            if let Ok(b) = &block {
                addresses = pack_addresses(b.load, b.run);
            }
            packed(block, |b| pack_block(b.raw as u64, b.size))
        }
        Call::LoadImage => packed(loader::load_image(&image, case.number, &mut after), pack_load),
        Call::LoadImageWith => packed(loader::load_image_with(&image, case.number, &mut after, case.order), pack_load),
        Call::LoadCoff | Call::LoadCoffWith => {
            packed(loader::load_coff(&file, case.number, &mut after, &row), pack_load)
        }
        Call::Check => packed(check::check(&file, &image, &row), |()| 0),
        Call::CheckWith => packed(check::check_with(&file, &image, &row, case.order), |()| 0),
        Call::Measure | Call::MeasureWith => packed(image::measure(&file, &row), |(l, k)| pack_convert(l, k)),
        Call::BlockAt | Call::BlockAtWith => {
            let found = match case.call {
                Call::BlockAt => walk::block_at(&image, case.number),
                _ => walk::block_at_with(&image, case.number, case.order),
            };
            taken = if let Ok(None) = found { "end flag" } else { "block" };
            let (number, with) = walk::pack_at(&found);
            addresses = with;
            (number, found.err())
        }
        Call::Walk | Call::WalkWith => {
            let last = match case.call {
                Call::Walk => walk::walk(&image, &mut after),
                _ => walk::walk_with(&image, &mut after, case.order),
            };
            (walk::pack_at(&last).0, last.err())
        }
        Call::Version => (version::version(), None),
        Call::Takes => {
            let (number, what) = patterns::takes(&row, &file);
            taken = what;
            (number, None)
        }
    };
    if case.call.asks_file() && refused.is_none() {
        (taken, plain) = about(case.call, &file, &row);
    }
    let (changed_at, changed) = difference(&before, &after);
    let (code, index, cause, plain) = refused.map_or((0, 0, taken, plain), |r| (r.code, r.index, r.cause, r.plain));
    let outcome = Outcome { packed: number, addresses, changed_at, changed };
    Own { outcome, code, index, cause, plain, before, after }
}
