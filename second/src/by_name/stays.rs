//! The cases of other groups once more, with no pattern and with one that takes no
//! name: every answer stays.

use crate::bench;
use crate::bench_plain;
use crate::calls::{Case, Input, CALLS_WITH};
use crate::edges::{self, Maker};
use crate::every;

/// Takes none of the names in those groups.
const NO_NAME: &[u8] = b"no such name*";

/// The same case of the call with patterns, if there is one.
fn with(case: &Case, row: &[u8]) -> Option<Case> {
    let call = CALLS_WITH.into_iter().find(|c| c.plain() == case.call)?;
    Some(Case { call, row: Input::of(row.to_vec()), ..case.clone() })
}

pub fn cases(seed: u64) -> Vec<Case> {
    let mut all: Vec<Case> = bench::entries().into_iter().chain(bench_plain::entries()).map(|e| e.case).collect();
    all.extend(every::cases(seed));
    let both = |case: &Case| [with(case, b""), with(case, NO_NAME)];
    all.iter().flat_map(both).flatten().collect()
}

/// Of the boundaries; of large ones only with the pattern.
pub fn makers() -> Vec<Maker> {
    let mut all: Vec<Maker> = Vec::new();
    for make in edges::makers() {
        let case = make();
        if case.is_big() {
            if with(&case, NO_NAME).is_some() {
                all.push(Box::new(move || with(&make(), NO_NAME).unwrap()));
            }
            continue;
        }
        for row in [b"".as_slice(), NO_NAME] {
            if let Some(case) = with(&case, row) {
                all.push(Box::new(move || case.clone()));
            }
        }
    }
    all
}
