//! How often each call answered each code, by which cause, of which kind of section,
//! and in which byte order.

use std::collections::BTreeMap;

use crate::calls::{Call, Case, Own, CALLS};

/// A way to answer: the code, its cause, whether a plain section was in it, and the
/// order.
type Way = (u8, &'static str, bool, u32);

#[derive(Default)]
pub struct Coverage(BTreeMap<(Call, Way), u64>);

/// Stands for all numbers that are no order.
const NO_ORDER: u32 = 4;

/// The codes that a call can answer.
fn codes(call: Call) -> Vec<u8> {
    let mut all = vec![0];
    if call.asks_file() {
        all.extend(1..=13);
    }
    if call.asks_image() {
        all.extend(20..=27);
    }
    if call.has_patterns() {
        all.extend([16, 17]);
    }
    if call.has_order() {
        all.push(33);
    }
    match call.plain() {
        Call::Convert => all.extend([14, 15]),
        Call::List => all.push(15),
        Call::Block => all.push(30),
        Call::LoadImage | Call::LoadCoff => all.extend([28, 29]),
        Call::Check => all.extend([40, 41]),
        Call::Measure => all.push(14),
        Call::BlockAt | Call::Walk => all.extend([20, 21]),
        _ => {}
    }
    all
}

/// The ways to a code.
fn causes(call: Call, code: u8) -> &'static [&'static str] {
    match code {
        0 if call.plain() == Call::BlockAt => &["block", "end flag"],
        0 if call == Call::Takes => &["takes", "does not take", "pattern of no bytes", "pattern over 64 bytes"],
        0 if call.has_patterns() => &["no pattern", "nothing left out", "some left out", "all left out"],
        8 => &["in optional header", "in section headers"],
        10 => &["begins too early", "ends too late"],
        16 => &[
            "offset under 4",
            "no string table",
            "offset past the table",
            "offset past the file",
            "table ends in the name",
            "file ends in the name",
        ],
        17 => &["over 16 patterns", "pattern of no bytes", "pattern over 64 bytes"],
        21 if !call.asks_image() => &["place", "size field", "address fields", "data", "padding"],
        21 => &["entry point", "no end flag", "size field", "address fields", "data", "padding"],
        27 => &["from below", "from above", "contains", "inside", "equal"],
        28 => &["length", "base + length"],
        29 => &["begins before", "ends after"],
        33 => &["4 to 7", "lowest byte 0 to 3", "any other"],
        41 => &["byte", "run address", "only in file", "only in image"],
        _ => &[""],
    }
}

/// Without a plain section; and with one, where an answer is about sections.
fn kinds(call: Call, code: u8) -> &'static [bool] {
    match code {
        0 | 10..=13 | 16 if call.asks_file() => &[false, true],
        29 if call.plain() == Call::LoadCoff => &[false, true],
        _ => &[false],
    }
}

/// The orders in which it can be answered; rule 17 comes before 33.
fn orders(call: Call, code: u8) -> &'static [u32] {
    match code {
        _ if !call.has_order() => &[0],
        33 => &[NO_ORDER],
        17 => &[0, 1, 2, 3, NO_ORDER],
        _ => &[0, 1, 2, 3],
    }
}

/// All that a call can answer.
fn ways(call: Call) -> Vec<Way> {
    let mut all = Vec::new();
    for code in codes(call) {
        for &cause in causes(call, code) {
            for &plain in kinds(call, code) {
                all.extend(orders(call, code).iter().map(|&order| (code, cause, plain, order)));
            }
        }
    }
    all
}

impl Coverage {
    pub fn count(&mut self, case: &Case, own: &Own) {
        let way = (own.code, own.cause, own.plain, case.order.min(NO_ORDER));
        *self.0.entry((case.call, way)).or_insert(0) += 1;
    }

    fn reached(&self, call: Call, code: u8) -> u64 {
        let of_code = self.0.iter().filter(|(key, _)| key.0 == call && key.1 .0 == code);
        of_code.map(|(_, n)| n).sum()
    }

    /// The table of codes, a line for each and a column for each call.
    pub fn print(&self, calls: &[Call]) {
        let width = |call: Call| call.name().len().max(8) + 1;
        print!("{:>4}", "code");
        for &call in calls {
            print!("{:>1$}", call.name(), width(call));
        }
        println!();
        for code in 0..=41 {
            if !CALLS.iter().any(|c| codes(*c).contains(&code)) {
                continue;
            }
            print!("{code:>4}");
            for &call in calls {
                let n = self.reached(call, code);
                if codes(call).contains(&code) {
                    print!("{n:>0$}", width(call));
                } else {
                    assert_eq!(n, 0, "{call:?} cannot answer {code}");
                    print!("{:>1$}", "-", width(call));
                }
            }
            println!();
        }
    }

    /// Each way to each code that was reached, and those that were not.
    pub fn missing(&self, calls: &[Call]) -> (u64, Vec<String>) {
        let mut reached = 0;
        let mut missing = Vec::new();
        for &call in calls {
            for way in ways(call) {
                if self.0.contains_key(&(call, way)) {
                    reached += 1;
                } else {
                    let (code, cause, plain, order) = way;
                    let with = if plain { " with a plain section" } else { "" };
                    let told = if call.has_order() { format!(" in order {order}") } else { String::new() };
                    missing.push(format!("{} never answered {code} {cause}{with}{told}", call.name()));
                }
            }
        }
        (reached, missing)
    }
}
