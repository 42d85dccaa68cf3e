//! The cases that are not drawn by number: fixed lists, each with a name.

use std::cell::RefCell;

use crate::bench;
use crate::bench_names;
use crate::bench_orders;
use crate::bench_plain;
use crate::by_name;
use crate::calls::{Call, Case, CALLS};
use crate::edges::{self, Maker};
use crate::every;
use crate::fill::FILL_BYTE;
use crate::flags;
use crate::meeting;
use crate::ordered;
use crate::orders;
use crate::pairs;
use crate::places;
use crate::sample_names;
use crate::samples::{self, Sample};

pub enum Group {
    Made(Vec<Case>),
    /// Made one at a time, because some are large.
    OneByOne(Vec<Maker>),
    /// Made by number, because there are many.
    Counted(usize, fn(usize) -> Case),
    /// Another group under orders, as far as its calls take one; the case that was
    /// last made of it is kept, for several come of each.
    Ordered(Box<Group>, RefCell<Option<(usize, Case)>>),
}

/// The groups of cases without an order, or with the first, are run under orders too by
/// this name and theirs.
const ORDERED: &str = "ordered-";

/// Places and fills that go by number.
fn placed(mut case: Case, number: usize) -> Case {
    case.place = (number * 5 % 16) as u8;
    case.fill = number as u32 * 13 % FILL_BYTE;
    case
}

impl Group {
    pub fn len(&self) -> usize {
        match self {
            Group::Made(cases) => cases.len(),
            Group::OneByOne(makers) => makers.len(),
            Group::Counted(cases, _) => *cases,
            Group::Ordered(group, _) => group.len() * ordered::VARIANTS,
        }
    }

    /// None where a case has no such variant.
    pub fn case(&self, number: usize) -> Option<Case> {
        match self {
            Group::Made(cases) => Some(cases[number].clone()),
            Group::OneByOne(makers) => Some(placed(makers[number](), number)),
            Group::Counted(_, make) => Some(placed(make(number), number)),
            Group::Ordered(group, last) => {
                let of = number / ordered::VARIANTS;
                let mut last = last.borrow_mut();
                if !matches!(&*last, Some((made, _)) if *made == of) {
                    *last = group.case(of).map(|case| (of, case));
                }
                last.as_ref().and_then(|(_, case)| ordered::variant(case, number))
            }
        }
    }
}

/// The calls whose pairs of faults make a group.
fn paired() -> impl Iterator<Item = Call> {
    CALLS.into_iter().filter(|call| !call.has_order() || call.has_patterns())
}

/// Those whose cases take no order, or the first; small inputs first.
fn plain_names() -> Vec<String> {
    let mut all: Vec<String> = ["bench", "bench-plain", "flags", "flags-calls"].map(String::from).to_vec();
    all.extend(["samples", "every", "places", "edges"].map(String::from));
    all.extend(paired().map(|c| format!("pairs-{}", c.name())));
    all.extend(["bench-names", "names", "takes", "long-names", "sample-names", "stays", "edges-stay"].map(String::from));
    all.push(meeting::GROUP.to_string());
    all
}

/// Not run under orders: such as have none of the calls, conversions of each set of
/// flags, which are many and have one image or none, what stays in other calls, and blocks
/// that meet, of which a part is in orders anyway.
const NOT_ORDERED: [&str; 5] = ["flags", "takes", "stays", "edges-stay", meeting::GROUP];

pub fn names() -> Vec<String> {
    let plain = plain_names();
    let ordered = plain.iter().filter(|name| !NOT_ORDERED.contains(&name.as_str()));
    let ordered: Vec<String> = ordered.map(|name| format!("{ORDERED}{name}")).collect();
    [plain, vec!["bench-orders".to_string(), "orders".to_string()], ordered].concat()
}

pub fn group(name: &str, seed: u64, samples: &[Sample]) -> Option<Group> {
    if let Some(plain) = name.strip_prefix(ORDERED) {
        let plain = group(plain, seed, samples)?;
        return Some(Group::Ordered(Box::new(plain), RefCell::new(None)));
    }
    Some(match name {
        "bench" => Group::Made(bench::entries().into_iter().map(|e| e.case).collect()),
        "bench-names" => Group::Made(bench_names::entries().into_iter().map(|e| e.case).collect()),
        "bench-orders" => Group::Made(bench_orders::entries().into_iter().map(|e| e.case).collect()),
        "orders" => Group::Made(orders::cases(seed, samples)),
        "bench-plain" => Group::Made(bench_plain::entries().into_iter().map(|e| e.case).collect()),
        "flags" => Group::Counted(flags::CASES, flags::case),
        "flags-calls" => Group::Made(flags::calls::cases(seed)),
        "samples" => Group::Made(samples::cases(seed, samples)),
        "every" => Group::Made(every::cases(seed)),
        "places" => Group::Made(places::cases(seed)),
        "edges" => Group::OneByOne(edges::makers()),
        "sample-names" => Group::Made(sample_names::cases(seed, samples)),
        "names" => Group::Made(by_name::cases(seed)),
        "takes" => Group::Made(by_name::taking(seed)),
        "stays" => Group::Made(by_name::stays::cases(seed)),
        "edges-stay" => Group::OneByOne(by_name::stays::makers()),
        "long-names" => Group::OneByOne(by_name::makers()),
        meeting::GROUP => Group::OneByOne(meeting::makers(seed)),
        _ => {
            let call = paired().find(|c| name == format!("pairs-{}", c.name()))?;
            Group::Made(pairs::cases(seed, call))
        }
    })
}
