//! What the group has to reach, call by call. It is counted on the images that were asked
//! about and not on how they were meant, so that a group without cases, or with others than
//! it should have, fails.

use std::collections::BTreeSet;

use super::asked::ASKED;
use super::batches::{BATCHES, COUNTS, LARGE_COUNTS};
use super::measure::measured;
use super::sequence::{FALLING_ROWS, ROWS};
use crate::calls::{Call, Case};
use crate::naive_order::undone_input;

#[derive(Default)]
pub struct Reached(BTreeSet<(Call, String)>);

/// Of the first later block and the first one that it meets.
const PAIRS: [&str; 14] = [
    "from below by one byte",
    "from above by one byte",
    "contains",
    "inside",
    "inside by one byte",
    "equal",
    "meeting at address 0",
    "meeting at the last address",
    "the last block meets one",
    "the first block is met",
    "the last block meets the first",
    "one pair",
    "one later meets several",
    "several later ones",
];

/// Of images in which no blocks meet.
const SOUND: [&str; 5] = [
    "all adjoin",
    "address 0, sound",
    "the last address, sound",
    "the last block ends where one begins",
    "the last block begins where one ends",
];

/// Of the same two, and of other pairs beside them, in batches.
const OF_BATCHES: [&str; 17] = [
    "neighbours in one",
    "the first and the last of one",
    "apart in one",
    "neighbours in two",
    "apart in two",
    "the later is the first of one",
    "the later is the last of one",
    "both in a last one that is not whole",
    "the later in a last one that is not whole",
    "the later in a last one that is whole",
    "the later alone in the last one",
    "others behind it",
    "a later one of its batch meets a sooner one",
    "a later one of its batch meets the same",
    "a later one of its batch meets it",
    "one of a later batch meets a sooner one",
    "it meets in its batch, a later one of it before",
];

fn sequences() -> Vec<String> {
    let named = ["ascending", "descending", "shuffled", "inwards", "outwards", "swapped", "one out of place"];
    let mut all: Vec<String> = named.map(String::from).to_vec();
    all.extend(ROWS.iter().flat_map(|rows| [format!("{rows} rows"), format!("{rows} rows in runs")]));
    all.extend(FALLING_ROWS.iter().map(|rows| format!("{rows} falling rows")));
    all
}

/// How blocks lie, of each call.
fn of_each() -> Vec<String> {
    let mut all: Vec<String> = PAIRS.into_iter().chain(SOUND).map(String::from).collect();
    for batch in BATCHES {
        all.extend(OF_BATCHES.iter().map(|name| format!("batches of {batch}: {name}")));
    }
    all.extend((21..=26).map(|rule| format!("meeting beside rule {rule}")));
    all
}

/// All that a call has to reach. One with an order is asked about fewer images, and not
/// about each count and sequence.
fn wanted(call: Call) -> Vec<String> {
    let mut all = of_each();
    if ASKED.contains(&call) {
        for count in COUNTS.into_iter().chain(LARGE_COUNTS) {
            all.push(format!("{count} blocks, sound"));
            // It takes two to meet.
            all.extend((count > 1).then(|| format!("{count} blocks, meeting")));
        }
        all.extend(sequences().iter().flat_map(|name| [format!("{name}, sound"), format!("{name}, meeting")]));
    }
    all
}

impl Reached {
    pub fn count(&mut self, case: &Case) {
        let image = undone_input(case);
        self.0.extend(measured(&image.whole()).into_iter().map(|name| (case.call, name)));
    }

    /// How much of it was reached by these calls, and what was not.
    pub fn missing(&self, calls: &[Call]) -> (u64, Vec<String>) {
        let mut reached = 0;
        let mut missing = Vec::new();
        for &call in calls.iter().filter(|call| ASKED.contains(&call.plain())) {
            for name in wanted(call) {
                if self.0.contains(&(call, name.clone())) {
                    reached += 1;
                } else {
                    missing.push(format!("{} was never asked: {name}", call.name()));
                }
            }
        }
        (reached, missing)
    }
}
