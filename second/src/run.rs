//! Runs cases, compares them with the peer, and counts.

use std::collections::VecDeque;

use crate::bench;
use crate::calls::{answer, Call, Case, Outcome, Own};
use crate::coverage::Coverage;
use crate::gen_order;
use crate::gen_with;
use crate::generate;
use crate::groups;
use crate::meeting;
use crate::naive;
use crate::peer::{Peer, Reply};
use crate::sample_names;
use crate::samples::Sample;

pub struct Options {
    pub cases: u64,
    pub seed: u64,
    pub only: Vec<Call>,
    pub samples: Vec<Sample>,
    pub peer: Option<Vec<String>>,
}

/// What seed and number make.
type Draw<T> = fn(u64, u64) -> T;

/// The numbered cases with patterns, and those with an order, each stand in a series of
/// their own, half as many.
pub const WITH: &str = "with";
pub const ORDER: &str = "order";

/// How a case is found again: its group and number, or its number alone.
fn name(group: Option<&str>, number: u64) -> String {
    match group {
        Some(group) => format!("{group}:{number}"),
        None => number.to_string(),
    }
}

struct Waiting {
    name: String,
    case: Case,
    own: Own,
}

impl Waiting {
    /// How many bytes it keeps in memory and on the pipe.
    fn weight(&self) -> u64 {
        let case = &self.case;
        let given = case.file.bytes.len() + case.image.bytes.len() + case.row.bytes.len();
        (given + self.own.outcome.changed.len()) as u64
    }
}

struct Run<'a> {
    options: &'a Options,
    peer: Option<Peer>,
    waiting: VecDeque<Waiting>,
    waiting_bytes: u64,
    coverage: Coverage,
    /// Of the group of blocks that meet, what its images are.
    meetings: meeting::Reached,
    passed: u64,
    failed: u64,
    deaths: u64,
}

/// So many cases and bytes may be under way at once.
const MOST_WAITING: usize = 4000;
const MOST_WAITING_BYTES: u64 = 8 << 20;
const MOST_SHOWN: u64 = 20;
const MOST_DEATHS: u64 = 20;

pub fn show(outcome: &Outcome) -> String {
    let bytes = &outcome.changed;
    let mut text = format!("packed {:016x}", outcome.packed);
    if outcome.addresses != 0 {
        text += &format!(" addresses {:016x}", outcome.addresses);
    }
    if !bytes.is_empty() {
        let start: String = bytes.iter().take(48).map(|b| format!("{b:02x}")).collect();
        let more = if bytes.len() > 48 { ".." } else { "" };
        text += &format!(", {} lent bytes from {} on: {start}{more}", bytes.len(), outcome.changed_at);
    }
    text
}

impl Run<'_> {
    fn fail(&mut self, name: &str, case: &Case, own: &Own, why: &str, other: Option<&Outcome>) {
        self.failed += 1;
        if self.failed > MOST_SHOWN {
            return;
        }
        println!("FAILED {} ({}): {why}", case.call.name(), case.what);
        println!("  second: code {} index {}, {}", own.code, own.index, show(&own.outcome));
        if let Some(other) = other {
            println!("  peer:   {}", show(other));
        }
        println!("  again:  second case {} {name}", self.options.seed);
    }

    fn take(&mut self, name: String, case: Case) -> Result<(), String> {
        if !self.options.only.contains(&case.call) {
            return Ok(());
        }
        let mut own = answer(&case);
        self.coverage.count(&case, &own);
        if let Some(why) = naive::fault(&case, &own) {
            self.fail(&name, &case, &own, &why, None);
            return Ok(());
        }
        let peer = match &mut self.peer {
            Some(peer) => peer,
            None => {
                self.passed += 1;
                return Ok(());
            }
        };
        let sent = peer.send(&case);
        // Only the outcome is needed from here on.
        (own.before, own.after) = (Vec::new(), Vec::new());
        let waiting = Waiting { name, case, own };
        self.waiting_bytes += waiting.weight();
        self.waiting.push_back(waiting);
        if !sent {
            return self.one_at_a_time();
        }
        if self.waiting_bytes > MOST_WAITING_BYTES {
            return self.finish(0);
        }
        if self.waiting.len() > MOST_WAITING {
            return self.finish(MOST_WAITING / 2);
        }
        Ok(())
    }

    /// Waits for replies until no more than `left` are missing.
    fn finish(&mut self, left: usize) -> Result<(), String> {
        let peer = match &mut self.peer {
            Some(peer) => peer,
            None => return Ok(()),
        };
        if !peer.flush() {
            return self.one_at_a_time();
        }
        while self.waiting.len() > left {
            match self.peer.as_mut().unwrap().receive() {
                Some(reply) => {
                    let first = self.waiting.pop_front().unwrap();
                    self.waiting_bytes -= first.weight();
                    self.compare(&first, &reply);
                }
                None => return self.one_at_a_time(),
            }
        }
        Ok(())
    }

    /// The driver is gone. Replies may have been lost with it, so that each
    /// missing case is tried alone with a new one.
    fn one_at_a_time(&mut self) -> Result<(), String> {
        self.peer.as_mut().unwrap().again()?;
        while let Some(first) = self.waiting.pop_front() {
            let peer = self.peer.as_mut().unwrap();
            let reply = if peer.send(&first.case) && peer.flush() { peer.receive() } else { None };
            match reply {
                Some(reply) => self.compare(&first, &reply),
                None => {
                    self.fail(&first.name, &first.case, &first.own, "the driver crashed or does not answer", None);
                    self.deaths += 1;
                    if self.deaths > MOST_DEATHS {
                        return Err("the driver crashed too often".to_string());
                    }
                    self.peer.as_mut().unwrap().again()?;
                }
            }
        }
        self.waiting_bytes = 0;
        Ok(())
    }

    fn compare(&mut self, waiting: &Waiting, reply: &Reply) {
        let Waiting { name, case, own } = waiting;
        if let Some(why) = reply.complaint() {
            self.fail(name, case, own, why, Some(&reply.outcome));
        } else if reply.outcome != own.outcome {
            self.fail(name, case, own, "the answers differ", Some(&reply.outcome));
        } else {
            self.passed += 1;
        }
    }

    fn all(&mut self) -> Result<(), String> {
        let options = self.options;
        for name_of in groups::names() {
            let group = groups::group(&name_of, options.seed, &options.samples).unwrap();
            for number in 0..group.len() {
                if let Some(case) = group.case(number) {
                    if name_of == meeting::GROUP && options.only.contains(&case.call) {
                        self.meetings.count(&case);
                    }
                    self.take(name(Some(&name_of), number as u64), case)?;
                }
            }
        }
        self.finish(0)?;
        self.numbered(None, options.cases, generate::call_of, generate::case)?;
        self.numbered(Some(WITH), options.cases / 2, gen_with::call_of, gen_with::case)?;
        self.numbered(Some(ORDER), options.cases / 2, gen_order::call_of, gen_order::case)
    }

    /// So many cases of a series that are of calls that were asked for.
    fn numbered(&mut self, series: Option<&str>, cases: u64, call_of: Draw<Call>, make: Draw<Case>) -> Result<(), String> {
        let options = self.options;
        // A series that draws none of the calls asked for would never end.
        if !(0..1000).any(|number| options.only.contains(&call_of(options.seed, number))) {
            return Ok(());
        }
        let (mut done, mut number) = (0, 0);
        while done < cases {
            // The call is drawn first, so that others cost nothing.
            if options.only.contains(&call_of(options.seed, number)) {
                self.take(name(series, number), make(options.seed, number))?;
                done += 1;
            }
            number += 1;
        }
        self.finish(0)
    }
}

/// Everything; true when nothing failed.
pub fn test(options: &Options) -> bool {
    let peer = match options.peer.as_deref().map(Peer::start).transpose() {
        Ok(peer) => peer,
        Err(why) => {
            println!("{why}");
            println!("0 passed, 1 failed");
            return false;
        }
    };
    let (bench_passed, bench_failed) = bench::run();
    let (names_passed, names_failed) = sample_names::run(&options.samples);
    let mut run = Run {
        options,
        peer,
        waiting: VecDeque::new(),
        waiting_bytes: 0,
        coverage: Coverage::default(),
        meetings: meeting::Reached::default(),
        passed: bench_passed + names_passed,
        failed: bench_failed + names_failed,
        deaths: 0,
    };
    if let Err(why) = run.all() {
        println!("FAILED: {why}");
        run.failed += 1;
    }
    run.coverage.print(&options.only);
    for (reached, missing) in [run.coverage.missing(&options.only), run.meetings.missing(&options.only)] {
        for line in &missing {
            println!("FAILED: {line}");
        }
        run.passed += reached;
        run.failed += missing.len() as u64;
    }
    println!("{} passed, {} failed", run.passed, run.failed);
    run.failed == 0
}
