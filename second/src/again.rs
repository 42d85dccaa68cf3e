//! One case again, by the name that a failure gives it.

use crate::calls::{answer, Case};
use crate::gen_order;
use crate::gen_with;
use crate::generate;
use crate::groups;
use crate::naive;
use crate::peer::Peer;
use crate::run::{show, Options, ORDER, WITH};
use crate::samples::Sample;

/// The case by its name, as a failure prints it.
fn find(seed: u64, name: &str, samples: &[Sample]) -> Result<Case, String> {
    if let Ok(number) = name.parse() {
        return Ok(generate::case(seed, number));
    }
    let unknown = || format!("no case {name}");
    let (group, number) = name.split_once(':').ok_or_else(unknown)?;
    let series: Option<fn(u64, u64) -> Case> = match group {
        WITH => Some(gen_with::case),
        ORDER => Some(gen_order::case),
        _ => None,
    };
    if let Some(case) = series {
        return number.parse().map(|number| case(seed, number)).map_err(|_| unknown());
    }
    let group = groups::group(group, seed, samples).ok_or_else(unknown)?;
    let number: usize = number.parse().map_err(|_| unknown())?;
    let case = if number < group.len() { group.case(number) } else { None };
    case.ok_or_else(unknown)
}

fn hex(title: &str, bytes: &[u8], length: u64) {
    println!("{title}: {length} bytes, {} given", bytes.len());
    for (i, line) in bytes.chunks(16).take(64).enumerate() {
        let line: Vec<String> = line.iter().map(|b| format!("{b:02x}")).collect();
        println!("  {:6} {}", 16 * i, line.join(" "));
    }
}

/// Shows one case, and what the peer answers to it.
pub fn one(name: &str, options: &Options) -> Result<bool, String> {
    let case = find(options.seed, name, &options.samples)?;
    println!("{}: {}", case.call.name(), case.what);
    hex("file", &case.file.bytes, case.file.length);
    hex("image", &case.image.bytes, case.image.length);
    hex("patterns", &case.row.bytes, case.row.length);
    println!("number {:x}, order {}, lent {} bytes, fill {}, place {}", case.number, case.order, case.lent, case.fill, case.place);
    let own = answer(&case);
    println!("code {} index {} {}", own.code, own.index, own.cause);
    println!("second: {}", show(&own.outcome));
    let mut right = true;
    if let Some(why) = naive::fault(&case, &own) {
        println!("second is at odds with itself: {why}");
        right = false;
    }
    if let Some(command) = &options.peer {
        let mut peer = Peer::start(command)?;
        let reply = if peer.send(&case) && peer.flush() { peer.receive() } else { None };
        match reply {
            None => {
                println!("peer:   crashed, or does not answer");
                right = false;
            }
            Some(reply) => {
                println!("peer:   {}", show(&reply.outcome));
                if let Some(why) = reply.complaint() {
                    println!("peer:   {why}");
                }
                right = right && reply.complaint().is_none() && reply.outcome == own.outcome;
            }
        }
    }
    println!("{}", if right { "same" } else { "different" });
    Ok(right)
}
