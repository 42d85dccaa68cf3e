//! The second program: the calls of scanboot once more, written from the
//! papers alone, and their comparison with the library.

mod again;
mod answer;
mod bench;
mod bench_names;
mod bench_orders;
mod bench_plain;
mod by_name;
mod call;
mod calls;
mod case;
mod check;
mod coff;
mod coverage;
mod edges;
mod every;
mod expect;
mod fault_file;
mod fault_image;
mod fields;
mod fill;
mod flags;
mod gen_check;
mod gen_file;
mod gen_flags;
mod gen_image;
mod gen_names;
mod gen_order;
mod gen_place;
mod gen_row;
mod gen_with;
mod generate;
mod given;
mod groups;
mod image;
mod layout;
mod lines;
mod listing;
mod loader;
mod make;
mod matching;
mod meeting;
mod naive;
mod naive_names;
mod naive_order;
mod naive_place;
mod names;
mod order;
mod ordered;
mod orders;
mod pairs;
mod patterns;
mod peer;
mod places;
mod program;
mod rng;
mod run;
mod sample_names;
mod samples;
mod version;
mod walk;
mod windows;

use std::io::{Read, Write};
use std::path::PathBuf;
use std::process::ExitCode;

use calls::{Call, CALLS};
use run::Options;

const USAGE: &str = "\
second bench                           the bench entries
second list < FILE                     what the listing program prints
second test [OPTIONS]                  everything
second case [OPTIONS] SEED NUMBER      one case, as a failure names it
options, --peer last:
  --cases N      numbered cases (500000)
  --seed S       seed (1)
  --samples DIR  folder of .out files instead of the built-in ones, all of which it has to hold
  --only LIST    of convert,list,read,block,load-image,load-coff,check,measure,block-at,walk,version,
                 measure-with,convert-with,load-coff-with,check-with,takes,
                 read-with,block-with,load-image-with,block-at-with,walk-with
  --peer CMD ... the driver to compare with";

fn only(list: &str) -> Result<Vec<Call>, String> {
    let call = |word: &str| CALLS.into_iter().find(|c| c.name() == word).ok_or(format!("no call {word}"));
    list.split(',').map(call).collect()
}

/// The options, and the words between them.
fn options(words: &[String]) -> Result<(Options, Vec<String>), String> {
    let mut options =
        Options { cases: 500_000, seed: 1, only: CALLS.to_vec(), samples: Vec::new(), peer: None };
    let mut folder: Option<PathBuf> = None;
    let mut rest = Vec::new();
    let mut words = words.iter();
    while let Some(word) = words.next() {
        if word == "--peer" {
            let command: Vec<String> = words.by_ref().cloned().collect();
            if command.is_empty() {
                return Err("--peer needs a command".to_string());
            }
            options.peer = Some(command);
            break;
        }
        if !word.starts_with("--") {
            rest.push(word.clone());
            continue;
        }
        let value = words.next().ok_or(format!("{word} needs a value"))?;
        let number = || value.parse::<u64>().map_err(|_| format!("{word}: no number {value}"));
        match word.as_str() {
            "--cases" => options.cases = number()?,
            "--seed" => options.seed = number()?,
            "--samples" => folder = Some(PathBuf::from(value)),
            "--only" => options.only = only(value)?,
            _ => return Err(format!("no option {word}")),
        }
    }
    options.samples = samples::samples(folder.as_deref())?;
    Ok((options, rest))
}

fn list() -> Result<bool, String> {
    let mut input = Vec::new();
    std::io::stdin().read_to_end(&mut input).map_err(|e| e.to_string())?;
    let text = listing::printed(&input);
    std::io::stdout().write_all(text.as_bytes()).map_err(|e| e.to_string())?;
    Ok(true)
}

fn go(words: &[String]) -> Result<bool, String> {
    let usage = || USAGE.to_string();
    let (command, words) = words.split_first().ok_or_else(usage)?;
    match command.as_str() {
        "bench" => {
            let (passed, failed) = bench::run();
            println!("{passed} passed, {failed} failed");
            Ok(failed == 0)
        }
        "list" => list(),
        "test" => {
            let (options, rest) = options(words)?;
            match rest.first() {
                Some(word) => Err(format!("what is {word}?")),
                None => Ok(run::test(&options)),
            }
        }
        "case" => {
            let (mut options, rest) = options(words)?;
            let (seed, number) = match rest.as_slice() {
                [seed, number] => (seed, number),
                _ => return Err(usage()),
            };
            options.seed = seed.parse().map_err(|_| usage())?;
            again::one(number, &options)
        }
        _ => Err(usage()),
    }
}

fn main() -> ExitCode {
    let words: Vec<String> = std::env::args().skip(1).collect();
    match go(&words) {
        Ok(true) => ExitCode::SUCCESS,
        Ok(false) => ExitCode::from(1),
        Err(why) => {
            eprintln!("{why}");
            ExitCode::from(2)
        }
    }
}
