//! Compares the library with the second implementation, call by call.
//!
//! `compare CALLS SEED` makes that many calls. `compare CALLS SEED NAME` does
//! so with one rule altered, and must end in a difference. With the name
//! `alterations` it tries every alteration, with up to CALLS calls each. With
//! the name `show` it prints the last of the calls.

mod borders;
mod both;
#[cfg(test)]
mod checks;
mod first_tables;
mod guarded;
mod lengths;
mod library;
mod lists;
mod seen;
mod slices;
mod states;
mod undamaged;
mod watch;

use both::{Both, Difference, Stop};
use first_tables::FirstTables;
use lists::Lists;
use second::random::Random;
use second::rules::{Alteration, Rules};
use states::States;
use std::process::ExitCode;

/// How many calls in a hundred go to each part.
const SHARES: [u64; 4] = [60, 30, 3, 7];

/// How many of the last calls are shown.
const SHOWN: u64 = 20;

/// All the parts in turn, until the calls are made or the sides differ.
fn run(rules: Rules, seed: u64, calls: u64, shown: u64) -> (Both, Option<Box<Difference>>) {
    let mut random = Random::from_seed(seed);
    let mut both = Both::new(rules, seed, calls);
    both.show_last(shown);
    let mut lists = Lists::default();
    let mut states = States::new(&mut random);
    let mut first_tables = FirstTables::default();
    let mut made = [0; SHARES.len()];
    loop {
        let before = both.calls();
        let part = furthest_behind(&made);
        let played = match part {
            0 => lists.play(&mut both, &mut random),
            1 => states.play(&mut both, &mut random),
            2 => first_tables.play(&mut both, &mut random),
            _ => lengths::play(&mut both, &mut random),
        };
        made[part] += both.calls() - before;
        match played {
            Ok(()) => {}
            Err(Stop::Done) => return (both, None),
            Err(Stop::Differs(difference)) => return (both, Some(difference)),
        }
    }
}

/// The part with the fewest calls for its share.
fn furthest_behind(made: &[u64; SHARES.len()]) -> usize {
    (0..SHARES.len())
        .min_by_key(|&part| made[part] * 100 / SHARES[part])
        .unwrap_or(0)
}

fn compare(seed: u64, calls: u64, shown: u64) -> ExitCode {
    let (both, difference) = run(Rules::AS_WRITTEN, seed, calls, shown);
    if let Some(difference) = difference {
        print!("The library and the second implementation differ.\n{difference}");
        println!(
            "The calls before it: compare {} {seed} show",
            difference.call_number
        );
        return ExitCode::FAILURE;
    }
    if shown > 0 {
        println!("no difference");
        return ExitCode::SUCCESS;
    }
    let missing = both.seen.missing();
    if !missing.is_empty() {
        println!("No difference in {calls} calls, but these were never seen:");
        missing.iter().for_each(|what| println!("- {what}"));
        return ExitCode::FAILURE;
    }
    let seen = &both.seen;
    println!(
        "alike: {calls} calls with seed {seed}, {} accepted, {} refused; {} lists, {} of them across the end of an old store's versions, with {} swaps, {} returns and {} freed slots of rest stores",
        seen.accepted(),
        seen.refused(),
        seen.lists,
        seen.crossed,
        seen.swaps,
        seen.returns,
        seen.freed,
    );
    ExitCode::SUCCESS
}

/// With a rule altered, a run without a difference is the worse failure.
fn compare_altered(alteration: Alteration, seed: u64, calls: u64) -> ExitCode {
    let (_, difference) = run(Rules::altered(alteration), seed, calls, 0);
    match difference {
        Some(difference) => {
            print!("Altered: {}.\n{difference}", alteration.text());
            ExitCode::FAILURE
        }
        None => {
            println!("NOT FOUND in {calls} calls: {}", alteration.text());
            ExitCode::from(3)
        }
    }
}

/// Every alteration must be found within this many calls.
fn try_alterations(seed: u64, calls: u64) -> ExitCode {
    let all = Alteration::all();
    let mut lost = 0;
    for &alteration in &all {
        let (_, difference) = run(Rules::altered(alteration), seed, calls, 0);
        let (name, text) = (alteration.name(), alteration.text());
        match difference {
            Some(found) => println!(
                "found after {:>7} calls: {name} ({text})",
                found.call_number
            ),
            None => {
                lost += 1;
                println!("NOT FOUND in {calls} calls: {name} ({text})");
            }
        }
    }
    println!(
        "{} alterations, {} found, {lost} not found",
        all.len(),
        all.len() - lost
    );
    if lost == 0 {
        ExitCode::SUCCESS
    } else {
        ExitCode::FAILURE
    }
}

fn usage() -> ExitCode {
    eprintln!("usage: compare CALLS SEED [show | alterations | the name of one]");
    eprintln!("alterations:");
    for alteration in Alteration::all() {
        eprintln!("  {}: {}", alteration.name(), alteration.text());
    }
    ExitCode::from(2)
}

fn main() -> ExitCode {
    let arguments: Vec<String> = std::env::args().skip(1).collect();
    let (numbers, name) = match &arguments[..] {
        [calls, seed] => ([calls, seed], None),
        [calls, seed, name] => ([calls, seed], Some(name.as_str())),
        _ => return usage(),
    };
    let [Ok(calls), Ok(seed)] = numbers.map(|number| number.parse::<u64>()) else {
        return usage();
    };
    watch::begin();
    match name {
        None => compare(seed, calls, 0),
        Some("show") => compare(seed, calls, SHOWN),
        Some("alterations") => try_alterations(seed, calls),
        Some(name) => match Alteration::by_name(name) {
            Some(alteration) => compare_altered(alteration, seed, calls),
            None => usage(),
        },
    }
}
