//! The proved library against the second implementation: the same calls on the
//! same bytes have to return the same number and leave the same bytes.
//!
//!     compare                 the fixed seeds
//!     compare soak SECONDS    fresh seeds for so long
//!     compare replay SEED     one seed, as a failure named it

mod both;
mod cases;
mod codes;
mod decimals;
mod divisions;
mod faults;
mod groups;
mod held;
mod library;
mod links;
mod seen;
mod sizes;
mod sorts;
mod steps;
mod subtractions;
mod unmet;

use seen::Seen;
use std::process::ExitCode;
use std::time::{Duration, Instant, SystemTime, UNIX_EPOCH};

/// The fixed seeds are those below this number; one in so many has the case of
/// single events and the link's too, and one in so many the long sorts of case.
const FIXED: u64 = 2_500;
const MORE_EVERY: u64 = 3;
const LONG_EVERY: u64 = 50;

fn main() -> ExitCode {
    let arguments: Vec<String> = std::env::args().skip(1).collect();
    let words: Vec<&str> = arguments.iter().map(String::as_str).collect();
    let mut seen = Seen::default();
    let compared = match words[..] {
        [] => fixed(&mut seen),
        ["soak", seconds] => number(seconds).and_then(|seconds| soak(&mut seen, seconds)),
        ["replay", seed] => number(seed).and_then(|seed| replay(&mut seen, seed)),
        _ => Err("use: compare | compare soak SECONDS | compare replay SEED".into()),
    };
    let Seen { calls, events, in_two_blocks, rings, longest_walk, links, largest_link, .. } = seen;
    let (below_zero, by_zero) = (seen.below_zero(), seen.by_zero());
    let (not_decimal, lost) = (seen.not_decimal(), seen.lost());
    match compared {
        Ok(what) => {
            println!(
                "compare: {what}, {calls} calls, {events} events, \
                 {below_zero} subtractions below zero, {by_zero} divisions by zero, \
                 {not_decimal} numbers that are not decimal, {lost} held signals lost, \
                 {in_two_blocks} threads in two blocks of a group, {rings} rings, \
                 walks of up to {longest_walk} threads, \
                 {links} links of up to {largest_link} records: no difference"
            );
            ExitCode::SUCCESS
        }
        Err(why) => {
            println!("compare: {why}");
            ExitCode::FAILURE
        }
    }
}

fn number(text: &str) -> Result<u64, String> {
    text.parse().map_err(|_| format!("{text} is no number"))
}

fn fixed(seen: &mut Seen) -> Result<String, String> {
    for seed in 0..FIXED {
        one_seed(seen, seed)?;
    }
    match seen.missing() {
        missing if missing.is_empty() => Ok(format!("{FIXED} seeds")),
        missing => Err(format!("no case showed {}", missing.join(", "))),
    }
}

fn soak(seen: &mut Seen, seconds: u64) -> Result<String, String> {
    let since_epoch = SystemTime::now().duration_since(UNIX_EPOCH);
    let first = since_epoch.map_or(0, |passed| passed.as_nanos() as u64);
    println!("compare: seeds from {first} on");
    let (begun, mut seeds) = (Instant::now(), 0);
    while begun.elapsed() < Duration::from_secs(seconds) {
        one_seed(seen, first.wrapping_add(seeds))?;
        seeds += 1;
    }
    Ok(format!("{seeds} seeds"))
}

fn one_seed(seen: &mut Seen, seed: u64) -> Result<(), String> {
    let failure = |why| format!("seed {seed}: {why}");
    cases::short_case(seen, seed).map_err(failure)?;
    if seed.is_multiple_of(MORE_EVERY) {
        cases::single_case(seen, seed).map_err(failure)?;
        links::link_case(seen, seed).map_err(failure)?;
    }
    if seed.is_multiple_of(LONG_EVERY) {
        cases::waiting_case(seen, seed).map_err(failure)?;
        cases::long_case(seen, seed).map_err(failure)?;
    }
    Ok(())
}

/// Every sort of case.
fn replay(seen: &mut Seen, seed: u64) -> Result<String, String> {
    cases::short_case(seen, seed)?;
    cases::single_case(seen, seed)?;
    links::link_case(seen, seed)?;
    cases::waiting_case(seen, seed)?;
    cases::long_case(seen, seed)?;
    Ok(format!("seed {seed}"))
}
