//! Trials that generated machines meet every case of held signals.

use super::trials::{each_event, faults_met, u16_at};
use super::{only_held_changed, Lent};
use crate::events::Event;
use crate::step::carry_out;
use std::collections::BTreeSet;

#[test]
fn jobs_that_hold_signals_end_in_every_way() {
    let mut ends = BTreeSet::new();
    each_event(0..400, |program, state, event| {
        let holds = match *event {
            Event::Arrival(_) => false,
            Event::Step(thread) | Event::Cut(thread) => {
                state.job(thread).is_some_and(|job| !job.held.is_empty())
            }
        };
        let answer = carry_out(program, state, event).encode();
        if holds && answer[0] >= 7 {
            ends.insert(answer);
        }
    });
    let exits = (0..=4).map(|lost| [7, lost]);
    let traps = (1..=9).map(|reason| [8, reason]);
    assert_eq!(ends, exits.chain(traps).chain([[9, 0]]).collect());
}

/// What damage does to held signals; at times they stay well formed.
const FAULTS: [&str; 11] = [
    "none",
    "held by an idle thread",
    "count 5",
    "count above 5",
    "unused signal",
    "label beyond the image",
    "value count above 25",
    "unused value",
    "entry 0",
    "entry 1",
    "entry 3",
];

fn is_zero(bytes: &[u8]) -> bool {
    bytes.iter().all(|&byte| byte == 0)
}

/// What is wrong with the held signals of a thread record, if anything is.
fn fault(image: &[u8], thread: &[u8]) -> Option<&'static str> {
    let (held, count) = (&thread[75..], usize::from(thread[75]));
    if thread[..2] == [255, 255] {
        return (!is_zero(held)).then_some("held by an idle thread");
    }
    if count > 4 {
        return Some(if count == 5 { "count 5" } else { "count above 5" });
    }
    let (used, unused) = held[1..].split_at(53 * count);
    let unused = (!is_zero(unused)).then_some("unused signal");
    used.chunks(53).find_map(|signal| signal_fault(image, signal)).or(unused)
}

fn signal_fault(image: &[u8], signal: &[u8]) -> Option<&'static str> {
    let Some(record) = image.chunks(84).nth(u16_at(signal, 0).into()) else {
        return Some("label beyond the image");
    };
    let Some(unused) = signal[3..].get(2 * usize::from(signal[2])..) else {
        return Some("value count above 25");
    };
    match record[2] {
        0 => Some("entry 0"),
        1 => Some("entry 1"),
        3 => Some("entry 3"),
        _ => (!is_zero(unused)).then_some("unused value"),
    }
}

#[test]
fn damaged_held_signals_have_every_fault_and_are_refused() {
    let first_fault = |lent: &Lent| {
        let mut threads = lent.state[512..2_816].chunks(288);
        threads.find_map(|thread| fault(&lent.image, thread))
    };
    assert_eq!(faults_met(3, only_held_changed, first_fault), BTreeSet::from(FAULTS));
}
