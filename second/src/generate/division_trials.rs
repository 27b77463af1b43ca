//! Trials that generated machines meet every case of division.

use super::record_trials::{operands, record_faults_met, OTHER_FAULT};
use super::trials::{each_event, kind, one_to_ten_of_a_hundred_end, stepped, u16_at, value};
use crate::events::Event;
use crate::image::Program;
use crate::sorts::Thread;
use crate::state::State;
use crate::statement::{Division, Operand, Place, Statement};
use crate::step::carry_out;
use std::collections::BTreeSet;

/// A division that the next step of a thread carries out. An operand that is an
/// absent register has no value.
struct Dividing {
    thread: Thread,
    division: Division,
    p: Option<u16>,
    q: Option<u16>,
}

impl Dividing {
    fn next(program: &Program, state: &State, event: &Event) -> Option<Dividing> {
        let (thread, Statement::Divide { division, .. }) = stepped(program, state, event)? else {
            return None;
        };
        let [p, q] = [division.p, division.q].map(|operand| value(state, thread, operand));
        Some(Dividing { thread, division: *division, p, q })
    }

    /// The quotient's and the remainder's place, as operands.
    fn places(&self) -> [Operand; 2] {
        [self.division.quotient, self.division.remainder].map(Operand::Kept)
    }

    /// Whether the rules give this answer and, if the job moves on, these values
    /// at the destinations.
    fn keeps_the_rules(&self, answer: [u8; 2], stored: [Option<u16>; 2]) -> bool {
        match (self.p, self.q, stored.map(|value| value.map(u32::from))) {
            (Some(_), Some(0), stored) => (answer, stored) == ([8, 8], [None; 2]),
            (Some(p), Some(q), [Some(quotient), Some(remainder)]) => {
                let (p, q) = (u32::from(p), u32::from(q));
                answer == [6, 0] && p == q * quotient + remainder && remainder < q
            }
            (Some(_), Some(_), _) => false,
            (_, _, stored) => (answer, stored) == ([8, 1], [None; 2]),
        }
    }

    /// How the operands stand to each other, with where q is from, with where
    /// the results go and with the places that are met twice.
    fn cases(&self) -> Vec<[&'static str; 3]> {
        let edge = edge(self.p, self.q);
        let [quotient, remainder] = self.places().map(kind);
        let mut cases = vec![[edge, "from", kind(self.division.q)], [edge, quotient, remainder]];
        cases.extend(self.shared().into_iter().map(|shared| [edge, "shared", shared]));
        cases
    }

    /// The places that are met twice.
    fn shared(&self) -> Vec<&'static str> {
        let Division { quotient, remainder, p, q } = self.division;
        let is = |operand, place| matches!(operand, Operand::Kept(kept) if kept == place);
        let twins = match (quotient, remainder) {
            (Place::Register(register), Place::Word(word))
            | (Place::Word(word), Place::Register(register)) => word % 16 == register,
            _ => false,
        };
        let met = [
            is(p, quotient),
            is(p, remainder),
            is(q, quotient),
            is(q, remainder),
            is(p, quotient) && is(q, remainder),
            is(p, remainder) && is(q, quotient),
            is(p, quotient) && is(q, quotient),
            is(p, remainder) && is(q, remainder),
            twins,
        ];
        SHARED.into_iter().zip(met).filter(|&(_, met)| met).map(|(shared, _)| shared).collect()
    }
}

const SHARED: [&str; 9] = [
    "p and quotient",
    "p and remainder",
    "q and quotient",
    "q and remainder",
    "p and quotient, q and remainder",
    "p and remainder, q and quotient",
    "p, q and quotient",
    "p, q and remainder",
    "a register and the word of its number",
];

/// How operands stand to each other.
const EDGES: [&str; 11] = [
    "0 by 0",
    "above 0 by 0",
    "0 by above 0",
    "by 1",
    "by itself",
    "by more",
    "nothing left",
    "one less than q left",
    "fewer left",
    "p absent and q 0",
    "p absent and q above 0",
];
const Q_ABSENT: &str = "q absent";

fn edge(p: Option<u16>, q: Option<u16>) -> &'static str {
    match (p, q) {
        (Some(0), Some(0)) => EDGES[0],
        (Some(_), Some(0)) => EDGES[1],
        (Some(0), Some(_)) => EDGES[2],
        (Some(_), Some(1)) => EDGES[3],
        (Some(p), Some(q)) if p <= q => EDGES[if p == q { 4 } else { 5 }],
        (Some(p), Some(q)) if p % q == 0 => EDGES[6],
        (Some(p), Some(q)) => EDGES[if p % q == q - 1 { 7 } else { 8 }],
        (None, Some(0)) => EDGES[9],
        (None, Some(_)) => EDGES[10],
        (_, None) => Q_ABSENT,
    }
}

#[test]
fn divisions_meet_every_edge_and_keep_their_rules() {
    let mut met = BTreeSet::new();
    each_event(0..1_000, |program, state, event| {
        let dividing = Dividing::next(program, state, event);
        let words = state.words.clone();
        let answer = carry_out(program, state, event).encode();
        if let Some(dividing) = dividing {
            let stored = dividing.places().map(|place| value(state, dividing.thread, place));
            assert!(dividing.keeps_the_rules(answer, stored));
            assert!(answer == [6, 0] || state.words == words);
            met.extend(dividing.cases());
        }
    });
    let kinds = ["register", "word"];
    for edge in EDGES {
        let from = ["number", "register", "word"].map(|kind| [edge, "from", kind]);
        let to = kinds.map(|quotient| kinds.map(|remainder| [edge, quotient, remainder]));
        for case in from.iter().chain(to.as_flattened()) {
            assert!(met.contains(case), "{case:?}");
        }
    }
    assert!(met.contains(&[Q_ABSENT, "from", "register"]));
    for shared in SHARED {
        let of = |edge| [edge, "shared", shared];
        assert!(met.contains(&of(EDGES[0])) || met.contains(&of(EDGES[1])), "{shared}, by 0");
        assert!(EDGES[2..9].iter().any(|edge| met.contains(&of(edge))), "{shared}");
    }
}

#[test]
fn of_a_hundred_jobs_one_to_ten_divide_by_zero() {
    assert!(one_to_ten_of_a_hundred_end([8, 8]));
}

/// What damage does to a record that divides; at times it keeps the rules.
const FAULTS: [&str; 9] = [
    "none",
    "an operator",
    "label B",
    "three operands",
    "five operands",
    "a number for the quotient",
    "a number for the remainder",
    "equal registers",
    "equal words",
];

/// What is wrong with a record of opcode 12 whose block, entry and label A are
/// right, if anything is.
fn fault(record: &[u8]) -> Result<(), &'static str> {
    match (record[3], u16_at(record, 6), operands(record)?.as_slice()) {
        (1.., ..) => Err(FAULTS[1]),
        (_, 1.., _) => Err(FAULTS[2]),
        (_, _, [_, _, _]) => Err(FAULTS[3]),
        (_, _, [_, _, _, _, _]) => Err(FAULTS[4]),
        (_, _, [(1, _), _, _, _]) => Err(FAULTS[5]),
        (_, _, [_, (1, _), _, _]) => Err(FAULTS[6]),
        (_, _, [one, other, _, _]) if one == other => Err(FAULTS[if one.0 == 2 { 7 } else { 8 }]),
        (_, _, [_, _, _, _]) => Ok(()),
        _ => Err(OTHER_FAULT),
    }
}

#[test]
fn damaged_divisions_have_every_fault_and_are_refused() {
    let faults = record_faults_met(7, 12..=12, fault);
    for fault in FAULTS {
        assert!(faults.contains(&(12, fault)), "{fault}");
    }
}
