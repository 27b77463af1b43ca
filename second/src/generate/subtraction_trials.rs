//! Trials that generated machines meet every case of subtraction.

use super::trials::{each_event, kind, one_to_ten_of_a_hundred_end, stepped, value};
use crate::events::Event;
use crate::image::Program;
use crate::sorts::Thread;
use crate::state::State;
use crate::statement::{Formula, Operand, Statement};
use crate::step::carry_out;
use std::collections::BTreeSet;

/// A subtraction that the next step of a thread carries out. An operand that is
/// an absent register has no value.
struct Subtraction {
    thread: Thread,
    to: Operand,
    from: Operand,
    p: Option<u16>,
    q: Option<u16>,
}

impl Subtraction {
    fn next(program: &Program, state: &State, event: &Event) -> Option<Subtraction> {
        let (thread, statement) = stepped(program, state, event)?;
        match *statement {
            Statement::Assign { to, formula: Formula::Subtract(p, q), .. } => Some(Subtraction {
                thread,
                to: Operand::Kept(to),
                from: q,
                p: value(state, thread, p),
                q: value(state, thread, q),
            }),
            _ => None,
        }
    }

    /// The answer, and what the destination has if the job moves on.
    fn outcome(&self) -> ([u8; 2], Option<u16>) {
        match (self.p, self.q) {
            (Some(p), Some(q)) if q > p => ([8, 7], None),
            (Some(p), Some(q)) => ([6, 0], Some(p - q)),
            _ => ([8, 1], None),
        }
    }

    /// How the operands stand to each other, with where q is from and with
    /// where the difference goes.
    fn cases(&self) -> [[&'static str; 3]; 2] {
        let edge = edge(self.p, self.q);
        [[edge, "from", kind(self.from)], [edge, "to", kind(self.to)]]
    }
}

/// How operands stand to each other. The bytes of an absent register are zero:
/// a q above 0 is above them.
const EDGES: [&str; 8] = [
    "0 - 0",
    "0 - 1",
    "q equal to p",
    "q one above p",
    "q one below p",
    "q far above p",
    "q far below p",
    "p absent and q above 0",
];

fn edge(p: Option<u16>, q: Option<u16>) -> &'static str {
    match (p, q) {
        (Some(0), Some(0)) => EDGES[0],
        (Some(0), Some(1)) => EDGES[1],
        (Some(p), Some(q)) if q == p => EDGES[2],
        (Some(p), Some(q)) if q > p => EDGES[if q - p == 1 { 3 } else { 5 }],
        (Some(p), Some(q)) => EDGES[if p - q == 1 { 4 } else { 6 }],
        (None, Some(1..)) => EDGES[7],
        _ => "a register absent and q not above 0",
    }
}

#[test]
fn subtractions_meet_every_edge_and_keep_their_rules() {
    let mut met = BTreeSet::new();
    each_event(0..1_000, |program, state, event| {
        let subtraction = Subtraction::next(program, state, event);
        let words = state.words.clone();
        let answer = carry_out(program, state, event).encode();
        if let Some(subtraction) = subtraction {
            let stored = value(state, subtraction.thread, subtraction.to);
            assert_eq!((answer, stored), subtraction.outcome());
            assert!(stored.is_some() || state.words == words);
            met.extend(subtraction.cases());
        }
    });
    for edge in EDGES {
        let from = ["number", "register", "word"].map(|kind| [edge, "from", kind]);
        let to = ["register", "word"].map(|kind| [edge, "to", kind]);
        for case in from.iter().chain(&to) {
            assert!(met.contains(case), "{case:?}");
        }
    }
}

#[test]
fn of_a_hundred_jobs_one_to_ten_go_below_zero() {
    assert!(one_to_ten_of_a_hundred_end([8, 7]));
}
