//! Trials that generated machines meet every case of packed decimals.

use super::record_trials::{operands, record_faults_met, OTHER_FAULT, REGISTER_BEYOND};
use super::trials::{each_event, kind, one_to_ten_of_a_hundred_end, stepped, u16_at, value};
use crate::events::Event;
use crate::image::Program;
use crate::sorts::Thread;
use crate::state::State;
use crate::statement::{Formula, Operand, Place, Statement};
use crate::step::carry_out;
use crate::trials::decimal_text::{packed, sum, unpacked};
use std::collections::BTreeSet;

/// Opcode 13, 14 or 15 that the next step of a thread carries out.
struct Decimal {
    thread: Thread,
    to: Place,
    formula: Formula,
    /// One for each operand; an absent register has none.
    values: Vec<Option<u16>>,
}

/// An edge, with p, q or the destination and what that is.
type Case = (String, &'static str, &'static str);

impl Decimal {
    fn next(program: &Program, state: &State, event: &Event) -> Option<Decimal> {
        let (thread, Statement::Assign { to, formula, .. }) = stepped(program, state, event)?
        else {
            return None;
        };
        let operands = formula.operands().into_iter();
        let values = operands.map(|operand| value(state, thread, operand)).collect();
        let decimal = Decimal { thread, to: *to, formula: *formula, values };
        matches!(formula, Formula::Pack(_) | Formula::Unpack(_) | Formula::AddPacked(..))
            .then_some(decimal)
    }

    /// The answer, and what the destination has if the job moves on.
    fn outcome(&self) -> ([u8; 2], Option<u16>) {
        let result = match (self.formula, self.values.as_slice()) {
            (Formula::Pack(_), &[Some(p)]) => packed(p),
            (Formula::Unpack(_), &[Some(p)]) => unpacked(p),
            (_, &[Some(p), Some(q)]) => sum(p, q),
            _ => return ([8, 1], None),
        };
        (if result.is_some() { [6, 0] } else { [8, 9] }, result)
    }

    /// The edges the values are at.
    fn edges(&self) -> Vec<String> {
        match (self.formula, self.values.as_slice()) {
            (Formula::Pack(_), &[Some(p)]) => vec![format!("pack {p}")],
            (Formula::Unpack(_), &[Some(p)]) => written("unpack", p),
            (_, &[Some(p), Some(q)]) => match (unpacked(p), unpacked(q)) {
                (Some(p), Some(q)) => carries(p, q),
                (None, Some(_)) => written("p alone", p),
                (Some(_), None) => written("q alone", q),
                (None, None) => vec!["neither packed".to_string()],
            },
            (_, &[None, Some(q)]) => vec![format!("p absent, q packed {}", unpacked(q).is_some())],
            (_, &[Some(p), None]) => vec![format!("q absent, p packed {}", unpacked(p).is_some())],
            _ => vec!["all absent".to_string()],
        }
    }

    /// Which operands are at the destination, with the answer.
    fn shared(&self) -> String {
        let at_destination = |operand| matches!(operand, Operand::Kept(place) if place == self.to);
        let shared: Vec<bool> = self.formula.operands().into_iter().map(at_destination).collect();
        format!("{shared:?} gives {:?}", self.outcome().0)
    }

    /// Each edge with the kinds of the operands and of the destination.
    fn cases(&self) -> Vec<Case> {
        let operands = ["p", "q"].into_iter().zip(self.formula.operands());
        let parts: Vec<_> = operands.chain([("to", Operand::Kept(self.to))]).collect();
        let mut cases = Vec::new();
        for edge in self.edges() {
            cases.extend(parts.iter().map(|&(part, operand)| (edge.clone(), part, kind(operand))));
        }
        cases
    }
}

/// A packed number as text; or the place of its only digit above 9, 0 the highest,
/// without and with that digit.
fn written(edge: &str, value: u16) -> Vec<String> {
    let text = format!("{value:04x}");
    let above_9: Vec<_> = text.char_indices().filter(|(_, digit)| digit.is_alphabetic()).collect();
    match above_9[..] {
        [] => vec![format!("{edge} {text}")],
        [(place, digit)] => {
            vec![format!("{edge} above 9 at {place}"), format!("{edge} {digit} at {place}")]
        }
        _ => vec![format!("{edge} more above 9")],
    }
}

/// The columns that carry, the lowest first, together and each by itself, and
/// those that do so only by the carry they get.
fn carries(p: u16, q: u16) -> Vec<String> {
    let (mut edges, mut carries, mut carry) = (Vec::new(), Vec::new(), 0);
    for (column, unit) in [1, 10, 100, 1_000].into_iter().enumerate() {
        let digits = p / unit % 10 + q / unit % 10;
        if carry + digits > 9 {
            edges.push(format!("carry from {column}"));
        }
        if (carry, digits) == (1, 9) {
            edges.push(format!("carry through {column}"));
        }
        carry = (carry + digits) / 10;
        carries.push(carry);
    }
    edges.push(format!("carries {carries:?}"));
    edges
}

/// The edges to be met with every kind of some operands, each with those.
fn edges_of_every_kind() -> Vec<(String, &'static [&'static str])> {
    let [p, q, both]: [&[&str]; 3] = [&["p"], &["q"], &["p", "q"]];
    let whole = ["pack 0", "pack 9999", "pack 10000", "unpack 0000", "unpack 9999"];
    let mut edges: Vec<_> = whole.map(|edge| (edge.to_string(), p)).into();
    for place in 0..4 {
        edges.push((format!("unpack above 9 at {place}"), p));
        edges.push((format!("p alone above 9 at {place}"), p));
        edges.push((format!("q alone above 9 at {place}"), q));
        edges.push((format!("carry from {place}"), both));
    }
    for place in 1..4 {
        edges.push((format!("carry through {place}"), both));
    }
    for packed in [false, true] {
        edges.push((format!("p absent, q packed {packed}"), q));
        edges.push((format!("q absent, p packed {packed}"), p));
    }
    edges
}

/// The edges to be met with a number, each with the operand that is one.
fn edges_of_numbers() -> Vec<(String, &'static str)> {
    let numbers = [9, 10, 99, 100, 999, 1_000, 10_001].map(|number| format!("pack {number}"));
    let mut edges: Vec<_> = numbers.map(|edge| (edge, "p")).into();
    for place in 0..4 {
        for digit in ["a", "f"] {
            edges.push((format!("unpack {digit} at {place}"), "p"));
            edges.push((format!("p alone {digit} at {place}"), "p"));
            edges.push((format!("q alone {digit} at {place}"), "q"));
        }
    }
    for columns in 0..16 {
        let carries = [0, 1, 2, 3].map(|column| columns >> column & 1);
        edges.push((format!("carries {carries:?}"), "p"));
    }
    edges.push(("neither packed".to_string(), "p"));
    edges
}

#[test]
fn packed_decimals_meet_every_edge_and_keep_their_rules() {
    let (mut met, mut shared) = (BTreeSet::new(), BTreeSet::new());
    each_event(0..3_000, |program, state, event| {
        let decimal = Decimal::next(program, state, event);
        let words = state.words.clone();
        let answer = carry_out(program, state, event).encode();
        if let Some(decimal) = decimal {
            let stored = value(state, decimal.thread, Operand::Kept(decimal.to));
            assert_eq!((answer, stored), decimal.outcome());
            assert!(stored.is_some() || state.words == words);
            met.extend(decimal.cases());
            shared.insert(decimal.shared());
        }
    });
    let mut wanted: Vec<Case> = Vec::new();
    for (edge, operands) in edges_of_every_kind() {
        let kinds = ["number", "register", "word"];
        let from = operands.iter().flat_map(|part| kinds.map(|kind| (edge.clone(), *part, kind)));
        let to = ["register", "word"].map(|kind| (edge.clone(), "to", kind));
        wanted.extend(from.chain(to));
    }
    wanted.extend(edges_of_numbers().into_iter().map(|(edge, part)| (edge, part, "number")));
    for case in wanted {
        assert!(met.contains(&case), "{case:?}");
    }
    for places in ["[true]", "[true, false]", "[false, true]", "[true, true]"] {
        for answer in ["[6, 0]", "[8, 9]"] {
            let case = format!("{places} gives {answer}");
            assert!(shared.contains(&case), "{case}");
        }
    }
}

#[test]
fn of_a_hundred_jobs_one_to_ten_meet_what_is_not_decimal() {
    assert!(one_to_ten_of_a_hundred_end([8, 9]));
}

/// What damage does to a record of opcode 13, 14 or 15; at times it keeps the
/// rules.
const FAULTS: [&str; 7] = [
    "none",
    "an operator",
    "label B",
    "an operand fewer",
    "an operand more",
    "a number for the destination",
    REGISTER_BEYOND,
];

/// What is wrong with a record of opcode 13, 14 or 15 whose block, entry and label
/// A are right, if anything is.
fn fault(record: &[u8]) -> Result<(), &'static str> {
    let operands = operands(record)?;
    let needed = if record[0] == 15 { 3 } else { 2 };
    match (record[3], u16_at(record, 6), operands.first()) {
        (1.., ..) => Err(FAULTS[1]),
        (_, 1.., _) => Err(FAULTS[2]),
        _ if operands.len() + 1 == needed => Err(FAULTS[3]),
        _ if operands.len() == needed + 1 => Err(FAULTS[4]),
        _ if operands.len() != needed => Err(OTHER_FAULT),
        (_, _, Some((1, _))) => Err(FAULTS[5]),
        _ => Ok(()),
    }
}

#[test]
fn damaged_decimals_have_every_fault_and_are_refused() {
    let faults = record_faults_met(8, 13..=15, fault);
    for opcode in 13..=15 {
        for fault in FAULTS {
            assert!(faults.contains(&(opcode, fault)), "{opcode}, {fault}");
        }
    }
}
