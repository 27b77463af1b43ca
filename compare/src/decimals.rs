//! Sorts of packings, unpackings and decimal sums. A number is packed if none of
//! its digits, of four bits each, is above 9.

use crate::codes::{DECIMAL_ADD, NUMBER, PACK, REGISTER, WORD};
use crate::sorts::Sort;
use crate::steps::Step;
use std::collections::BTreeSet;

/// The operands of a record; only a decimal sum has q.
const DESTINATION: usize = 0;
const P: usize = 1;
const Q: usize = 2;

/// The places of digits.
const ONES: usize = 0;
const TENS: usize = 1;
const HUNDREDS: usize = 2;
const THOUSANDS: usize = 3;

pub const PACKINGS: &[Sort] = &[
    ("of 0", |step| step.value(P) == Some(0)),
    ("of four different digits", |step| stores(step) && has_different_digits(step, 10)),
    ("of 9,999", |step| step.value(P) == Some(9_999)),
    ("of 10,000", |step| step.value(P) == Some(10_000)),
    ("of a number above 10,000", |step| step.value(P) > Some(10_000)),
    ("of an absent register", |step| step.value(P).is_none()),
];

pub const UNPACKINGS: &[Sort] = &[
    ("of 0000", |step| step.value(P) == Some(0)),
    ("of four different digits", |step| stores(step) && has_different_digits(step, 16)),
    ("of 9999", |step| step.value(P) == Some(0x9999)),
    ("with 10 ones", |step| has_ten(step, P, ONES)),
    ("with 10 tens", |step| has_ten(step, P, TENS)),
    ("with 10 hundreds", |step| has_ten(step, P, HUNDREDS)),
    ("with 10 thousands", |step| has_ten(step, P, THOUSANDS)),
    ("with two digits above 9", |step| digits_above_9(step, P) == Some(2)),
    ("of an absent register", |step| step.value(P).is_none()),
];

pub const DECIMAL_SUMS: &[Sort] = &[
    ("without a carry", |step| carries(step) == Some([false; 4])),
    ("with a carry from the ones alone", |step| carries_alone(step, ONES)),
    ("with a carry from the tens alone", |step| carries_alone(step, TENS)),
    ("with a carry from the hundreds alone", |step| carries_alone(step, HUNDREDS)),
    ("with a carry from the thousands alone", |step| carries_alone(step, THOUSANDS)),
    ("with a carry through the tens", |step| carries_through(step, TENS)),
    ("with a carry through the hundreds", |step| carries_through(step, HUNDREDS)),
    ("with a carry through the thousands", |step| carries_through(step, THOUSANDS)),
    ("that is 9,999", |step| sum(step) == Some(9_999)),
    ("that is 10,000", |step| sum(step) == Some(10_000)),
    ("with 10 ones in p alone", |step| has_ten(step, P, ONES) && is_packed(step, Q)),
    ("with 10 tens in p alone", |step| has_ten(step, P, TENS) && is_packed(step, Q)),
    ("with 10 hundreds in p alone", |step| has_ten(step, P, HUNDREDS) && is_packed(step, Q)),
    ("with 10 thousands in p alone", |step| has_ten(step, P, THOUSANDS) && is_packed(step, Q)),
    ("with 10 ones in q alone", |step| has_ten(step, Q, ONES) && is_packed(step, P)),
    ("with 10 tens in q alone", |step| has_ten(step, Q, TENS) && is_packed(step, P)),
    ("with 10 hundreds in q alone", |step| has_ten(step, Q, HUNDREDS) && is_packed(step, P)),
    ("with 10 thousands in q alone", |step| has_ten(step, Q, THOUSANDS) && is_packed(step, P)),
    ("with digits above 9 in p and in q", |step| is_not_packed(step, P) && is_not_packed(step, Q)),
    ("of an absent p and a packed q", |step| step.value(P).is_none() && is_packed(step, Q)),
    ("of an absent p and a q not packed", |step| step.value(P).is_none() && is_not_packed(step, Q)),
    ("of a packed p and an absent q", |step| is_packed(step, P) && step.value(Q).is_none()),
    ("of a p not packed and an absent q", |step| is_not_packed(step, P) && step.value(Q).is_none()),
    ("with a number as q", |step| stores(step) && step.kind(Q) == NUMBER),
    ("with a register as q", |step| stores(step) && step.kind(Q) == REGISTER),
    ("with a word as q", |step| stores(step) && step.kind(Q) == WORD),
    ("over q alone", |step| stores(step) && is_over(step, Q) && !is_over(step, P)),
    ("over p and q", |step| stores(step) && is_over(step, P) && is_over(step, Q)),
];

/// Those of all three.
pub const DECIMALS: &[Sort] = &[
    ("with a number as p", |step| stores(step) && step.kind(P) == NUMBER),
    ("with a register as p", |step| stores(step) && step.kind(P) == REGISTER),
    ("with a word as p", |step| stores(step) && step.kind(P) == WORD),
    ("to a register that is present", |step| {
        stores(step) && step.kind(DESTINATION) == REGISTER && step.value(DESTINATION).is_some()
    }),
    ("to a register that is absent", |step| stores(step) && step.value(DESTINATION).is_none()),
    ("to a word", |step| stores(step) && step.kind(DESTINATION) == WORD),
    ("over p alone", |step| stores(step) && is_over(step, P) && !is_over(step, Q)),
    ("that traps before it stores to a word", |step| {
        reads_decimals(step) == Some(false) && step.kind(DESTINATION) == WORD
    }),
];

fn stores(step: &Step) -> bool {
    reads_decimals(step) == Some(true)
}

/// Whether what a step reads can be packed, if it packs, or else is packed; none
/// if a register of it is absent.
fn reads_decimals(step: &Step) -> Option<bool> {
    match step.record[0] {
        PACK => step.value(P).map(|p| p <= 9_999),
        DECIMAL_ADD => Some(digits_above_9(step, P)? + digits_above_9(step, Q)? == 0),
        _ => digits_above_9(step, P).map(|count| count == 0),
    }
}

/// Whether an operand is the destination. A q that the record does not have is
/// zero, and no place.
fn is_over(step: &Step, index: usize) -> bool {
    step.are_same(&[(DESTINATION, index)])
}

fn is_packed(step: &Step, index: usize) -> bool {
    digits_above_9(step, index) == Some(0)
}

fn is_not_packed(step: &Step, index: usize) -> bool {
    digits_above_9(step, index) > Some(0)
}

/// How many of an operand's digits are above 9, none for an absent register.
fn digits_above_9(step: &Step, index: usize) -> Option<usize> {
    let value = step.value(index)?;
    Some(digits(value, 16).into_iter().filter(|&digit| digit > 9).count())
}

/// Whether an operand has 10 at this place, and no other digit above 9.
fn has_ten(step: &Step, index: usize, place: usize) -> bool {
    let is_ten = step.value(index).is_some_and(|value| digits(value, 16)[place] == 10);
    is_ten && digits_above_9(step, index) == Some(1)
}

/// Whether p has four different digits to this base.
fn has_different_digits(step: &Step, base: u16) -> bool {
    let different = |p| BTreeSet::from(digits(p, base)).len() == 4;
    step.value(P).is_some_and(different)
}

/// Whether each place carries, the ones first, in a sum that is stored.
fn carries(step: &Step) -> Option<[bool; 4]> {
    let [p, q] = added(step)?;
    Some([10, 100, 1_000, 10_000].map(|unit| p % unit + q % unit >= unit))
}

fn carries_alone(step: &Step, place: usize) -> bool {
    let mut alone = [false; 4];
    alone[place] = true;
    carries(step) == Some(alone)
}

/// Whether a place whose digits make 9 carries, for the carry to it.
fn carries_through(step: &Step, place: usize) -> bool {
    let nine = |[p, q]: [u16; 2]| digits(p, 10)[place] + digits(q, 10)[place] == 9;
    added(step).is_some_and(nine) && carries(step).is_some_and(|carries| carries[place])
}

/// What is stored modulo 10,000.
fn sum(step: &Step) -> Option<u16> {
    added(step).map(|[p, q]| p + q)
}

/// p and q, unpacked, of a sum that is stored.
fn added(step: &Step) -> Option<[u16; 2]> {
    let unpacked =
        |packed| digits(packed, 16).into_iter().rfold(0, |number, digit| 10 * number + digit);
    match step.values([P, Q]) {
        [Some(p), Some(q)] if stores(step) => Some([p, q].map(unpacked)),
        _ => None,
    }
}

/// The lowest four digits of a number to a base, the ones first.
fn digits(number: u16, base: u16) -> [u16; 4] {
    [0, 1, 2, 3].map(|place| number / base.pow(place) % base)
}
