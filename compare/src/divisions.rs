//! Sorts of divisions: how p and q are, and of one that stores where to.

use crate::codes::{REGISTER, WORD};
use crate::sorts::Sort;
use crate::steps::Step;

/// The operands of a record that divides.
const QUOTIENT: usize = 0;
const REMAINDER: usize = 1;
const P: usize = 2;
const Q: usize = 3;

pub const DIVISIONS: &[Sort] = &[
    ("with p a multiple above q", |step| divides(step, |p, q| p > q && p % q == 0)),
    ("with p above q and no multiple", |step| divides(step, |p, q| p > q && p % q > 0)),
    ("with p equal to q", |step| divides(step, |p, q| p == q)),
    ("with p below q", |step| divides(step, |p, q| p < q)),
    ("by zero", |step| matches!(step.values([P, Q]), [Some(_), Some(0)])),
    ("of an absent register", |step| matches!(step.values([P, Q]), [None, Some(1..)])),
    ("of an absent register by zero", |step| matches!(step.values([P, Q]), [None, Some(0)])),
    ("by an absent register", |step| matches!(step.values([P, Q]), [Some(_), None])),
    ("to two registers", |step| stores_to(step, [REGISTER, REGISTER])),
    ("to a register and a word", |step| stores_to(step, [REGISTER, WORD])),
    ("to a word and a register", |step| stores_to(step, [WORD, REGISTER])),
    ("to two words", |step| stores_to(step, [WORD, WORD])),
    ("to a register and the word of its number", |step| {
        stores(step) && step.operand(QUOTIENT)[1..] == step.operand(REMAINDER)[1..]
    }),
    ("with the quotient over p", |step| stores_over(step, &[(QUOTIENT, P)])),
    ("with the quotient over q", |step| stores_over(step, &[(QUOTIENT, Q)])),
    ("with the remainder over p", |step| stores_over(step, &[(REMAINDER, P)])),
    ("with the remainder over q", |step| stores_over(step, &[(REMAINDER, Q)])),
    ("with the quotient over p and the remainder over q", |step| {
        stores_over(step, &[(QUOTIENT, P), (REMAINDER, Q)])
    }),
    ("with the quotient over q and the remainder over p", |step| {
        stores_over(step, &[(QUOTIENT, Q), (REMAINDER, P)])
    }),
];

/// Whether p and q, which is above zero, are so.
fn divides(step: &Step, are_so: fn(u16, u16) -> bool) -> bool {
    matches!(step.values([P, Q]), [Some(p), Some(q @ 1..)] if are_so(p, q))
}

fn stores(step: &Step) -> bool {
    divides(step, |_, _| true)
}

fn stores_to(step: &Step, kinds: [u8; 2]) -> bool {
    stores(step) && [QUOTIENT, REMAINDER].map(|index| step.kind(index)) == kinds
}

/// Whether each of these destinations is the source beside it.
fn stores_over(step: &Step, pairs: &[(usize, usize)]) -> bool {
    stores(step) && step.are_same(pairs)
}
