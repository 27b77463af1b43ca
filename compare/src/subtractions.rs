//! Sorts of subtractions.

use crate::codes::SUBTRACT;
use crate::sizes::OPERATOR;
use crate::sorts::Sort;
use crate::steps::Step;

pub const SUBTRACTIONS: &[Sort] = &[
    ("with p above q", |step| matches!(p_and_q(step), [Some(p), Some(q)] if p > q)),
    ("with p equal to q", |step| matches!(p_and_q(step), [Some(p), Some(q)] if p == q)),
    ("with p below q", |step| matches!(p_and_q(step), [Some(p), Some(q)] if p < q)),
    ("of q above zero from an absent register", |step| matches!(p_and_q(step), [None, Some(1..)])),
];

/// The values of a step of ASSIGN, none if it does not subtract.
fn p_and_q(step: &Step) -> [Option<u16>; 2] {
    if step.record[OPERATOR] == SUBTRACT {
        step.values([1, 2])
    } else {
        [None; 2]
    }
}
