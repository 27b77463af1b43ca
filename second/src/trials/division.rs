//! The trials of division, which keeps what is left.

use super::bench::{at, step, Bench};
use super::storing::{about_to, called, ended, kinds, moved_on, the_second_call_traps, ABSENT};
use crate::statement::{Division, Operand, Place, Statement};

fn divide([quotient, remainder]: [Place; 2], p: Operand, q: Operand, on: u16) -> Statement {
    let division = Division { quotient, remainder, p, q };
    Statement::Divide { division, on: at(on) }
}

/// Every two different places of these for the quotient and the remainder.
fn destinations(places: &[Place]) -> Vec<[Place; 2]> {
    let pairs = places.iter().flat_map(|&first| places.iter().map(move |&other| [first, other]));
    pairs.filter(|[quotient, remainder]| quotient != remainder).collect()
}

/// Jobs about to divide, each with its destinations: p and q are numbers, in
/// registers or in words, and the results go to those or elsewhere.
fn divisions(p: u16, q: u16) -> Vec<(Bench, [Place; 2])> {
    let (register, word) = (Place::Register, Place::Word);
    let places = [register(0), register(1), register(24), word(0), word(1), word(2)];
    let mut benches = Vec::new();
    for to in destinations(&places) {
        for of_p in kinds(p, 0) {
            for of_q in kinds(q, 1) {
                benches.push((about_to(divide(to, of_p, of_q, 1), [p, q]), to));
            }
        }
    }
    benches
}

#[test]
fn the_quotient_and_the_remainder_are_stored_together() {
    let small = [(0, 1, 0, 0), (7, 1, 7, 0), (7, 2, 3, 1), (7, 7, 1, 0), (6, 7, 0, 6)];
    let large = [
        (1_000, 300, 3, 100),
        (32_767, 32_768, 0, 32_767),
        (65_535, 1, 65_535, 0),
        (65_535, 256, 255, 255),
        (65_535, 65_535, 1, 0),
    ];
    for (p, q, quotient, remainder) in small.into_iter().chain(large) {
        for (mut bench, to) in divisions(p, q) {
            let expected = moved_on(&bench, &[(to[0], quotient), (to[1], remainder)]);
            assert_eq!(bench.run(&[step(0)]), [[6, 0]]);
            assert!(bench.state == expected, "{p} by {q} to {to:?}");
        }
    }
}

#[test]
fn a_division_by_zero_traps_and_stores_neither() {
    for p in [0, 1, 300, 65_535] {
        for (mut bench, to) in divisions(p, 0) {
            let expected = ended(&bench);
            assert_eq!(bench.run(&[step(0)]), [[8, 8]]);
            assert!(bench.state == expected, "{p} by 0 to {to:?}");
        }
    }
}

#[test]
fn an_absent_register_is_tested_before_a_division_by_zero() {
    let mut operands = vec![(ABSENT, ABSENT)];
    operands.extend(kinds(7, 0).map(|p| (p, ABSENT)));
    operands.extend(kinds(0, 1).map(|q| (ABSENT, q)));
    let places = [Place::Register(9), Place::Register(0), Place::Word(1), Place::Word(2)];
    for to in destinations(&places) {
        for &(p, q) in &operands {
            let mut bench = about_to(divide(to, p, q, 1), [7, 0]);
            let expected = ended(&bench);
            assert_eq!(bench.run(&[step(0)]), [[8, 1]]);
            assert!(bench.state == expected, "{p:?} by {q:?} to {to:?}");
        }
    }
}

#[test]
fn what_is_left_may_be_the_next_divisor() {
    let [p, q] = [0, 1].map(Place::Word);
    let mut bench = about_to(divide([p, q], Operand::Kept(p), Operand::Kept(q), 0), [1_000, 300]);
    // 1,000 by 300, 3 by 100, 0 by 3, 0 by 0.
    for [quotient, remainder] in [[3, 100], [0, 3], [0, 0]] {
        assert_eq!(bench.run(&[step(0)]), [[6, 0]]);
        assert_eq!(bench.state[..4], [quotient, 0, remainder, 0]);
    }
    assert_eq!(bench.run(&[step(0)]), [[8, 8]]);
}

#[test]
fn a_job_that_divides_by_zero_ends_as_by_every_trap() {
    let to = [16, 17].map(Place::Word);
    let [p, q] = to.map(Operand::Kept);
    let mut bench = called(divide(to, p, q, 3));
    // 7 by 1 leaves 0, the next divisor.
    (bench.state[2 * 16], bench.state[2 * 17]) = (7, 1);
    the_second_call_traps(&mut bench, 8);
    assert_eq!(bench.state[2 * 16..][..4], [7, 0, 0, 0]);
}
