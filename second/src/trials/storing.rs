//! Jobs about to store, and the states that they leave.

use super::bench::{arrival, at, call, exit, hold, record, send, step, Bench, IDLE, TREES};
use crate::image::Entry;
use crate::statement::{Formula, Operand, Place, Statement};

/// A job of thread 0 that is about to carry out the statement. Registers 0 and
/// 1 have these values, and so have words 0 and 1; word 2 is 770, and the
/// registers from 2 on are absent.
pub fn about_to(statement: Statement, values: [u16; 2]) -> Bench {
    let records = [record(0, Entry::External, statement), exit(0, Entry::Closed)];
    let mut bench = Bench::new(&[], &records);
    let [p, q] = values.map(u16::to_le_bytes);
    bench.state[..6].copy_from_slice(&[p[0], p[1], q[0], q[1], 2, 3]);
    bench.job(&values, 0);
    bench
}

/// The value as a number, and the register and the word at this place, which
/// have it.
pub fn kinds(value: u16, place: u8) -> [Operand; 3] {
    let (register, word) = (Place::Register(place), Place::Word(place));
    [Operand::Number(value), Operand::Kept(register), Operand::Kept(word)]
}

/// A register that is absent in `about_to`.
pub const ABSENT: Operand = Operand::Kept(Place::Register(9));

/// The formula of p, of every kind.
pub fn of_one(formula: fn(Operand) -> Formula, p: u16) -> Vec<Formula> {
    kinds(p, 0).map(formula).to_vec()
}

/// The formula of p and q, each of every kind.
pub fn of_two(formula: fn(Operand, Operand) -> Formula, [p, q]: [u16; 2]) -> Vec<Formula> {
    let pairs = kinds(p, 0).into_iter().flat_map(|p| kinds(q, 1).map(|q| (p, q)));
    pairs.map(|(p, q)| formula(p, q)).collect()
}

/// The formula with an absent register for p, for q or for both, the other of
/// every kind.
pub fn of_absent(formula: fn(Operand, Operand) -> Formula, [p, q]: [u16; 2]) -> Vec<Formula> {
    let of_p = kinds(p, 0).map(|p| formula(p, ABSENT));
    let of_q = kinds(q, 1).map(|q| formula(ABSENT, q));
    [&of_p[..], &of_q, &[formula(ABSENT, ABSENT)]].concat()
}

/// Jobs about to store the result of each formula at each of several places: those
/// of its operands and others.
fn about_to_assign(formulas: &[Formula], values: [u16; 2]) -> Vec<(Bench, Formula, Place)> {
    let registers = [0, 1, 9, 24].map(Place::Register);
    let words = [0, 1, 2].map(Place::Word);
    let mut benches = Vec::new();
    for to in registers.into_iter().chain(words) {
        for &formula in formulas {
            let assign = Statement::Assign { to, formula, on: at(1) };
            benches.push((about_to(assign, values), formula, to));
        }
    }
    benches
}

/// Each of the formulas gives the result, which alone is stored.
pub fn all_store(formulas: &[Formula], values: [u16; 2], result: u16) {
    for (mut bench, formula, to) in about_to_assign(formulas, values) {
        let expected = moved_on(&bench, &[(to, result)]);
        assert_eq!(bench.run(&[step(0)]), [[6, 0]], "{formula:?} of {values:?}");
        assert!(bench.state == expected, "{formula:?} of {values:?} to {to:?}");
    }
}

/// Each of the formulas traps with this reason, and nothing is stored.
pub fn all_trap(formulas: &[Formula], values: [u16; 2], reason: u8) {
    for (mut bench, formula, to) in about_to_assign(formulas, values) {
        let expected = ended(&bench);
        assert_eq!(bench.run(&[step(0)]), [[8, reason]], "{formula:?} of {values:?}");
        assert!(bench.state == expected, "{formula:?} of {values:?} to {to:?}");
    }
}

/// The state after the job of thread 0 has moved on to label 1 with these values
/// at their destinations.
pub fn moved_on(bench: &Bench, stored: &[(Place, u16)]) -> Vec<u8> {
    let mut state = bench.state.clone();
    state[512] = 1;
    for &(to, value) in stored {
        let place = match to {
            Place::Register(register) => {
                state[512 + 21 + usize::from(register / 8)] |= 1 << (register % 8);
                512 + 25 + 2 * usize::from(register)
            }
            Place::Word(word) => 2 * usize::from(word),
        };
        state[place..][..2].copy_from_slice(&value.to_le_bytes());
    }
    state
}

/// The state after the job of thread 0, whose tree is the only one and empty,
/// has ended.
pub fn ended(bench: &Bench) -> Vec<u8> {
    let mut state = bench.state.clone();
    state[512..][..288].copy_from_slice(&IDLE);
    state[TREES] = 0;
    state
}

/// Label 2, in block 1, carries out the statement, which goes on to label 3. A
/// job of block 0 calls it; one of block 2 calls it, holds a signal, sends one
/// and calls it again. Each block is CMX and on the thread of its number.
pub fn called(statement: Statement) -> Bench {
    let records = [
        record(0, Entry::External, call(2, 1)),
        exit(0, Entry::Closed),
        record(1, Entry::Direct, statement),
        record(1, Entry::Closed, Statement::Return { data: Vec::new() }),
        record(2, Entry::External, call(2, 5)),
        record(2, Entry::Closed, hold(7, Vec::new(), 6)),
        record(2, Entry::Closed, send(7, 4)),
        exit(2, Entry::Buffered),
    ];
    Bench::new(&[[0, 1], [1, 1], [2, 1]], &records)
}

/// The job of block 2 traps with this reason at its second call and ends as by
/// every trap, while the job of block 0 waits for it, to trap then as well.
pub fn the_second_call_traps(bench: &mut Bench, reason: u8) {
    let mut events = vec![arrival(0, &[]), arrival(4, &[])];
    events.extend([0, 2, 2, 2, 2, 2, 2, 2, 0, 2, 0].map(step));
    let answers = bench.run_both_orders(&events);
    assert_eq!(answers[4..10], [[6, 0]; 6]);
    assert_eq!(answers[10..], [[4, 1], [8, reason], [6, 0]]);
    assert_eq!(bench.thread(2), IDLE);
    // The tree of the job that runs, and that of the signal sent.
    assert_eq!(bench.state[TREES..][..3], [2, 0, 0]);
    assert_eq!(bench.state[TREES + 1 + 426..][..5], [2, 1, 7, 0, 0]);
    assert_eq!(bench.run(&[step(0)]), [[8, reason]]);
}
