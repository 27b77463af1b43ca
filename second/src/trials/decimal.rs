//! The trials of packed decimals.

use super::bench::at;
use super::storing::{
    all_store, all_trap, called, of_absent, of_one, of_two, the_second_call_traps, ABSENT,
};
use crate::statement::{Formula, Operand, Place, Statement};

/// 0 and 9,999, packed, with this digit at each place in turn.
fn with_digit(digit: u16) -> Vec<u16> {
    let places = [0, 4, 8, 12];
    let replaced = |packed: u16| places.map(|place| packed & !(15 << place) | digit << place);
    [replaced(0), replaced(0x9999)].concat()
}

#[test]
fn four_digits_are_packed_and_unpacked_the_highest_first() {
    let few = [(0, 0), (1, 1), (9, 9), (10, 0x10), (15, 0x15), (99, 0x99), (100, 0x100)];
    let four = [(1_000, 0x1000), (1_234, 0x1234), (8_090, 0x8090), (9_999, 0x9999)];
    for (number, packed) in few.into_iter().chain(four) {
        all_store(&of_one(Formula::Pack, number), [number, 7], packed);
        all_store(&of_one(Formula::Unpack, packed), [packed, 7], number);
    }
}

#[test]
fn above_9999_packing_traps_and_stores_nothing() {
    for number in [10_000, 10_001, 0x9999, 0xa000, 65_535] {
        all_trap(&of_one(Formula::Pack, number), [number, 7], 9);
    }
}

#[test]
fn at_a_digit_above_9_unpacking_traps_and_stores_nothing() {
    for faulty in (10..=15).flat_map(with_digit).chain([0xffff]) {
        all_trap(&of_one(Formula::Unpack, faulty), [faulty, 7], 9);
    }
}

#[test]
fn sums_carry_from_digit_to_digit_and_are_modulo_10000() {
    let without_carry = [(0, 0, 0), (0x1234, 0x4321, 0x5555), (0x9090, 0x909, 0x9999)];
    let with_carry = [
        (5, 5, 0x10),
        (0x50, 0x50, 0x100),
        (0x500, 0x500, 0x1000),
        (0x5000, 0x5000, 0),
        (0x99, 1, 0x100),
        (1, 0x999, 0x1000),
        (0x9999, 1, 0),
        (0x4567, 0x5678, 0x0245),
        (0x9999, 0x9999, 0x9998),
    ];
    for (p, q, sum) in without_carry.into_iter().chain(with_carry) {
        all_store(&of_two(Formula::AddPacked, [p, q]), [p, q], sum);
    }
}

#[test]
fn at_a_digit_above_9_of_either_operand_adding_traps_and_stores_nothing() {
    for faulty in [10, 15].into_iter().flat_map(with_digit) {
        for values in [[faulty, 0x9999], [0, faulty], [faulty, faulty]] {
            all_trap(&of_two(Formula::AddPacked, values), values, 9);
        }
    }
}

#[test]
fn an_absent_register_is_tested_before_the_digits() {
    let values = [0xffff, 0xa000];
    all_trap(&[Formula::Pack(ABSENT), Formula::Unpack(ABSENT)], values, 1);
    all_trap(&of_absent(Formula::AddPacked, values), values, 1);
}

#[test]
fn a_job_that_meets_no_decimal_ends_as_by_every_trap() {
    let to = Place::Word(16);
    let word = Operand::Kept(to);
    // 9,999 packed is above 9,999, and 1,018 has a digit above 9.
    let twice =
        [(Formula::Pack(word), 9_999_u16, 0x9999_u16), (Formula::Unpack(word), 0x1018, 1_018)];
    for (formula, before, after) in twice {
        let mut bench = called(Statement::Assign { to, formula, on: at(3) });
        bench.state[2 * 16..][..2].copy_from_slice(&before.to_le_bytes());
        the_second_call_traps(&mut bench, 9);
        assert_eq!(bench.state[2 * 16..][..2], after.to_le_bytes());
    }
}
