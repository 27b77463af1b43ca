//! The trials of what a record of opcode 12 must be.

use super::record_form::{self, REFUSED};

/// Divides 7 by word 5, to register 3 and word 3.
const DIVISION: [u8; 21] = [12, 1, 3, 0, 1, 0, 0, 0, 4, 2, 3, 0, 3, 3, 0, 1, 7, 0, 3, 5, 0];

fn code(set: &[(usize, u8)]) -> u32 {
    record_form::code(&DIVISION, set)
}

/// What check returns if these are kind and number of the destinations.
fn destinations_code(quotient: [u8; 2], remainder: [u8; 2]) -> u32 {
    code(&[(9, quotient[0]), (10, quotient[1]), (12, remainder[0]), (13, remainder[1])])
}

#[test]
fn equal_destinations_are_refused() {
    let registers = (0..25).map(|number| [2, number]);
    let places: Vec<[u8; 2]> = registers.chain((0..16).map(|number| [3, number])).collect();
    for &quotient in &places {
        for &remainder in &places {
            let expected = if quotient == remainder { REFUSED } else { 0 };
            let code = destinations_code(quotient, remainder);
            assert_eq!(code, expected, "{quotient:?} and {remainder:?}");
        }
    }
}

#[test]
fn a_destination_is_no_number() {
    for place in [[2, 3], [3, 3], [1, 3], [1, 4]] {
        assert_eq!(destinations_code([1, 3], place), REFUSED);
        assert_eq!(destinations_code(place, [1, 3]), REFUSED);
    }
}

#[test]
fn a_destination_may_be_an_operand_and_the_operands_may_be_equal() {
    let (register, word) = ([2, 3], [3, 3]);
    for p in [register, word, [1, 0]] {
        for q in [register, word, [1, 0]] {
            assert_eq!(code(&[(15, p[0]), (16, p[1]), (18, q[0]), (19, q[1])]), 0);
        }
    }
}

#[test]
fn operands_are_numbers_registers_and_words() {
    record_form::operands_are_numbers_registers_and_words(&DIVISION);
    assert_eq!(code(&[(16, 255), (17, 255), (18, 1), (19, 255), (20, 255)]), 0);
}

#[test]
fn there_are_four_operands() {
    record_form::there_are_so_many_operands(&DIVISION);
}

#[test]
fn label_a_is_in_the_block_and_operator_and_label_b_are_zero() {
    record_form::label_a_is_in_the_block_and_operator_and_label_b_are_zero(&DIVISION);
}

#[test]
fn the_first_faulty_label_is_given() {
    // Label 1 is no opcode.
    assert_eq!(code(&[(84, 16)]), REFUSED + 1);
    assert_eq!(code(&[(84, 16), (12, 2)]), REFUSED);
}
