//! The trials of what a record of opcode 13, 14 or 15 must be.

use super::record_form::{self, code, REFUSED};

/// Word 5 is packed, to register 3.
const PACK: [u8; 15] = [13, 1, 3, 0, 1, 0, 0, 0, 2, 2, 3, 0, 3, 5, 0];
/// Word 5 is unpacked, to register 3.
const UNPACK: [u8; 15] = [14, 1, 3, 0, 1, 0, 0, 0, 2, 2, 3, 0, 3, 5, 0];
/// Word 5 and 7 are added, to register 3.
const ADD: [u8; 18] = [15, 1, 3, 0, 1, 0, 0, 0, 3, 2, 3, 0, 3, 5, 0, 1, 7, 0];
const ALL: [&[u8]; 3] = [&PACK, &UNPACK, &ADD];

#[test]
fn operands_are_numbers_registers_and_words() {
    for front in ALL {
        record_form::operands_are_numbers_registers_and_words(front);
    }
}

#[test]
fn any_number_may_be_an_operand() {
    // Whether it can be packed, unpacked or added is found when the job is there.
    for front in ALL {
        for operand in (12..front.len()).step_by(3) {
            let number = [(operand, 1), (operand + 1, 255), (operand + 2, 255)];
            assert_eq!(code(front, &number), 0);
        }
    }
}

#[test]
fn pack_and_unpack_have_two_operands_and_the_sum_has_three() {
    for front in ALL {
        record_form::there_are_so_many_operands(front);
    }
    for (front, opcodes) in [(&PACK[..], [13, 14]), (&UNPACK, [13, 14]), (&ADD, [15, 15])] {
        for opcode in 12..=16 {
            let expected = if opcodes.contains(&opcode) { 0 } else { REFUSED };
            assert_eq!(code(front, &[(0, opcode)]), expected, "{} as {opcode}", front[0]);
        }
    }
}

#[test]
fn label_a_is_in_the_block_and_operator_and_label_b_are_zero() {
    for front in ALL {
        record_form::label_a_is_in_the_block_and_operator_and_label_b_are_zero(front);
    }
}

#[test]
fn the_destination_is_a_register_or_a_word_and_no_number() {
    for front in ALL {
        let kinds = [1, 2, 3].map(|kind| code(front, &[(9, kind)]));
        assert_eq!(kinds, [REFUSED, 0, 0]);
    }
}

#[test]
fn the_destination_may_be_an_operand_and_the_operands_may_be_equal() {
    for front in ALL {
        for (kind, number) in [(2, 3), (3, 5)] {
            let operands = (9..front.len()).step_by(3);
            let set: Vec<(usize, u8)> =
                operands.flat_map(|at| [(at, kind), (at + 1, number)]).collect();
            assert_eq!(code(front, &set), 0);
        }
    }
}

#[test]
fn the_first_faulty_label_is_given() {
    for front in ALL {
        // Label 1 is no opcode.
        assert_eq!(code(front, &[(84, 16)]), REFUSED + 1);
        assert_eq!(code(front, &[(84, 16), (9, 1)]), REFUSED);
    }
}
