//! What the trials of a record's form have in common.

use super::bench::{exit, ZERO_TABLE};
use crate::check;
use crate::encode::image_bytes;
use crate::image::Entry;

pub const REFUSED: u32 = 4 * 65_536;

/// What check returns after these bytes of label 0 were set. It begins as given,
/// up to its last operand, and goes on to label 1, in block 1 as it is itself;
/// label 2 is in block 2.
pub fn code(front: &[u8], set: &[(usize, u8)]) -> u32 {
    let exits = image_bytes(&[exit(1, Entry::Closed), exit(2, Entry::Closed)]);
    let mut image = [front, &[0; 84][front.len()..], &exits].concat();
    set.iter().for_each(|&(byte, value)| image[byte] = value);
    check(&image, &ZERO_TABLE)
}

/// Tries every operand of the record.
pub fn operands_are_numbers_registers_and_words(front: &[u8]) {
    let code = |set: &[(usize, u8)]| code(front, set);
    for operand in (9..front.len()).step_by(3) {
        for kind in [0, 4, 255] {
            assert_eq!(code(&[(operand, kind)]), REFUSED);
        }
        for (kind, number) in [(2, 24), (3, 15)] {
            assert_eq!(code(&[(operand, kind), (operand + 1, number)]), 0);
            assert_eq!(code(&[(operand, kind), (operand + 1, number + 1)]), REFUSED);
            assert_eq!(code(&[(operand, kind), (operand + 2, 1)]), REFUSED);
        }
    }
}

/// Tries fewer and more operands than the record has.
pub fn there_are_so_many_operands(front: &[u8]) {
    let given = (front.len() - 9) / 3;
    for count in 0..=25 {
        // Further operands are the number 0, and those that are not used zero.
        let kinds = (given + 1..=count).map(|number| (6 + 3 * number, 1));
        let unused = (9 + 3 * count..front.len()).map(|byte| (byte, 0));
        let set: Vec<(usize, u8)> = kinds.chain(unused).chain([(8, count as u8)]).collect();
        let expected = if count == given { 0 } else { REFUSED };
        assert_eq!(code(front, &set), expected, "{count} operands");
    }
    // The count alone, and what is not used alone.
    let counts = [given as u8 - 1, given as u8 + 1, 26].map(|count| (8, count));
    let unused = [front.len(), front.len() + 1, 83].map(|byte| (byte, 1));
    for (byte, value) in counts.into_iter().chain(unused) {
        assert_eq!(code(front, &[(byte, value)]), REFUSED, "byte {byte} is {value}");
    }
}

/// Tries entries, operators and labels. The record has neither operator nor
/// label B.
pub fn label_a_is_in_the_block_and_operator_and_label_b_are_zero(front: &[u8]) {
    for (byte, value) in [(4, 0), (4, 1), (2, 0), (2, 1), (2, 2)] {
        assert_eq!(code(front, &[(byte, value)]), 0, "byte {byte} is {value}");
    }
    for (byte, value) in [(4, 2), (4, 3), (4, 255), (5, 1), (6, 1), (6, 255), (7, 1), (2, 4)] {
        assert_eq!(code(front, &[(byte, value)]), REFUSED, "byte {byte} is {value}");
    }
    for operator in 1..=255 {
        assert_eq!(code(front, &[(3, operator)]), REFUSED);
    }
}
