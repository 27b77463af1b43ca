//! Damage to what all records of opcodes 12 to 15 must be.

use super::random::Random;
use crate::statement::OPERAND_WIDTH;

/// Where in a record these stand.
const OPERATOR: usize = 3;
const LABEL_B: usize = 6;
const OPERAND_COUNT: usize = 8;
const OPERANDS: usize = 9;

/// Where in a record the operand at this place begins, with its kind.
pub fn operand(place: usize) -> usize {
    OPERANDS + OPERAND_WIDTH * place
}

/// Gives a record that must have `count` operands, no operator and no label B an
/// operand fewer or more, an operator or a label B.
pub fn change_form(random: &mut Random, record: &mut [u8], count: usize) {
    match random.below(4) {
        0 => {
            record[OPERAND_COUNT] = count as u8 - 1;
            record[operand(count - 1)..operand(count)].fill(0);
        }
        1 => {
            record[OPERAND_COUNT] = count as u8 + 1;
            record[operand(count)] = 1;
        }
        2 => record[OPERATOR] = random.one_of([1, 2, 3, 4, 255]),
        _ => record[LABEL_B] = random.one_of([1, 2, 255]),
    }
}
