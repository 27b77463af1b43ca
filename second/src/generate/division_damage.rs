//! Damage to records that divide.

use super::random::Random;
use super::record_damage::{change_form, operand};

/// Gives a record that divides equal destinations, a register and a word of one
/// number, which are not equal, a number for a destination or another form.
pub fn change_division(random: &mut Random, record: &mut [u8]) {
    match random.below(7) {
        0 => record.copy_within(operand(0)..operand(1), operand(1)),
        1 => {
            record.copy_within(operand(0)..operand(1), operand(1));
            // Kind 2 is a register, 3 a word.
            record[operand(0)] ^= 1;
        }
        2 => record[operand(random.below(2))] = 1,
        _ => change_form(random, record, 4),
    }
}
