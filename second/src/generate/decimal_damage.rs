//! Damage to records on packed decimals.

use super::random::Random;
use super::record_damage::{change_form, operand};
use crate::registers::Registers;
use crate::statement::OPERAND_WIDTH;

/// Gives a record of opcode 13, 14 or 15 a number for the destination, any register
/// for an operand, mostly absent or beyond the last, another of the three opcodes
/// or another form.
pub fn change_decimal(random: &mut Random, record: &mut [u8]) {
    let count = if record[0] == 15 { 3 } else { 2 };
    match random.below(8) {
        0 => record[operand(0)] = 1,
        1 | 2 => {
            let any = random.below(Registers::COUNT) as u8;
            let register = [2, random.one_of([any, any, 25, 255]), 0];
            record[operand(random.below(count))..][..OPERAND_WIDTH].copy_from_slice(&register);
        }
        3 => record[0] = random.one_of([13, 14, 15]),
        _ => change_form(random, record, count),
    }
}
