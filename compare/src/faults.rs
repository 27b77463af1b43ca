//! Records that are refused for one fault alone, of the opcodes from DIVIDE on.

use crate::codes::{DECIMAL_ADD, DIVIDE, NUMBER, PACK, REGISTER, UNPACK};
use crate::sizes::{operand, LABEL_B, OPERAND_COUNT, OPERATOR, RECORD};
use crate::unmet::{ToMeet, Unmet};

/// Mends a record that has a fault, and leaves one without it as it is.
type Mend = fn(&mut [u8]);
pub type UnmetFaults = Unmet<Mend>;

const FAULTS: [ToMeet<Mend>; 5] = [
    (DIVIDE, "a division refused for nothing but", OF_FORM),
    (DIVIDE, "a division refused for nothing but", &[("equal destinations", part_destinations)]),
    (PACK, "a packing refused for nothing but", OF_FORM),
    (UNPACK, "an unpacking refused for nothing but", OF_FORM),
    (DECIMAL_ADD, "a decimal sum refused for nothing but", OF_FORM),
];

const OF_FORM: &[(&str, Mend)] = &[
    ("an operator", |record| record[OPERATOR] = 0),
    ("a label B", |record| record[LABEL_B..OPERAND_COUNT].fill(0)),
    ("an operand too few", add_operand),
    ("an operand too many", remove_operand),
    ("a number as destination", store_to_register),
];

impl Default for UnmetFaults {
    fn default() -> UnmetFaults {
        Unmet::all_of(&FAULTS)
    }
}

impl UnmetFaults {
    /// What a call returned that was lent this image and table. A record that it
    /// refused has a fault alone if it is not refused with that mended.
    pub fn note(&mut self, returned: u32, image: &[u8], table: &[u8]) {
        if returned >> 16 != 4 {
            return;
        }
        let place = RECORD * (returned % 65_536) as usize;
        self.meet(image[place], |mend| {
            let mut mended = image.to_vec();
            mend(&mut mended[place..][..RECORD]);
            mended != image && second::check(&mended, table) != returned
        });
    }
}

/// How many operands a record must have.
fn needed(record: &[u8]) -> usize {
    match record[0] {
        DIVIDE => 4,
        DECIMAL_ADD => 3,
        _ => 2,
    }
}

fn add_operand(record: &mut [u8]) {
    let last = needed(record) - 1;
    if usize::from(record[OPERAND_COUNT]) == last {
        record[OPERAND_COUNT] += 1;
        record[operand(last)].copy_from_slice(&[NUMBER, 0, 0]);
    }
}

fn remove_operand(record: &mut [u8]) {
    let beyond = needed(record);
    if usize::from(record[OPERAND_COUNT]) == beyond + 1 {
        record[OPERAND_COUNT] -= 1;
        record[operand(beyond)].fill(0);
    }
}

fn store_to_register(record: &mut [u8]) {
    let destination = &mut record[operand(0)];
    if destination[0] == NUMBER {
        destination.copy_from_slice(&[REGISTER, 0, 0]);
    }
}

/// Makes the second of equal destinations another register.
fn part_destinations(record: &mut [u8]) {
    if record[operand(0)] == record[operand(1)] {
        let other = u8::from(record[operand(0)] == [REGISTER, 0, 0]);
        record[operand(1)].copy_from_slice(&[REGISTER, other, 0]);
    }
}
