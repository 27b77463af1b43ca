//! The sizes of the formats in bytes, the places in their records that are read,
//! and how many there are of what is counted.

use std::ops::Range;

pub const RECORD: usize = 84;
pub const RECORDS: usize = 512;
/// Where in an image record its block, its operator and its label B are, the count
/// of its operands, and the operands.
pub const BLOCK: usize = 1;
pub const OPERATOR: usize = 3;
pub const LABEL_B: usize = 6;
pub const OPERAND_COUNT: usize = 8;
const OPERANDS: usize = 9;
const OPERAND: usize = 3;
pub const BLOCKS: usize = 16;
pub const BLOCK_WORDS: usize = 16;
/// A block's row of the table.
pub const ROW: usize = 3;
/// Where in a row the block's lock is.
pub const LOCK: usize = 2;
pub const LOCKS: usize = 16;
pub const WORDS: usize = 512;
pub const THREAD: usize = 288;
pub const THREADS: usize = 8;
/// Where in a thread record the label is, the count of return labels, and the
/// return labels.
pub const LABEL: usize = 0;
pub const RETURNS: usize = 4;
pub const RETURN_LABELS: usize = 5;
/// Where in a thread record the registers' presence is, and then their values.
pub const PRESENCE: usize = 21;
pub const REGISTERS: usize = 25;
/// Where in a thread record the count of held signals is, and then the signals.
pub const HELD: usize = 75;
pub const MOST_HELD: usize = 4;
pub const STATE: usize = 9_633;
pub const EVENT: usize = 55;
pub const ANSWER: usize = 2;

/// Where in an image record an operand is: its kind, and then its value.
pub fn operand(index: usize) -> Range<usize> {
    let place = OPERANDS + OPERAND * index;
    place..place + OPERAND
}
