//! The numbers that stand in image records for opcodes, an operator and the kinds
//! of operands.

pub const ASSIGN: u8 = 2;
pub const DIVIDE: u8 = 12;
pub const PACK: u8 = 13;
pub const UNPACK: u8 = 14;
pub const DECIMAL_ADD: u8 = 15;
/// An operator of ASSIGN.
pub const SUBTRACT: u8 = 3;
/// Kinds of operands.
pub const NUMBER: u8 = 1;
pub const REGISTER: u8 = 2;
pub const WORD: u8 = 3;
