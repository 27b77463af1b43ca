//! What a statement can read, and what it computes from that.

use crate::decimal::{add, pack, unpack};
use crate::events::Trap;
use crate::registers::Registers;
use crate::statement::{Division, Formula, Operand, Place, Test};

/// Reading an absent register is a trap.
pub struct Sight<'a> {
    pub words: &'a [u16],
    pub registers: &'a Registers,
}

impl Sight<'_> {
    fn read(&self, operand: &Operand) -> Result<u16, Trap> {
        match *operand {
            Operand::Number(number) => Ok(number),
            Operand::Kept(Place::Register(register)) => {
                self.registers.get(register).ok_or(Trap::AbsentRegister)
            }
            Operand::Kept(Place::Word(word)) => Ok(self.words[usize::from(word)]),
        }
    }

    pub fn all(&self, data: &[Operand]) -> Result<Vec<u16>, Trap> {
        data.iter().map(|operand| self.read(operand)).collect()
    }

    /// All operands are read before a difference is found below zero or a digit
    /// above 9.
    pub fn compute(&self, formula: &Formula) -> Result<u16, Trap> {
        match formula {
            Formula::Copy(p) => self.read(p),
            Formula::Add(p, q) => Ok(self.read(p)?.wrapping_add(self.read(q)?)),
            Formula::Subtract(p, q) => {
                self.read(p)?.checked_sub(self.read(q)?).ok_or(Trap::BelowZero)
            }
            Formula::Multiply(p, q) => Ok(self.read(p)?.wrapping_mul(self.read(q)?)),
            Formula::Pack(p) => pack(self.read(p)?).ok_or(Trap::NotDecimal),
            Formula::Unpack(p) => unpack(self.read(p)?).ok_or(Trap::NotDecimal),
            Formula::AddPacked(p, q) => add(self.read(p)?, self.read(q)?).ok_or(Trap::NotDecimal),
        }
    }

    /// The quotient and the remainder. Both operands are read before q is found
    /// zero.
    pub fn divide(&self, division: &Division) -> Result<(u16, u16), Trap> {
        match (self.read(&division.p)?, self.read(&division.q)?) {
            (_, 0) => Err(Trap::DivisionByZero),
            (p, q) => Ok((p / q, p % q)),
        }
    }

    pub fn holds(&self, test: &Test) -> Result<bool, Trap> {
        Ok(match test {
            Test::Equal(p, q) => self.read(p)? == self.read(q)?,
            Test::Less(p, q) => self.read(p)? < self.read(q)?,
        })
    }
}
