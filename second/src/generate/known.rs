//! Subtractions, divisions and packed decimals of known values, at random.

use super::decimals::packed_beside;
use super::random::Random;
use crate::registers::Registers;
use crate::statement::{Formula, Operand, Place, Statement};

/// An operand whose value is known while the image is drawn.
pub struct Known {
    operand: Operand,
    value: u16,
}

impl Known {
    pub fn number(value: u16) -> Known {
        Known { operand: Operand::Number(value), value }
    }

    /// Whether the value is at an edge of subtraction and division rather than of
    /// packed decimals.
    pub fn is_small_or_large(&self) -> bool {
        !(4..65_532).contains(&self.value)
    }

    /// The place that the statement sets to a number, if it does that.
    pub fn set_by(statement: &Statement) -> Option<Known> {
        match *statement {
            Statement::Assign { to, formula: Formula::Copy(Operand::Number(value)), .. } => {
                Some(Known { operand: Operand::Kept(to), value })
            }
            _ => None,
        }
    }

    /// A subtraction at the edge of going below zero: of the operand and itself
    /// or a number beside it, at times of any register, mostly absent, and it.
    pub fn subtraction(&self, random: &mut Random) -> Formula {
        let beside = Operand::Number(random.one_of(with_neighbours(self.value)));
        let (p, q) = match random.weighted(&[2, 5, 8, 3]) {
            0 => (self.operand, self.operand),
            1 => (self.operand, beside),
            2 => (beside, self.operand),
            _ => (any_register(random), self.operand),
        };
        Formula::Subtract(p, q)
    }

    /// p and q at the edge of another quotient: the operand and itself, or a
    /// number at a multiple of it or beside it; at times the operand and any
    /// register, mostly absent. A known 0 is q less often than another value.
    pub fn divided(&self, random: &mut Random) -> [Operand; 2] {
        let times = random.one_of([1, 1, 2, 3, 100]);
        let [multiple, below, above] = with_neighbours(self.value.saturating_mul(times));
        let any = random.value();
        let beside = Operand::Number(random.one_of([multiple, below, above, 0, 1, any]));
        let weights = if self.value == 0 { [1, 7, 4, 6, 1] } else { [1, 4, 8, 1, 1] };
        match random.weighted(&weights) {
            0 => [self.operand, self.operand],
            1 => [self.operand, beside],
            2 => [beside, self.operand],
            3 => [any_register(random), self.operand],
            _ => [self.operand, any_register(random)],
        }
    }

    /// 13, 14 or 15. What cannot be packed is mostly to be unpacked or added.
    pub fn decimal_opcode(&self, random: &mut Random) -> usize {
        let pack = if self.value > 10_001 { 1 } else { 6 };
        13 + random.weighted(&[pack, 3, 6])
    }

    /// Opcode 13, 14 or 15 of the operand. It is added to itself or a number at
    /// the edge of carries, at times to any register, mostly absent.
    pub fn decimal(&self, random: &mut Random, opcode: usize) -> Formula {
        let beside = Operand::Number(packed_beside(random, self.value));
        let (p, q) = match random.weighted(&[1, 4, 4, 1, 1]) {
            0 => (self.operand, self.operand),
            1 => (self.operand, beside),
            2 => (beside, self.operand),
            3 => (any_register(random), self.operand),
            _ => (self.operand, any_register(random)),
        };
        match opcode {
            13 => Formula::Pack(self.operand),
            14 => Formula::Unpack(self.operand),
            _ => Formula::AddPacked(p, q),
        }
    }
}

/// The value and the ones below and above it, as far as there are any.
fn with_neighbours(value: u16) -> [u16; 3] {
    [value, value.saturating_sub(1), value.saturating_add(1)]
}

fn any_register(random: &mut Random) -> Operand {
    Operand::Kept(Place::Register(random.below(Registers::COUNT) as u8))
}
