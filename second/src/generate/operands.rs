//! Operands at random.

use super::decimals::{number, packed};
use super::known::Known;
use super::random::Random;
use crate::registers::Registers;
use crate::sorts::{Block, Label};
use crate::statement::{Division, Formula, Operand, Place, Statement, Test};

/// The operands of the records of one block.
pub struct Operands {
    pub block: Block,
    /// One operand in so many is a register.
    pub register_odds: usize,
}

impl Operands {
    pub fn data(&self, random: &mut Random) -> Vec<Operand> {
        (0..random.few()).map(|_| self.operand(random)).collect()
    }

    fn place(&self, random: &mut Random) -> Place {
        if random.once_in(2) {
            register(random)
        } else {
            self.word(random)
        }
    }

    pub fn formula(&self, random: &mut Random) -> Formula {
        let (p, q) = (self.operand(random), self.operand(random));
        match random.weighted(&[4, 2, 1, 1, 2]) {
            0 => Formula::Copy(p),
            1 => Formula::Add(p, q),
            2 => Formula::Subtract(p, q),
            3 => Known::number(random.value()).subtraction(random),
            _ => Formula::Multiply(p, q),
        }
    }

    pub fn division(&self, random: &mut Random) -> Division {
        let any = [self.operand(random), self.operand(random)];
        let edge = Known::number(random.value()).divided(random);
        let pair = random.one_of([any, edge]);
        self.divided(random, pair)
    }

    /// The division of these operands, p first. Its results go to the places of
    /// operands or to any, at times to a register and the word of its number.
    pub fn divided(&self, random: &mut Random, [p, q]: [Operand; 2]) -> Division {
        let mut destination = || self.destination(random, &[p, q]);
        let (quotient, other) = (destination(), destination());
        let twin = quotient == other || random.once_in(4);
        let remainder = if twin { self.twin(quotient) } else { other };
        Division { quotient, remainder, p, q }
    }

    /// Opcode 13, 14 or 15 of any operands, or of numbers at its edges; or such a
    /// number, stored for the next record.
    pub fn decimal(&self, random: &mut Random, opcode: usize) -> Formula {
        let (p, q) = (self.operand(random), self.operand(random));
        let edge = if opcode == 13 { number(random) } else { packed(random) };
        match (random.weighted(&[5, 3, 1]), opcode) {
            (0, _) => Formula::Copy(Operand::Number(edge)),
            (1, _) => Known::number(edge).decimal(random, opcode),
            (_, 13) => Formula::Pack(p),
            (_, 14) => Formula::Unpack(p),
            _ => Formula::AddPacked(p, q),
        }
    }

    /// The result goes to the place of an operand or to any.
    pub fn assign(&self, random: &mut Random, formula: Formula, on: Label) -> Statement {
        let to = self.destination(random, &formula.operands());
        Statement::Assign { to, formula, on }
    }

    /// The place of one of these operands, or any.
    fn destination(&self, random: &mut Random, operands: &[Operand]) -> Place {
        match random.pick(operands) {
            Some(Operand::Kept(place)) if random.once_in(2) => place,
            _ => self.place(random),
        }
    }

    /// The register of a word's number, or the word of a register's; for a
    /// register from 16 on the word of 16 less.
    fn twin(&self, place: Place) -> Place {
        match place {
            Place::Register(register) => {
                Place::word_of(self.block, usize::from(register) % Block::WORDS)
            }
            Place::Word(word) => Place::Register(word % Block::WORDS as u8),
        }
    }

    pub fn test(&self, random: &mut Random) -> Test {
        let (p, q) = (self.operand(random), self.operand(random));
        if random.once_in(2) {
            Test::Equal(p, q)
        } else {
            Test::Less(p, q)
        }
    }

    fn operand(&self, random: &mut Random) -> Operand {
        if random.once_in(self.register_odds) {
            Operand::Kept(register(random))
        } else if random.once_in(2) {
            Operand::Kept(self.word(random))
        } else {
            Operand::Number(random.value())
        }
    }

    /// Mostly one of the first two words of the block, so that jobs meet there.
    fn word(&self, random: &mut Random) -> Place {
        let bound = random.one_of([2, 2, Block::WORDS]);
        Place::word_of(self.block, random.below(bound))
    }
}

/// Mostly one of the first registers, which signals fill.
fn register(random: &mut Random) -> Place {
    let bound = random.one_of([1, 3, Registers::COUNT]);
    Place::Register(random.below(bound) as u8)
}
