//! Statements and operands, decoded from the fields of a record.

use crate::bytes::Reader;
use crate::image::{Entry, Heading};
use crate::registers::Registers;
use crate::sorts::{Block, Label};

/// Where a value is kept: register 0..24, or shared word 16 x block + word.
#[derive(Clone, Copy, Debug, PartialEq, Eq)]
pub enum Place {
    Register(u8),
    Word(u8),
}

impl Place {
    /// The block's word with this number, which is below 16.
    pub fn word_of(block: Block, number: usize) -> Place {
        Place::Word((Block::WORDS * block.index() + number) as u8)
    }
}

#[derive(Clone, Copy, Debug)]
pub enum Operand {
    Number(u16),
    Kept(Place),
}

/// What is stored at one destination: the right side of ASSIGN, where sums and
/// products are modulo 65,536 and a difference is exact, with none below zero; or
/// what opcodes 13 to 15 make of decimals, where sums are modulo 10,000.
#[derive(Clone, Copy, Debug)]
pub enum Formula {
    Copy(Operand),
    Add(Operand, Operand),
    Subtract(Operand, Operand),
    Multiply(Operand, Operand),
    Pack(Operand),
    Unpack(Operand),
    AddPacked(Operand, Operand),
}

impl Formula {
    /// p, and q if there is one.
    pub fn operands(&self) -> Vec<Operand> {
        match *self {
            Formula::Copy(p) | Formula::Pack(p) | Formula::Unpack(p) => vec![p],
            Formula::Add(p, q)
            | Formula::Subtract(p, q)
            | Formula::Multiply(p, q)
            | Formula::AddPacked(p, q) => vec![p, q],
        }
    }
}

/// p divided by q. The two places are different; either may be an operand too.
#[derive(Clone, Copy, Debug)]
pub struct Division {
    pub quotient: Place,
    pub remainder: Place,
    pub p: Operand,
    pub q: Operand,
}

#[derive(Clone, Copy, Debug)]
pub enum Test {
    Equal(Operand, Operand),
    Less(Operand, Operand),
}

/// `Assign` is opcode 2, and 13 to 15 as well. `SendJobTree` is the buffered SEND
/// whose signal founds a new tree at EXIT.
#[derive(Clone, Debug)]
pub enum Statement {
    Skip { on: Label },
    Assign { to: Place, formula: Formula, on: Label },
    Divide { division: Division, on: Label },
    Goto { on: Label },
    If { test: Test, holds: Label, fails: Label },
    SendDirect { signal: Label, data: Vec<Operand> },
    SendBuffered { signal: Label, data: Vec<Operand>, on: Label },
    SendJobTree { signal: Label, data: Vec<Operand>, on: Label },
    Call { signal: Label, data: Vec<Operand>, back: Label },
    Return { data: Vec<Operand> },
    Transfer { signal: Label, data: Vec<Operand> },
    Exit,
}

impl Statement {
    /// Shifts every label the statement names by `by` records.
    pub fn relocate(&mut self, by: u16) {
        self.labels().into_iter().for_each(|label| label.relocate(by));
    }

    /// The data operands; a statement that carries no data has none.
    pub fn data(&self) -> &[Operand] {
        match self {
            Statement::SendDirect { data, .. }
            | Statement::SendBuffered { data, .. }
            | Statement::SendJobTree { data, .. }
            | Statement::Call { data, .. }
            | Statement::Return { data }
            | Statement::Transfer { data, .. } => data,
            Statement::Skip { .. }
            | Statement::Assign { .. }
            | Statement::Divide { .. }
            | Statement::Goto { .. }
            | Statement::If { .. }
            | Statement::Exit => &[],
        }
    }

    fn labels(&mut self) -> Vec<&mut Label> {
        match self {
            Statement::Skip { on }
            | Statement::Assign { on, .. }
            | Statement::Divide { on, .. }
            | Statement::Goto { on } => vec![on],
            Statement::If { holds, fails, .. } => vec![holds, fails],
            Statement::SendDirect { signal, .. } | Statement::Transfer { signal, .. } => {
                vec![signal]
            }
            Statement::SendBuffered { signal, on, .. }
            | Statement::SendJobTree { signal, on, .. } => vec![signal, on],
            Statement::Call { signal, back, .. } => vec![signal, back],
            Statement::Return { .. } | Statement::Exit => Vec::new(),
        }
    }
}

/// Data operands of one signal: as many as there are registers.
pub const OPERANDS: usize = Registers::COUNT;
pub const OPERAND_WIDTH: usize = 3;

/// The fields of a record that say what it does.
pub struct Fields {
    pub opcode: u8,
    pub operator: u8,
    pub a: u16,
    pub b: u16,
    pub operands: Vec<Operand>,
}

impl Operand {
    pub fn read(mut reader: Reader, block: Block) -> Option<Operand> {
        let (kind, value) = (reader.byte(), reader.pair());
        let number = usize::from(value);
        match kind {
            1 => Some(Operand::Number(value)),
            2 if number < Registers::COUNT => Some(Operand::Kept(Place::Register(value as u8))),
            3 if number < Block::WORDS => Some(Operand::Kept(Place::word_of(block, number))),
            _ => None,
        }
    }
}

/// The labels a record may name: those of its image, as they stand to its block.
pub struct Links<'a> {
    pub headings: &'a [Heading],
    pub block: Block,
}

impl Links<'_> {
    /// A label that is no signal: in the record's own block.
    fn inside(&self, number: u16) -> Option<Label> {
        let label = Label::below(number, self.headings.len())?;
        (self.headings[label.index()].block == Some(self.block)).then_some(label)
    }

    fn signal(&self, number: u16, entry: Entry) -> Option<Label> {
        let label = Label::below(number, self.headings.len())?;
        (self.headings[label.index()].entry == Some(entry)).then_some(label)
    }
}

impl Fields {
    /// The statement, if the fields keep every rule; what it does not use is zero.
    pub fn statement(self, links: &Links) -> Option<Statement> {
        let uses_a = !matches!(self.opcode, 8 | 10);
        let uses_b = matches!(self.opcode, 4 | 6 | 7 | 11);
        if (!uses_a && self.a != 0) || (!uses_b && self.b != 0) {
            return None;
        }
        match self.opcode {
            2 | 4 | 13..=15 => self.computing(links),
            _ if self.operator != 0 => None,
            5..=9 | 11 => self.signalling(links),
            12 => self.dividing(links),
            _ if !self.operands.is_empty() => None,
            1 => Some(Statement::Skip { on: links.inside(self.a)? }),
            3 => Some(Statement::Goto { on: links.inside(self.a)? }),
            10 => Some(Statement::Exit),
            _ => None,
        }
    }

    /// ASSIGN and IF, which have an operator, and opcodes 13 to 15, which store as
    /// ASSIGN does and have none.
    fn computing(self, links: &Links) -> Option<Statement> {
        let assign = |to: Operand, formula| match to {
            Operand::Kept(to) => Some(Statement::Assign { to, formula, on: links.inside(self.a)? }),
            Operand::Number(_) => None,
        };
        let choose = |test| {
            let (holds, fails) = (links.inside(self.a)?, links.inside(self.b)?);
            Some(Statement::If { test, holds, fails })
        };
        match (self.opcode, self.operator, self.operands.as_slice()) {
            (2, 1, &[to, p]) => assign(to, Formula::Copy(p)),
            (2, 2, &[to, p, q]) => assign(to, Formula::Add(p, q)),
            (2, 3, &[to, p, q]) => assign(to, Formula::Subtract(p, q)),
            (2, 4, &[to, p, q]) => assign(to, Formula::Multiply(p, q)),
            (4, 1, &[p, q]) => choose(Test::Equal(p, q)),
            (4, 2, &[p, q]) => choose(Test::Less(p, q)),
            (13, 0, &[to, p]) => assign(to, Formula::Pack(p)),
            (14, 0, &[to, p]) => assign(to, Formula::Unpack(p)),
            (15, 0, &[to, p, q]) => assign(to, Formula::AddPacked(p, q)),
            _ => None,
        }
    }

    /// Opcode 12. Equal destinations are of one kind and one number.
    fn dividing(self, links: &Links) -> Option<Statement> {
        let &[Operand::Kept(quotient), Operand::Kept(remainder), p, q] = self.operands.as_slice()
        else {
            return None;
        };
        let division = Division { quotient, remainder, p, q };
        let on = links.inside(self.a)?;
        (quotient != remainder).then_some(Statement::Divide { division, on })
    }

    /// The opcodes that carry data, 5 to 9 and 11.
    fn signalling(self, links: &Links) -> Option<Statement> {
        let (a, b, data) = (self.a, self.b, self.operands);
        Some(match self.opcode {
            5 => Statement::SendDirect { signal: links.signal(a, Entry::Direct)?, data },
            opcode @ (6 | 11) => {
                let (signal, on) = (links.signal(a, Entry::Buffered)?, links.inside(b)?);
                match opcode {
                    6 => Statement::SendBuffered { signal, data, on },
                    _ => Statement::SendJobTree { signal, data, on },
                }
            }
            7 => {
                let signal = links.signal(a, Entry::Direct)?;
                Statement::Call { signal, data, back: links.inside(b)? }
            }
            8 => Statement::Return { data },
            9 => {
                links.inside(a)?;
                Statement::Transfer { signal: links.signal(a, Entry::Direct)?, data }
            }
            _ => return None,
        })
    }
}
