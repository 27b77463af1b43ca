//! The image with its block table: the program of a machine.

use crate::bytes::Reader;
use crate::refusal::Refusal;
use crate::sorts::{Block, Label, Lock, Thread};
use crate::statement::{Fields, Links, Operand, Statement, OPERANDS, OPERAND_WIDTH};
use crate::table::Table;

#[derive(Clone, Copy, Debug, PartialEq, Eq)]
pub enum Entry {
    Closed = 0,
    Direct = 1,
    Buffered = 2,
    External = 3,
}

impl Entry {
    /// Every entry, in the order of the numbers.
    pub const ALL: [Entry; 4] = [Entry::Closed, Entry::Direct, Entry::Buffered, Entry::External];
}

/// What the records naming a record ask of it, whether or not it is itself
/// good: `None` where the byte is out of range.
pub struct Heading {
    pub block: Option<Block>,
    pub entry: Option<Entry>,
}

#[derive(Clone, Debug)]
pub struct Record {
    pub block: Block,
    pub entry: Entry,
    pub statement: Statement,
}

impl Record {
    pub const WIDTH: usize = 84;

    /// The image's part for each record, if its length is right.
    pub fn parts(image: &[u8]) -> Result<Vec<&[u8]>, Refusal> {
        let parts = image.chunks_exact(Record::WIDTH);
        let count = parts.len();
        if !parts.remainder().is_empty() || !(1..=Program::LIMIT).contains(&count) {
            return Err(Refusal::ImageLength);
        }
        Ok(parts.collect())
    }

    /// The records of an image, if each keeps every rule.
    pub fn decode_list(parts: &[&[u8]]) -> Result<Vec<Record>, Refusal> {
        let headings: Vec<Heading> = parts.iter().map(|part| Heading::decode(part)).collect();
        let labels = (0..).map_while(|number| Label::below(number, parts.len()));
        labels
            .zip(parts)
            .map(|(label, part)| {
                Record::decode(part, &headings, &headings[label.index()])
                    .ok_or(Refusal::Record(label))
            })
            .collect()
    }

    fn decode(bytes: &[u8], headings: &[Heading], own: &Heading) -> Option<Record> {
        let (block, entry) = (own.block?, own.entry?);
        let mut reader = Reader::new(bytes);
        let opcode = reader.byte();
        reader.part(2);
        let (operator, a, b) = (reader.byte(), reader.pair(), reader.pair());
        let operands = reader.list(OPERANDS, OPERAND_WIDTH, |part| Operand::read(part, block))?;
        let fields = Fields { opcode, operator, a, b, operands };
        let statement = fields.statement(&Links { headings, block })?;
        Some(Record { block, entry, statement })
    }
}

impl Heading {
    fn decode(bytes: &[u8]) -> Heading {
        let entry = Entry::ALL.get(usize::from(bytes[2])).copied();
        Heading { block: Block::new(bytes[1]), entry }
    }
}

pub struct Program {
    pub table: Table,
    pub records: Vec<Record>,
}

impl Program {
    /// Records of one image.
    pub const LIMIT: usize = 512;
    /// Bytes of the longest image.
    pub const LENGTH_LIMIT: usize = Record::WIDTH * Program::LIMIT;

    pub fn decode(image: &[u8], table: &[u8]) -> Result<Program, Refusal> {
        let parts = Record::parts(image)?;
        let table = Table::decode(table)?;
        let records = Record::decode_list(&parts)?;
        Ok(Program { table, records })
    }

    /// The label with this number, if it is one of this image.
    pub fn label(&self, number: u16) -> Option<Label> {
        Label::below(number, self.records.len())
    }

    pub fn record(&self, label: Label) -> &Record {
        &self.records[label.index()]
    }

    pub fn block(&self, label: Label) -> Block {
        self.record(label).block
    }

    /// The thread of the label's block.
    pub fn thread(&self, label: Label) -> Thread {
        self.table.thread(self.block(label))
    }

    /// The lock of the label's block.
    pub fn lock(&self, label: Label) -> Lock {
        self.table.lock(self.block(label))
    }
}
