//! Records and events as bytes.

use crate::bytes::Writer;
use crate::events::Event;
use crate::image::Record;
use crate::sorts::Block;
use crate::statement::{
    Division, Fields, Formula, Operand, Place, Statement, Test, OPERANDS, OPERAND_WIDTH,
};

pub fn image_bytes(records: &[Record]) -> Vec<u8> {
    let mut writer = Writer::default();
    for record in records {
        write_record(record, &mut writer);
    }
    writer.bytes
}

fn write_record(record: &Record, writer: &mut Writer) {
    let fields = fields(&record.statement);
    writer.byte(fields.opcode);
    writer.byte(record.block.number());
    writer.byte(record.entry as u8);
    writer.byte(fields.operator);
    writer.pair(fields.a);
    writer.pair(fields.b);
    writer.list(OPERANDS, OPERAND_WIDTH, &fields.operands, write_operand);
}

fn write_operand(writer: &mut Writer, operand: &Operand) {
    let (kind, value) = match *operand {
        Operand::Number(number) => (1, number),
        Operand::Kept(Place::Register(register)) => (2, u16::from(register)),
        Operand::Kept(Place::Word(word)) => (3, u16::from(word) % Block::WORDS as u16),
    };
    writer.byte(kind);
    writer.pair(value);
}

fn fields(statement: &Statement) -> Fields {
    let fields = |opcode, a: u16, b: u16, operands: &[Operand]| Fields {
        opcode,
        operator: 0,
        a,
        b,
        operands: operands.to_vec(),
    };
    match statement {
        Statement::Skip { on } => fields(1, on.number(), 0, &[]),
        Statement::Assign { to, formula, on } => {
            let (opcode, operator) = formula_fields(formula);
            let operands = [vec![Operand::Kept(*to)], formula.operands()].concat();
            Fields { operator, ..fields(opcode, on.number(), 0, &operands) }
        }
        Statement::Goto { on } => fields(3, on.number(), 0, &[]),
        Statement::If { test, holds, fails } => {
            let (operator, operands) = test_fields(test);
            Fields { operator, ..fields(4, holds.number(), fails.number(), &operands) }
        }
        Statement::SendDirect { signal, data } => fields(5, signal.number(), 0, data),
        Statement::SendBuffered { signal, data, on } => {
            fields(6, signal.number(), on.number(), data)
        }
        Statement::Call { signal, data, back } => fields(7, signal.number(), back.number(), data),
        Statement::Return { data } => fields(8, 0, 0, data),
        Statement::Transfer { signal, data } => fields(9, signal.number(), 0, data),
        Statement::Exit => fields(10, 0, 0, &[]),
        Statement::SendJobTree { signal, data, on } => {
            fields(11, signal.number(), on.number(), data)
        }
        Statement::Divide { division: Division { quotient, remainder, p, q }, on } => {
            let operands = [Operand::Kept(*quotient), Operand::Kept(*remainder), *p, *q];
            fields(12, on.number(), 0, &operands)
        }
    }
}

fn test_fields(test: &Test) -> (u8, [Operand; 2]) {
    match *test {
        Test::Equal(p, q) => (1, [p, q]),
        Test::Less(p, q) => (2, [p, q]),
    }
}

/// The opcode and the operator.
fn formula_fields(formula: &Formula) -> (u8, u8) {
    match formula {
        Formula::Copy(_) => (2, 1),
        Formula::Add(..) => (2, 2),
        Formula::Subtract(..) => (2, 3),
        Formula::Multiply(..) => (2, 4),
        Formula::Pack(_) => (13, 0),
        Formula::Unpack(_) => (14, 0),
        Formula::AddPacked(..) => (15, 0),
    }
}

pub fn events_bytes(events: &[Event]) -> Vec<u8> {
    let mut writer = Writer::default();
    for event in events {
        let (kind, thread) = match event {
            Event::Arrival(_) => (1, 0),
            Event::Step(thread) => (2, thread.number()),
            Event::Cut(thread) => (3, thread.number()),
        };
        writer.byte(kind);
        writer.byte(thread);
        match event {
            Event::Arrival(signal) => signal.write(&mut writer),
            Event::Step(_) | Event::Cut(_) => writer.zeros(Event::WIDTH - 2),
        }
    }
    writer.bytes
}
