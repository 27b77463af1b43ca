//! Valid images at random.

use super::known::Known;
use super::layout::{layout, Position, Slot};
use super::operands::Operands;
use super::random::Random;
use crate::encode::image_bytes;
use crate::image::{Entry, Program, Record};
use crate::sorts::{Block, Label};
use crate::statement::Statement;

/// An image that keeps every rule.
pub fn image(random: &mut Random) -> Vec<u8> {
    let (count, blocks) = (record_count(random), Block::all().collect::<Vec<Block>>());
    image_in(random, count, &blocks)
}

/// Few records, some or as many as an image may have.
pub fn record_count(random: &mut Random) -> usize {
    match random.weighted(&[1, 5, 9, 2, 1]) {
        0 => random.between(1, 4),
        1 => random.between(5, 24),
        2 => random.between(25, 80),
        3 => random.between(81, Program::LIMIT),
        _ => Program::LIMIT,
    }
}

/// An image of so many records that keeps every rule and names only these blocks.
pub fn image_in(random: &mut Random, count: usize, blocks: &[Block]) -> Vec<u8> {
    let draft = Draft::draw(random, count, blocks);
    let mut records: Vec<Record> = Vec::new();
    for &at in &draft.labels {
        records.push(draft.record(random, at, records.last()));
    }
    image_bytes(&records)
}

/// What is settled of an image before its statements.
struct Draft {
    labels: Vec<Label>,
    /// One for each label.
    slots: Vec<Slot>,
    weights: Weights,
    /// One operand in so many is a register.
    register_odds: usize,
}

/// The weights of the opcodes, 1 first, at each position.
type Weights = [[usize; 15]; 3];

/// The signals, 6, 7 and 11, weigh so much beside the opcodes that compute, 2, 4
/// and 12 to 15, that return labels, trees, held signals and the list of trees get
/// full.
const USUAL_WEIGHTS: Weights = [
    [1, 6, 1, 3, 1, 6, 13, 0, 1, 0, 7, 3, 1, 1, 1],
    [0, 0, 0, 0, 3, 0, 0, 8, 2, 1, 0, 0, 0, 0, 0],
    [0, 0, 0, 0, 4, 0, 0, 1, 2, 5, 0, 0, 0, 0, 0],
];
/// By what an image multiplies a usual weight.
const MOODS: [usize; 10] = [0, 1, 1, 1, 1, 2, 2, 2, 4, 4];

impl Draft {
    fn draw(random: &mut Random, count: usize, blocks: &[Block]) -> Draft {
        let labels = (0..).map_while(|number| Label::below(number, count)).collect();
        let weights = weights(random);
        let register_odds = random.one_of([4, 30, 100, 400, 1_000]);
        Draft { labels, slots: layout(random, count, blocks), weights, register_odds }
    }

    fn slot(&self, at: Label) -> &Slot {
        &self.slots[at.index()]
    }

    /// Within a routine, what the record before has set to a number is nearly
    /// always an operand of a subtraction, a division or a packed decimal: few of
    /// their other operands are registers, and each edge is to be met with one.
    fn record(&self, random: &mut Random, at: Label, before: Option<&Record>) -> Record {
        let Slot { block, entry, position } = *self.slot(at);
        let next = self.next_inside(random, at);
        let opcode = 1 + random.weighted(&self.weights[position as usize]);
        let known = before.and_then(|record| Known::set_by(&record.statement));
        let drawn = match (position, known, opcode) {
            (Position::Within, Some(known), _) if !random.once_in(8) => {
                Some(self.with_known(random, &known, block, next))
            }
            (_, _, 5..=9 | 11) => self.signalling(random, opcode, block, next),
            _ => Some(self.computing(random, opcode, at, next)),
        };
        let statement = drawn.unwrap_or(match position {
            Position::Within => Statement::Skip { on: next },
            Position::EndOfCalled | Position::EndOfStarting => Statement::Exit,
        });
        Record { block, entry, statement }
    }

    fn operands(&self, block: Block) -> Operands {
        Operands { block, register_odds: self.register_odds }
    }

    /// A subtraction or, less often, a division of or by the known operand, or
    /// opcode 13, 14 or 15 of it, whichever its value is at an edge of.
    fn with_known(&self, random: &mut Random, known: &Known, block: Block, on: Label) -> Statement {
        let operands = self.operands(block);
        let weights = if known.is_small_or_large() { [6, 3, 1] } else { [2, 1, 8] };
        let formula = match random.weighted(&weights) {
            0 => known.subtraction(random),
            1 => {
                let pair = known.divided(random);
                return Statement::Divide { division: operands.divided(random, pair), on };
            }
            _ => {
                let opcode = known.decimal_opcode(random);
                known.decimal(random, opcode)
            }
        };
        operands.assign(random, formula, on)
    }

    /// A statement without data, opcodes 1 to 4, 10 and 12 to 15.
    fn computing(&self, random: &mut Random, opcode: usize, at: Label, next: Label) -> Statement {
        let operands = self.operands(self.slot(at).block);
        match opcode {
            1 => Statement::Skip { on: next },
            2 => {
                let formula = operands.formula(random);
                operands.assign(random, formula, next)
            }
            3 => Statement::Goto { on: next },
            4 => {
                let (test, fails) = (operands.test(random), self.next_inside(random, at));
                Statement::If { test, holds: next, fails }
            }
            12 => Statement::Divide { division: operands.division(random), on: next },
            13..=15 => {
                let formula = operands.decimal(random, opcode);
                operands.assign(random, formula, next)
            }
            _ => Statement::Exit,
        }
    }

    /// A statement with data, opcodes 5 to 9 and 11; none if it has no signal to go to.
    fn signalling(
        &self,
        random: &mut Random,
        opcode: usize,
        block: Block,
        next: Label,
    ) -> Option<Statement> {
        let data = self.operands(block).data(random);
        Some(match opcode {
            5 => Statement::SendDirect { signal: self.direct(random, block)?, data },
            6 => Statement::SendBuffered { signal: self.buffered(random)?, data, on: next },
            7 => Statement::Call { signal: self.direct(random, block)?, data, back: next },
            8 => Statement::Return { data },
            11 => Statement::SendJobTree { signal: self.buffered(random)?, data, on: next },
            _ => {
                let local = |slot: &Slot| slot.block == block && slot.entry == Entry::Direct;
                Statement::Transfer { signal: self.one_where(random, local)?, data }
            }
        })
    }

    /// A direct entry; half the time one of another block, if there is one.
    fn direct(&self, random: &mut Random, block: Block) -> Option<Label> {
        let direct = |slot: &Slot| slot.entry == Entry::Direct;
        let away = random.once_in(2);
        self.one_where(random, |slot| direct(slot) && !(away && slot.block == block))
            .or_else(|| self.one_where(random, direct))
    }

    fn buffered(&self, random: &mut Random) -> Option<Label> {
        self.one_where(random, |slot| slot.entry == Entry::Buffered)
    }

    fn one_where(&self, random: &mut Random, fits: impl Fn(&Slot) -> bool) -> Option<Label> {
        let labels = self.labels.iter().copied();
        let fitting: Vec<Label> = labels.filter(|&label| fits(self.slot(label))).collect();
        random.pick(&fitting)
    }

    /// A label of the same block: mostly that of the next record.
    fn next_inside(&self, random: &mut Random, at: Label) -> Label {
        let block = self.slot(at).block;
        let following = self.labels.get(at.index() + 1).copied();
        following
            .filter(|&label| self.slot(label).block == block && !random.once_in(8))
            .or_else(|| self.one_where(random, |slot| slot.block == block))
            .unwrap_or(at)
    }
}

/// The usual weights in this image's mood. EXIT is always possible, one image
/// in three is fond of ASSIGN, IF, buffered SEND, CALL, TRANSFER or division,
/// one in six of packed decimals, and one in four of signals that found new trees,
/// with an EXIT to follow them.
fn weights(random: &mut Random) -> Weights {
    let mut weights = USUAL_WEIGHTS.map(|row| row.map(|weight| weight * random.one_of(MOODS)));
    for row in &mut weights {
        row[10 - 1] += 1;
    }
    let within = &mut weights[Position::Within as usize];
    if random.once_in(3) {
        let fond_of = random.one_of([2, 2, 4, 6, 6, 7, 7, 9, 12]);
        within[fond_of - 1] += 40;
    }
    if random.once_in(6) {
        within[13 - 1..].iter_mut().for_each(|weight| *weight += 20);
    }
    if random.once_in(4) {
        within[11 - 1] += random.one_of([10, 20, 40]);
        weights[Position::EndOfStarting as usize][10 - 1] += 20;
    }
    weights
}
