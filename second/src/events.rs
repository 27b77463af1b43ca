//! Events and the answer to each.

use crate::bytes::Reader;
use crate::image::{Entry, Program};
use crate::refusal::Refusal;
use crate::sorts::{Lock, Thread};
use crate::tree::Signal;

#[derive(Clone, Debug)]
pub enum Event {
    Arrival(Signal),
    Step(Thread),
    Cut(Thread),
}

impl Event {
    pub const WIDTH: usize = 55;
    /// Events of one Run.
    pub const LIMIT: usize = 1_024;

    pub fn decode_list(program: &Program, bytes: &[u8]) -> Result<Vec<Event>, Refusal> {
        let count = bytes.len() / Event::WIDTH;
        if bytes.len() != count * Event::WIDTH || count > Event::LIMIT {
            return Err(Refusal::EventsLength);
        }
        (0..)
            .zip(bytes.chunks(Event::WIDTH))
            .map(|(index, part)| {
                Event::read(Reader::new(part), program).ok_or(Refusal::Event(index))
            })
            .collect()
    }

    fn read(mut reader: Reader, program: &Program) -> Option<Event> {
        let (kind, thread) = (reader.byte(), reader.byte());
        match kind {
            1 if thread == 0 => {
                let signal = Signal::read(reader, program)?;
                let external = program.record(signal.label).entry == Entry::External;
                external.then_some(Event::Arrival(signal))
            }
            2 if reader.rest_is_zero() => Some(Event::Step(Thread::new(thread)?)),
            3 if reader.rest_is_zero() => Some(Event::Cut(Thread::new(thread)?)),
            _ => None,
        }
    }
}

/// Why a job was trapped.
#[derive(Clone, Copy, Debug, PartialEq, Eq)]
pub enum Trap {
    AbsentRegister,
    NoReturnLabel,
    ReturnLabelsFull,
    TreeFull,
    ForeignBlock,
    HeldFull,
    /// A subtraction takes more than there is.
    BelowZero,
    DivisionByZero,
    /// A number above 9,999 is packed, or a digit above 9 is unpacked or added.
    NotDecimal,
}

impl Trap {
    fn reason(self) -> u8 {
        match self {
            Trap::AbsentRegister => 1,
            Trap::NoReturnLabel => 2,
            Trap::ReturnLabelsFull => 3,
            Trap::TreeFull => 4,
            Trap::ForeignBlock => 5,
            Trap::HeldFull => 6,
            Trap::BelowZero => 7,
            Trap::DivisionByZero => 8,
            Trap::NotDecimal => 9,
        }
    }
}

#[derive(Clone, Copy, Debug, PartialEq, Eq)]
pub enum Answer {
    Arrived,
    ListFull,
    NoWork,
    Waiting(Lock),
    Started,
    MovedOn,
    Exited { lost: u8 },
    Trapped(Trap),
    Cut,
    NothingToCut,
}

impl Answer {
    pub const WIDTH: usize = 2;

    /// Code and detail.
    pub fn encode(self) -> [u8; Answer::WIDTH] {
        match self {
            Answer::Arrived => [1, 0],
            Answer::ListFull => [2, 0],
            Answer::NoWork => [3, 0],
            Answer::Waiting(lock) => [4, lock.number()],
            Answer::Started => [5, 0],
            Answer::MovedOn => [6, 0],
            Answer::Exited { lost } => [7, lost],
            Answer::Trapped(trap) => [8, trap.reason()],
            Answer::Cut => [9, 0],
            Answer::NothingToCut => [10, 0],
        }
    }
}
