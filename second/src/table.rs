//! The block table: the thread, the kind and the lock of each block.

use crate::bytes::Reader;
use crate::refusal::Refusal;
use crate::sorts::{Block, Lock, Thread};

#[derive(Clone, Copy, Debug, PartialEq, Eq)]
pub enum Kind {
    Fd,
    Cmx,
}

struct Row {
    thread: Thread,
    kind: Kind,
    lock: Lock,
}

pub struct Table {
    rows: Vec<Row>,
}

impl Table {
    /// Bytes of one block's row.
    pub const ROW_WIDTH: usize = 3;
    /// Where in a row the lock stands.
    pub const LOCK_PLACE: usize = 2;
    pub const LENGTH: usize = Table::ROW_WIDTH * Block::COUNT;

    pub fn decode(bytes: &[u8]) -> Result<Table, Refusal> {
        if bytes.len() != Table::LENGTH {
            return Err(Refusal::TableLength);
        }
        let mut reader = Reader::new(bytes);
        let rows = Block::all()
            .map(|block| Row::read(&mut reader).ok_or(Refusal::TableField(block)))
            .collect::<Result<_, _>>()?;
        Ok(Table { rows })
    }

    /// The thread the block belongs to.
    pub fn thread(&self, block: Block) -> Thread {
        self.rows[block.index()].thread
    }

    /// The lock that guards the block, and with it the others of its group.
    pub fn lock(&self, block: Block) -> Lock {
        self.rows[block.index()].lock
    }

    /// Whether jobs of this thread may be in the block: it is CMX or its own.
    pub fn open_to(&self, block: Block, thread: Thread) -> bool {
        let row = &self.rows[block.index()];
        row.kind == Kind::Cmx || row.thread == thread
    }
}

impl Row {
    fn read(reader: &mut Reader) -> Option<Row> {
        let (thread, kind, lock) = (reader.byte(), reader.byte(), reader.byte());
        let kind = match kind {
            0 => Kind::Fd,
            1 => Kind::Cmx,
            _ => return None,
        };
        Some(Row { thread: Thread::new(thread)?, kind, lock: Lock::new(lock)? })
    }
}
