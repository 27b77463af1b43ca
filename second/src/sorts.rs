//! The four sorts of number. None stands in for another: a value of one sort
//! becomes one of another only by a named function, mostly of `table` or `image`.

/// The index of a record; it is below the number of records of its image.
#[derive(Clone, Copy, Debug, PartialEq, Eq)]
pub struct Label(u16);

impl Label {
    /// The label with this number, if it is below `count`.
    pub fn below(number: u16, count: usize) -> Option<Label> {
        (usize::from(number) < count).then_some(Label(number))
    }

    pub fn number(self) -> u16 {
        self.0
    }

    /// Makes it the label that its record has behind `by` more records; an
    /// image has at most 512, so the sum stays in range.
    pub fn relocate(&mut self, by: u16) {
        self.0 += by;
    }

    pub fn index(self) -> usize {
        usize::from(self.0)
    }
}

/// A block number, 0..15.
#[derive(Clone, Copy, Debug, PartialEq, Eq)]
pub struct Block(u8);

impl Block {
    pub const COUNT: usize = 16;
    /// Shared words of one block.
    pub const WORDS: usize = 16;

    pub fn new(number: u8) -> Option<Block> {
        (usize::from(number) < Block::COUNT).then_some(Block(number))
    }

    /// Every block, 0 first.
    pub fn all() -> impl Iterator<Item = Block> {
        (0..).map_while(Block::new)
    }

    pub fn number(self) -> u8 {
        self.0
    }

    pub fn index(self) -> usize {
        usize::from(self.0)
    }
}

/// A thread number, 0..7.
#[derive(Clone, Copy, Debug, PartialEq, Eq)]
pub struct Thread(u8);

impl Thread {
    pub const COUNT: usize = 8;

    pub fn new(number: u8) -> Option<Thread> {
        (usize::from(number) < Thread::COUNT).then_some(Thread(number))
    }

    /// Every thread, 0 first.
    pub fn all() -> impl Iterator<Item = Thread> {
        (0..).map_while(Thread::new)
    }

    pub fn number(self) -> u8 {
        self.0
    }

    pub fn index(self) -> usize {
        usize::from(self.0)
    }
}

/// A lock number, 0..15.
#[derive(Clone, Copy, Debug, PartialEq, Eq)]
pub struct Lock(u8);

impl Lock {
    pub const COUNT: usize = 16;

    pub fn new(number: u8) -> Option<Lock> {
        (usize::from(number) < Lock::COUNT).then_some(Lock(number))
    }

    /// Every lock, 0 first.
    pub fn all() -> impl Iterator<Item = Lock> {
        (0..).map_while(Lock::new)
    }

    pub fn number(self) -> u8 {
        self.0
    }

    /// The set with this lock alone, as bits.
    pub fn bit(self) -> u16 {
        1 << self.0
    }
}
