//! Valid block tables at random.

use super::random::Random;
use crate::sorts::{Block, Lock, Thread};

/// A block table: the blocks spread over the threads or drawn to a few of
/// them, with all, some or no blocks FD, most often in groups that share a lock.
pub fn table(random: &mut Random) -> Vec<u8> {
    let spread = random.once_in(2);
    let threads = random.between(1, Thread::COUNT);
    let fd_odds = random.one_of([1, 3, 8, 16, 64, 64, 64, 64]);
    let locks = locks(random);
    let row = |block: Block| {
        let number = block.index();
        let thread = if spread { number % Thread::COUNT } else { random.below(threads) };
        [thread as u8, u8::from(!random.once_in(fd_odds)), locks[number].number()]
    };
    Block::all().flat_map(row).collect()
}

/// The lock of each block: the one with its number, another that it has alone,
/// or one of a few, so that some locks guard several blocks and others none.
fn locks(random: &mut Random) -> Vec<Lock> {
    let mut locks: Vec<Lock> = Lock::all().collect();
    let sort = random.weighted(&[3, 1, 12]);
    if sort > 0 {
        random.shuffle(&mut locks);
    }
    if sort > 1 {
        let used = random.one_of([1, 2, 2, 2, 3, 3, 3, 4, 5, 8, Lock::COUNT]);
        locks = Block::all().map(|_| locks[random.below(used)]).collect();
    }
    locks
}
