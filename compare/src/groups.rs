//! Blocks that share a lock, in the bytes of images, tables and states.

use crate::sizes::{
    BLOCK, LABEL, LOCK, RECORD, RETURNS, RETURN_LABELS, ROW, THREAD, THREADS, WORDS,
};
use std::collections::BTreeSet;

/// For each thread that is in two blocks of one group, its label's and a return
/// label's, the lock of the group.
pub fn locks_of_two<'a>(
    image: &'a [u8],
    table: &'a [u8],
    state: &'a [u8],
) -> impl Iterator<Item = u8> + 'a {
    let threads = state[WORDS..].chunks(THREAD).take(THREADS);
    threads.filter_map(|thread| lock_of_two(image, table, thread))
}

fn lock_of_two(image: &[u8], table: &[u8], thread: &[u8]) -> Option<u8> {
    let block = |place: usize| {
        let label = u16::from_le_bytes([thread[place], thread[place + 1]]);
        image[RECORD * usize::from(label) + BLOCK]
    };
    let count = usize::from(thread[RETURNS]);
    let mut returns = (0..count).map(|place| block(RETURN_LABELS + 2 * place));
    let of_group = |&back: &u8| {
        let at = block(LABEL);
        back != at && lock(table, back) == lock(table, at)
    };
    returns.find(of_group).map(|block| lock(table, block))
}

fn lock(table: &[u8], block: u8) -> u8 {
    table[ROW * usize::from(block) + LOCK]
}

/// Whether a lock guards blocks of both images.
pub fn share_lock(table: &[u8], one: &[u8], other: &[u8]) -> bool {
    let locks = |image: &[u8]| -> BTreeSet<u8> {
        image.chunks(RECORD).map(|record| lock(table, record[BLOCK])).collect()
    };
    !locks(one).is_disjoint(&locks(other))
}
