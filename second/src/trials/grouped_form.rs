//! The trials of what a table with locks and the lock sets of a state must be.

use super::bench::{arrival, call, exit, record, step, Bench, ROW, ZERO_TABLE};
use crate::encode::image_bytes;
use crate::image::Entry;
use crate::{check, run};

#[test]
fn the_table_has_48_bytes() {
    let image = image_bytes(&[exit(0, Entry::External)]);
    assert_eq!(check(&image, &[0; 48]), 0);
    for length in [0, 3, 32, 47, 49, 51, 64] {
        assert_eq!(check(&image, &vec![0; length]), 2 * 65_536);
        assert_eq!(check(&image, &vec![255; length]), 2 * 65_536);
    }
}

/// What check returns for the zero table with some of its bytes set.
fn table_code(set: &[(usize, u8)]) -> u32 {
    let mut table = ZERO_TABLE;
    set.iter().for_each(|&(byte, value)| table[byte] = value);
    check(&image_bytes(&[exit(0, Entry::External)]), &table)
}

#[test]
fn a_lock_is_0_to_15() {
    for block in 0..16 {
        for lock in 0..=255 {
            let refused = if lock < 16 { 0 } else { 3 * 65_536 + block as u32 };
            assert_eq!(table_code(&[(ROW * block + 2, lock)]), refused);
        }
    }
}

#[test]
fn the_first_block_with_a_field_out_of_range_is_given() {
    for (first, value) in [(0, 8), (1, 2), (2, 16)] {
        for (later, beyond) in [(0, 8), (1, 2), (2, 16)] {
            let set = [(ROW * 15 + later, beyond), (ROW * 4 + first, value)];
            assert_eq!(table_code(&set), 3 * 65_536 + 4);
        }
    }
}

/// What run returns if these are the locks of threads 0 and 1, altering no
/// byte. Thread 0 called from block 2, which lock 9 guards, to block 6, which
/// lock 12 guards; thread 1 is in block 1, which lock 8 guards. Locks 1, 2 and
/// 6 guard no block.
fn code(locks: [&[u8]; 2]) -> u32 {
    let records =
        [record(2, Entry::External, call(1, 0)), exit(6, Entry::Direct), exit(1, Entry::External)];
    let rows = [[0, 1], [1, 1], [0, 1], [0, 1], [0, 1], [0, 1], [4, 1]];
    let groups: [(u8, &[usize]); 3] = [(9, &[2, 5]), (12, &[3, 6]), (8, &[1])];
    let mut bench = Bench::new(&rows, &records);
    for (lock, blocks) in groups {
        bench = bench.grouped(lock, blocks);
    }
    bench.job(&[], 1);
    bench.run(&[arrival(2, &[]), step(1)]);
    for (thread, locks) in locks.iter().enumerate() {
        let set: u16 = locks.iter().map(|lock| 1 << lock).sum();
        bench.state[512 + 288 * thread + 2..][..2].copy_from_slice(&set.to_le_bytes());
    }
    let mut state = bench.state.clone();
    let code = run(&bench.image, &bench.table, &mut state, &[], &mut []);
    assert_eq!(state, bench.state);
    code
}

#[test]
fn a_job_may_hold_more_than_the_locks_of_its_blocks() {
    assert_eq!(code([&[9, 12], &[8]]), 0);
    // Locks that guard other blocks or none.
    assert_eq!(code([&[9, 12, 0, 2, 6], &[8, 1, 15]]), 0);
}

#[test]
fn a_job_holds_the_locks_of_its_blocks_and_not_their_numbers() {
    // Of the label's block, of the return label's, of both.
    let of_first: [&[u8]; 6] = [&[9], &[9, 6], &[12], &[12, 2], &[], &[2, 6]];
    for locks in of_first {
        assert_eq!(code([locks, &[8]]), 6 * 65_536, "{locks:?}");
    }
    assert_eq!(code([&[9, 12], &[1]]), 6 * 65_536);
}

#[test]
fn no_lock_is_in_two_sets() {
    let shared: [[&[u8]; 2]; 4] = [
        [&[9, 12], &[8, 9]],
        [&[9, 12], &[8, 12]],
        [&[9, 12, 8], &[8]],
        // A lock that guards no block.
        [&[9, 12, 2], &[8, 2]],
    ];
    for locks in shared {
        assert_eq!(code(locks), 6 * 65_536, "{locks:?}");
    }
}
