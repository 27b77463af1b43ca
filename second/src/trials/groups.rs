//! The trials of one lock for several blocks.

use super::bench::{arrival, at, call, cut, exit, record, step, Bench};
use crate::image::{Entry, Record};
use crate::statement::{Formula, Operand, Place, Statement};

/// Block 2 is of thread 0 and block 5 of thread 3; lock 9 guards both. Block 3
/// is of thread 1 and block 6 of thread 4; lock 12 guards both.
fn families(records: &[Record]) -> Bench {
    let rows = [[0, 1], [0, 1], [0, 1], [1, 1], [0, 1], [3, 1], [4, 1]];
    Bench::new(&rows, records).grouped(9, &[2, 5]).grouped(12, &[3, 6])
}

fn direct(signal: u16) -> Statement {
    Statement::SendDirect { signal: at(signal), data: Vec::new() }
}

fn back() -> Statement {
    Statement::Return { data: Vec::new() }
}

const LOCK_9: [u8; 2] = [0, 2];
const LOCKS_9_AND_12: [u8; 2] = [0, 2 + 16];

#[test]
fn a_job_enters_a_second_block_of_its_group_and_holds_what_it_held() {
    for (statement, returns) in [(call(1, 0), 1), (direct(1), 0)] {
        let records = [record(2, Entry::External, statement), exit(5, Entry::Direct)];
        let mut bench = families(&records);
        bench.job(&[], 0);
        assert_eq!(bench.thread(0)[2..4], LOCK_9);
        let mut expected = bench.state.clone();
        // The label and the return count.
        (expected[512], expected[512 + 4]) = (1, returns);
        assert_eq!(bench.run(&[step(0)]), [[6, 0]]);
        assert_eq!(bench.state, expected);
    }
}

#[test]
fn the_other_threads_wait_for_the_lock_until_the_job_ends() {
    let records = [
        record(2, Entry::External, call(1, 0)),
        record(5, Entry::Direct, back()),
        exit(5, Entry::External),
        record(6, Entry::External, call(1, 3)),
    ];
    let mut bench = families(&records);
    bench.run(&[arrival(2, &[]), arrival(3, &[]), step(4)]);
    bench.job(&[], 0);
    // Thread 0 is in block 2, in block 5 and in block 2 again, while thread 3
    // would start in block 5 and thread 4 call it.
    for next in [step(0), step(0), cut(0)] {
        assert_eq!(bench.run(&[step(3), step(4)]), [[4, 9]; 2]);
        assert_eq!(bench.thread(0)[2..4], LOCK_9);
        bench.run(&[next]);
    }
    assert_eq!(bench.run(&[step(4), step(3)]), [[6, 0], [4, 9]]);
    assert_eq!(bench.thread(4)[2..4], LOCKS_9_AND_12);
    assert_eq!(bench.run(&[cut(4), step(3)]), [[9, 0], [5, 0]]);
    assert_eq!(bench.thread(3)[2..4], LOCK_9);
}

#[test]
fn jobs_in_two_blocks_of_one_group_leave_one_by_one_what_they_left() {
    // Word 0 of block 5.
    let word = Operand::Kept(Place::Word(16 * 5));
    let assign = |formula, on| Statement::Assign { to: Place::Word(16 * 5), formula, on: at(on) };
    let records = [
        record(2, Entry::External, call(2, 1)),
        exit(2, Entry::Closed),
        record(5, Entry::Direct, assign(Formula::Add(word, Operand::Number(1)), 3)),
        record(5, Entry::Closed, back()),
        record(5, Entry::External, assign(Formula::Multiply(word, Operand::Number(3)), 5)),
        exit(5, Entry::Closed),
    ];
    let mut bench = families(&records);
    // Thread 3 waits until the first job ends, then the second job for thread 3;
    // that job is left in its second block.
    let mut events = vec![arrival(0, &[]), arrival(4, &[]), arrival(0, &[])];
    events.extend([0, 3, 0, 3, 0, 3, 0, 3, 0, 3].map(step));
    events.extend([0, 3, 0, 3, 0, 0, 0].map(step));
    let answers = bench.run_both_orders(&events);
    assert_eq!(answers[..3], [[1, 0]; 3]);
    assert_eq!(answers[3..7], [[5, 0], [4, 9], [6, 0], [4, 9]]);
    assert_eq!(answers[7..13], [[6, 0], [4, 9], [6, 0], [4, 9], [7, 0], [5, 0]]);
    assert_eq!(answers[13..17], [[4, 9], [6, 0], [4, 9], [7, 0]]);
    assert_eq!(answers[17..], [[5, 0], [6, 0], [6, 0]]);
    // One added, three times that, one added.
    assert_eq!(bench.state[2 * 16 * 5..][..2], [4, 0]);
}

#[test]
fn a_foreign_fd_block_traps_though_the_job_holds_its_lock() {
    let records = [
        record(2, Entry::External, call(1, 0)),
        record(4, Entry::Direct, direct(2)),
        exit(5, Entry::Direct),
        exit(5, Entry::External),
    ];
    // Block 4 is FD as well, but of the job's own thread.
    let rows = [[0, 1], [0, 1], [0, 1], [1, 1], [0, 0], [3, 0]];
    let mut bench = Bench::new(&rows, &records).grouped(9, &[2, 4, 5]);
    assert_eq!(bench.job(&[], 1), [[6, 0]]);
    assert_eq!(bench.run(&[arrival(3, &[]), step(3)]), [[1, 0], [4, 9]]);
    assert_eq!(bench.run(&[step(0), step(3)]), [[8, 5], [5, 0]]);
}

#[test]
fn the_walk_goes_by_the_locks_of_groups() {
    let records = [
        record(2, Entry::External, call(1, 0)),
        exit(3, Entry::Direct),
        record(6, Entry::External, call(3, 2)),
        exit(5, Entry::Direct),
        exit(5, Entry::External),
    ];
    let mut bench = families(&records);
    let arrivals = [0, 2, 4].map(|label| arrival(label, &[]));
    bench.run(&arrivals);
    bench.run(&[step(0), step(4)]);
    // Each wants a block that no job is in, of a group the other has.
    assert_eq!(bench.run(&[step(0), step(4), step(3)]), [[4, 12], [4, 9], [4, 9]]);
    assert_eq!(bench.walk(0), (256 + 2, [0, 4, 255, 255, 255, 255, 255, 255]));
    assert_eq!(bench.walk(3), (256 + 3, [3, 0, 4, 255, 255, 255, 255, 255]));
    assert_eq!(bench.run(&[cut(4)]), [[9, 0]]);
    assert_eq!(bench.walk(3), (2, [3, 0, 255, 255, 255, 255, 255, 255]));
    assert_eq!(bench.run(&[step(0)]), [[6, 0]]);
    assert_eq!(bench.thread(0)[2..4], LOCKS_9_AND_12);
}
