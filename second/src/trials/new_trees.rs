//! The trials of signals that found new trees.

use super::bench::{
    arrival, at, call, cut, exit, hold, record, send, step, Bench, HELD, IDLE, TREES,
};
use crate::image::{Entry, Record};
use crate::statement::{Operand, Place, Statement};

fn hold_number(signal: u16, number: u16, on: u16) -> Statement {
    hold(signal, vec![Operand::Number(number)], on)
}

fn inside(statement: Statement) -> Record {
    record(0, Entry::Closed, statement)
}

/// Blocks 0, 1 and 2 on threads 0, 1 and 2.
const ROWS: [[u8; 2]; 3] = [[0, 1], [1, 1], [2, 1]];

/// A job of thread 0 carries out `first`, holds signals of blocks 1, 2 and 1
/// with the values 7, 8 and 9, and carries out `last`. Labels 5 and 6 are the
/// signals.
fn holding_three(first: Statement, last: Statement) -> Bench {
    let records = [
        record(0, Entry::External, first),
        inside(hold_number(5, 7, 2)),
        inside(hold_number(6, 8, 3)),
        inside(hold_number(5, 9, 4)),
        inside(last),
        exit(1, Entry::Buffered),
        exit(2, Entry::Buffered),
    ];
    Bench::new(&ROWS, &records)
}

/// Of each live tree the thread, the number of pending signals, and of the
/// oldest the label, the number of values and the first value.
fn listed(bench: &Bench) -> Vec<[u8; 7]> {
    let trees = bench.state[TREES + 1..].chunks(426);
    let fronts = trees.map(|tree| tree[..7].try_into().unwrap());
    fronts.take(bench.state[TREES].into()).collect()
}

/// As listed: a tree of an arrival at label 0, the own tree of a job that sent
/// one signal of label 6, and the trees that `holding_three` founds.
const OTHER: [u8; 7] = [0, 1, 0, 0, 0, 0, 0];
const OWN: [u8; 7] = [2, 1, 6, 0, 0, 0, 0];
const NEW: [[u8; 7]; 3] = [[1, 1, 5, 0, 1, 7, 0], [2, 1, 6, 0, 1, 8, 0], [1, 1, 5, 0, 1, 9, 0]];

#[test]
fn the_fourth_held_signal_is_kept_and_the_fifth_traps() {
    let records = [record(0, Entry::External, hold(1, Vec::new(), 0)), exit(1, Entry::Buffered)];
    let mut bench = Bench::new(&ROWS, &records);
    assert_eq!(bench.job(&[], 4), [[6, 0]; 4]);
    assert_eq!(bench.thread(0)[HELD], 4);
    assert_eq!(bench.run(&[step(0)]), [[8, 6]]);
    assert_eq!(bench.thread(0), IDLE);
    assert_eq!(bench.state[TREES], 0);
}

#[test]
fn an_absent_register_is_tested_before_a_fifth_held_signal() {
    let data = vec![Operand::Kept(Place::Register(1))];
    let mut records: Vec<Record> = (1..5).map(|on| inside(hold(5, Vec::new(), on))).collect();
    records[0].entry = Entry::External;
    records.extend([inside(hold(5, data, 0)), exit(1, Entry::Buffered)]);
    let mut bench = Bench::new(&ROWS, &records);
    assert_eq!(bench.job(&[3], 5)[4], [8, 1]);
    assert_eq!(bench.job(&[3, 4], 5)[4], [8, 6]);
}

#[test]
fn eight_pending_signals_do_not_keep_a_job_from_holding_more() {
    let mut records: Vec<Record> = (1..9).map(|on| inside(send(9, on))).collect();
    records[0].entry = Entry::External;
    records.extend([inside(hold(9, Vec::new(), 8)), exit(1, Entry::Buffered)]);
    let mut bench = Bench::new(&ROWS, &records);
    let answers = bench.job(&[], 8 + 5);
    assert_eq!(answers[..12], [[6, 0]; 12]);
    assert_eq!(answers[12], [8, 6]);
    assert_eq!(bench.state[TREES..][..3], [1, 1, 8]);
}

#[test]
fn a_held_signal_changes_the_label_and_the_end_of_the_thread_record_only() {
    let data = vec![Operand::Number(258), Operand::Kept(Place::Register(1))];
    let records = [
        record(0, Entry::External, hold(2, data, 1)),
        exit(0, Entry::Closed),
        exit(1, Entry::Buffered),
    ];
    let mut bench = Bench::new(&ROWS, &records);
    bench.job(&[3, 4], 0);
    let mut expected = bench.state.clone();
    let label_and_held = &mut expected[512..][..288];
    label_and_held[0] = 1;
    label_and_held[HELD..][..8].copy_from_slice(&[1, 2, 0, 2, 2, 1, 4, 0]);
    assert_eq!(bench.run(&[step(0)]), [[6, 0]]);
    assert_eq!(bench.state, expected);
}

#[test]
fn a_job_holds_its_signals_wherever_it_goes() {
    let data = Vec::new;
    let records = [
        record(0, Entry::External, hold_number(6, 7, 1)),
        inside(call(5, 2)),
        inside(Statement::SendDirect { signal: at(3), data: data() }),
        record(0, Entry::Direct, Statement::Transfer { signal: at(4), data: data() }),
        exit(0, Entry::Direct),
        record(1, Entry::Direct, Statement::Return { data: data() }),
        exit(2, Entry::Buffered),
    ];
    let mut bench = Bench::new(&ROWS, &records);
    bench.job(&[], 0);
    for _ in 0..5 {
        assert_eq!(bench.run(&[step(0)]), [[6, 0]]);
        assert_eq!(bench.thread(0)[HELD..][..7], [1, 6, 0, 1, 7, 0, 0]);
    }
    assert_eq!(bench.run(&[step(0)]), [[7, 0]]);
    assert_eq!(listed(&bench), [[2, 1, 6, 0, 1, 7, 0]]);
}

#[test]
fn exit_settles_its_own_tree_and_then_appends_in_order_while_there_is_room() {
    let (alone, pending) = (Statement::Skip { on: at(1) }, send(6, 1));
    for (first, own, others, lost) in [
        (&alone, None, 0, 0),
        (&pending, Some(OWN), 0, 0),
        (&alone, None, 13, 0),
        (&pending, Some(OWN), 12, 0),
        (&alone, None, 14, 1),
        (&pending, Some(OWN), 14, 2),
        (&alone, None, 15, 2),
        (&pending, Some(OWN), 15, 3),
    ] {
        let mut bench = holding_three(first.clone(), Statement::Exit);
        bench.run(&vec![arrival(0, &[]); 1 + others]);
        let answers = bench.run(&[(); 6].map(|_| step(0)));
        assert_eq!(answers[5], [7, lost]);
        let mut expected = vec![OTHER; others];
        expected.extend(own);
        expected.extend(&NEW[..3 - usize::from(lost)]);
        assert_eq!(listed(&bench), expected);
        assert_eq!(bench.thread(0), IDLE);
    }
}

#[test]
fn a_trap_and_a_cut_drop_all_held_signals() {
    let trap = Statement::Return { data: Vec::new() };
    for (end, answer) in [(step(0), [8, 2]), (cut(0), [9, 0])] {
        let mut bench = holding_three(send(6, 1), trap.clone());
        bench.job(&[], 4);
        assert_eq!(bench.thread(0)[HELD], 3);
        assert_eq!(bench.run(&[end]), [answer]);
        assert_eq!(listed(&bench), [OWN]);
        assert_eq!(bench.thread(0), IDLE);
    }
}

#[test]
fn jobs_one_by_one_lose_the_same_signals() {
    // A job of block 0 and one of block 1 each hold three signals of block 2.
    let mut records = Vec::new();
    for (block, first) in [(0, 0), (1, 4)] {
        for label in first..first + 3 {
            let statement = hold_number(8, label, label + 1);
            records.push(record(block, Entry::External, statement));
        }
        records.push(exit(block, Entry::Closed));
    }
    records.push(exit(2, Entry::Buffered));
    let mut bench = Bench::new(&ROWS, &records);
    let mut events = vec![arrival(4, &[]), arrival(0, &[]), step(1)];
    events.extend(vec![arrival(0, &[]); 13]);
    events.extend([0, 0, 1, 0, 1, 1, 0, 1, 0].map(step));
    let answers = bench.run_both_orders(&events);
    assert_eq!((answers[23], answers[24]), ([7, 1], [7, 2]));
}
