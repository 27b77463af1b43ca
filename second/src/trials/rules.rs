//! The trials of the machine's rules.

use super::bench::{
    arrival, at, call, cut, exit, record, send, step, Bench, IDLE, ROW, STATE_LENGTH, TREES,
    ZERO_TABLE,
};
use crate::encode::{events_bytes, image_bytes};
use crate::image::Entry;
use crate::statement::{Formula, Operand, Place, Statement};
use crate::{check, fresh, run};

#[test]
fn sums_and_products_are_modulo_65536() {
    let assign = |word, formula, on| {
        record(0, Entry::External, Statement::Assign { to: Place::Word(word), formula, on: at(on) })
    };
    let number = Operand::Number;
    let mut bench = Bench::new(
        &[],
        &[
            assign(0, Formula::Add(number(65_535), number(1)), 1),
            assign(1, Formula::Multiply(number(256), number(257)), 1),
        ],
    );
    assert_eq!(bench.job(&[], 2), [[6, 0]; 2]);
    assert_eq!(bench.state[..4], [0, 0, 0, 1]);
}

#[test]
fn return_in_a_job_with_no_call_traps() {
    let back = Statement::Return { data: Vec::new() };
    let mut bench = Bench::new(&[], &[record(0, Entry::External, back)]);
    assert_eq!(bench.job(&[], 1), [[8, 2]]);
}

#[test]
fn an_absent_register_is_tested_before_all_else() {
    let data = vec![Operand::Kept(Place::Register(1))];
    let back = Statement::Return { data };
    let mut bench = Bench::new(&[], &[record(0, Entry::External, back)]);
    assert_eq!(bench.job(&[5], 1), [[8, 1]]);
    assert_eq!(bench.job(&[5, 6], 1), [[8, 2]]);
}

#[test]
fn the_eighth_call_moves_on_and_the_ninth_traps() {
    let goto = Statement::Goto { on: at(1) };
    let records = [record(0, Entry::External, goto), record(0, Entry::Direct, call(1, 1))];
    let answers = Bench::new(&[], &records).job(&[], 10);
    assert_eq!(answers[..9], [[6, 0]; 9]);
    assert_eq!(answers[9], [8, 3]);
}

#[test]
fn the_eighth_pending_signal_is_kept_and_the_ninth_traps() {
    let records = [record(0, Entry::External, send(1, 0)), exit(1, Entry::Buffered)];
    let mut bench = Bench::new(&[[0, 0], [3, 0]], &records);
    let answers = bench.job(&[], 9);
    assert_eq!(answers[..8], [[6, 0]; 8]);
    assert_eq!(answers[8], [8, 4]);
    assert_eq!(bench.state[TREES..][..3], [1, 3, 8]);
}

#[test]
fn the_sixteenth_arrival_is_taken_and_the_next_is_not() {
    let mut bench = Bench::new(&[], &[exit(0, Entry::External)]);
    let answers = bench.run(&vec![arrival(0, &[9]); 17]);
    assert_eq!(answers[..16], [[1, 0]; 16]);
    assert_eq!(answers[16], [2, 0]);
}

#[test]
fn exit_two_calls_deep_clears_the_thread() {
    let records = [
        record(0, Entry::External, call(1, 0)),
        record(1, Entry::Direct, call(2, 1)),
        exit(2, Entry::Direct),
    ];
    let mut bench = Bench::new(&[[0, 1], [0, 1], [0, 1]], &records);
    assert_eq!(bench.job(&[4, 5], 3), [[6, 0], [6, 0], [7, 0]]);
    assert_eq!(bench.thread(0), IDLE);
    assert_eq!(bench.state[TREES], 0);
}

#[test]
fn transfer_keeps_register_1_and_direct_send_makes_it_absent() {
    let data = || vec![Operand::Number(7)];
    let transfer = Statement::Transfer { signal: at(1), data: data() };
    let send = Statement::SendDirect { signal: at(1), data: data() };
    for (statement, presence, value) in [(transfer, 3, 9), (send, 1, 0)] {
        let records = [record(0, Entry::External, statement), exit(0, Entry::Direct)];
        let mut bench = Bench::new(&[], &records);
        assert_eq!(bench.job(&[8, 9], 1), [[6, 0]]);
        assert_eq!(bench.thread(0)[21..29], [presence, 0, 0, 0, 7, 0, value, 0]);
    }
}

#[test]
fn without_events_the_state_is_unchanged() {
    let mut bench = Bench::new(&[], &[exit(0, Entry::External)]);
    bench.run(&[arrival(0, &[1, 2])]);
    let before = bench.state.clone();
    assert_eq!(bench.run(&[]), Vec::<[u8; 2]>::new());
    assert_eq!(bench.state, before);
}

#[test]
fn whole_list() {
    let mut image = [0; 168];
    image[..15].copy_from_slice(&[2, 0, 3, 1, 1, 0, 0, 0, 2, 3, 0, 0, 1, 7, 0]);
    image[84] = 10;
    let mut events = [[0; 55]; 5];
    events[0][..5].copy_from_slice(&[1, 0, 0, 0, 0]);
    events[1..].iter_mut().for_each(|event| event[0] = 2);
    let (table, mut state, mut answers) = (ZERO_TABLE, [1; STATE_LENGTH], [1; 10]);
    assert_eq!(fresh(&image, &table, &[0; 512], &mut state), 0);
    assert_eq!(run(&image, &table, &mut state, events.as_flattened(), &mut answers), 0);
    assert_eq!(answers, [1, 0, 5, 0, 6, 0, 7, 0, 3, 0]);
    assert_eq!(state[..2], [7, 0]);
}

#[test]
fn image_lengths() {
    let image = |count: usize| image_bytes(&vec![exit(0, Entry::Closed); count]);
    assert_eq!((image(512).len(), check(&image(512), &ZERO_TABLE)), (43_008, 0));
    assert_eq!((image(513).len(), check(&image(513), &ZERO_TABLE)), (43_092, 65_536));
    assert_eq!(check(&[], &ZERO_TABLE), 65_536);
}

#[test]
fn the_first_cause_is_given_and_no_byte_altered() {
    let bench = Bench::new(&[], &[exit(0, Entry::External)]);
    let (mut state, mut answers) = (bench.state.clone(), [5; 3]);
    let mut refused = |table: &[u8], events: &[u8]| {
        let number = run(&bench.image, table, &mut state, events, &mut answers);
        assert!(state == bench.state && answers == [5; 3]);
        number
    };
    let mut bad_kind = bench.table;
    bad_kind[ROW * 15 + 1] = 2;
    let mut bad_second = events_bytes(&[step(0), step(7)]);
    bad_second[55 + 1] = 8;
    assert_eq!(refused(&bad_kind, &[0; 54]), 3 * 65_536 + 15);
    assert_eq!(refused(&bench.table, &[0; 54]), 7 * 65_536);
    assert_eq!(refused(&bench.table, &[0; 55 * 1_025]), 7 * 65_536);
    assert_eq!(refused(&bench.table, &bad_second), 8 * 65_536 + 1);
    assert_eq!(refused(&bench.table, &events_bytes(&[step(0)])), 9 * 65_536);
}

#[test]
fn a_foreign_fd_block_traps_before_its_lock_is_asked() {
    let records =
        [record(0, Entry::External, call(1, 0)), exit(1, Entry::Direct), exit(1, Entry::External)];
    let mut bench = Bench::new(&[[0, 1], [1, 0]], &records);
    bench.run(&[arrival(2, &[]), step(1)]);
    assert_eq!(bench.job(&[], 1), [[8, 5]]);
}

/// Blocks 0 and 1 on threads 0 and 1; a job of each calls the other's block.
fn crossing() -> Bench {
    let records = [
        record(0, Entry::External, call(2, 0)),
        record(1, Entry::External, call(3, 1)),
        record(1, Entry::Direct, Statement::Return { data: Vec::new() }),
        exit(0, Entry::Direct),
    ];
    Bench::new(&[[0, 1], [1, 1]], &records)
}

#[test]
fn a_ring_of_waits_closes_and_a_cut_opens_it() {
    let mut bench = crossing();
    bench.run(&[arrival(0, &[]), arrival(1, &[]), step(0), step(1)]);
    assert_eq!(bench.run(&[step(0), step(1)]), [[4, 1], [4, 0]]);
    assert_eq!(bench.walk(0), (256 + 2, [0, 1, 255, 255, 255, 255, 255, 255]));
    assert_eq!(bench.run(&[cut(1), cut(1), step(0)]), [[9, 0], [10, 0], [6, 0]]);
    assert_eq!(bench.walk(0), (1, [0, 255, 255, 255, 255, 255, 255, 255]));
    assert_eq!(bench.walk(8), (11 * 65_536, [0; 8]));
}

#[test]
fn return_keeps_the_lock() {
    let mut bench = crossing();
    assert_eq!(bench.job(&[], 2), [[6, 0]; 2]);
    assert_eq!(bench.run(&[arrival(1, &[]), step(1)]), [[1, 0], [4, 1]]);
    assert_eq!(bench.walk(1), (2, [1, 0, 255, 255, 255, 255, 255, 255]));
}
