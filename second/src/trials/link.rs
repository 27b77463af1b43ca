//! The trials of linking two guests.

use super::bench::{
    arrival, at, call, cut, exit, hold, record, step, Bench, HELD, IDLE, ROW, STATE_LENGTH, TREES,
    ZERO_TABLE,
};
use crate::encode::{events_bytes, image_bytes};
use crate::image::Entry;
use crate::statement::{Operand, Statement};
use crate::{check, link, relocated_events, relocated_state};

/// An EXIT record in each of these blocks.
fn exits(blocks: &[u8]) -> Vec<u8> {
    let records: Vec<_> = blocks.iter().map(|&block| exit(block, Entry::External)).collect();
    image_bytes(&records)
}

/// The number and the place with which link refuses, altering no byte of an
/// output of this length.
fn refused(first: &[u8], second: &[u8], table: &[u8], length: usize) -> (u32, u32) {
    let mut out = vec![7; length];
    let code = link(first, second, table, &mut out);
    assert!(code != 0 && out == vec![7; length]);
    (code / 65_536, code % 65_536)
}

fn linked(first: &[u8], second: &[u8]) -> Vec<u8> {
    let mut out = vec![7; first.len() + second.len()];
    assert_eq!(link(first, second, &ZERO_TABLE, &mut out), 0);
    assert_eq!(check(&out, &ZERO_TABLE), 0);
    out
}

/// The image with opcode 0 at this label.
fn faulty(mut image: Vec<u8>, label: usize) -> Vec<u8> {
    image[84 * label] = 0;
    image
}

#[test]
fn the_causes_are_given_in_their_order() {
    let (first, second) = (exits(&[0; 256]), exits(&[0; 257]));
    let (bad_first, bad_second) = (faulty(first.clone(), 200), faulty(second.clone(), 100));
    let (table, mut bad_table) = (ZERO_TABLE, ZERO_TABLE);
    (bad_table[ROW * 5 + 2], bad_table[ROW * 9 + 1]) = (16, 2);
    // Every cause after the one given still applies.
    assert_eq!(refused(&bad_first[1..], &bad_second[1..], &bad_table[1..], 1), (1, 0));
    assert_eq!(refused(&bad_first[1..], &bad_second, &bad_table[1..], 1), (1, 0));
    assert_eq!(refused(&bad_first, &bad_second[1..], &bad_table[1..], 1), (1, 0));
    assert_eq!(refused(&bad_first, &bad_second, &bad_table[1..], 1), (2, 0));
    assert_eq!(refused(&bad_first, &bad_second, &bad_table, 1), (3, 5));
    assert_eq!(refused(&bad_first, &bad_second, &table, 1), (4, 200));
    assert_eq!(refused(&first, &bad_second, &table, 1), (4, 100));
    assert_eq!(refused(&first, &second, &table, 1), (13, 0));
    assert_eq!(refused(&first, &exits(&[1; 257]), &table, 1), (14, 0));
    assert_eq!(refused(&first, &exits(&[1; 256]), &table, 1), (15, 0));
}

#[test]
fn each_image_has_1_to_512_whole_records() {
    let good = exits(&[0]);
    for bad in [&[][..], &good[1..], &[good.clone(), vec![0]].concat(), &exits(&[1; 513])] {
        let length = good.len() + bad.len();
        assert_eq!(refused(bad, &good, &ZERO_TABLE, length), (1, 0));
        assert_eq!(refused(&good, bad, &ZERO_TABLE, length), (1, 0));
    }
}

#[test]
fn a_label_of_the_other_image_is_no_label() {
    let goto = |on| image_bytes(&[record(0, Entry::Closed, Statement::Goto { on: at(on) })]);
    assert_eq!(refused(&goto(1), &exits(&[1]), &ZERO_TABLE, 168), (4, 0));
    assert_eq!(refused(&exits(&[1]), &goto(1), &ZERO_TABLE, 168), (4, 0));
}

#[test]
fn a_common_block_is_found_at_any_record() {
    let pairs = [([0, 2, 4], [1, 3, 2]), ([0, 4, 2], [2, 1, 3]), ([0, 2, 4], [1, 2, 3])];
    for (first, second) in pairs {
        assert_eq!(refused(&exits(&first), &exits(&second), &ZERO_TABLE, 504), (13, 0));
    }
    linked(&exits(&[0, 2, 4]), &exits(&[1, 3, 5]));
}

#[test]
fn records_result_up_to_512() {
    for (first, second) in [(1, 511), (256, 256), (511, 1)] {
        let (first, second) = (exits(&vec![14; first]), exits(&vec![15; second]));
        assert_eq!(linked(&first, &second).len(), 43_008);
        let longer = [&second[..], &second[..84]].concat();
        assert_eq!(refused(&first, &longer, &ZERO_TABLE, 43_092), (14, 0));
    }
}

#[test]
fn the_output_has_their_exact_length() {
    for length in [0, 84, 167, 169, 252] {
        assert_eq!(refused(&exits(&[0]), &exits(&[1]), &ZERO_TABLE, length), (15, 0));
    }
}

#[test]
fn used_labels_are_shifted_and_unused_ones_stay_zero() {
    let record = |front: &[u8]| [front, &[0; 84][front.len()..]].concat();
    let label = |image: &[u8], byte| u16::from_le_bytes([image[byte], image[byte + 1]]);
    // Each opcode in block 1, with labels A and B on the linked image.
    let records: [(&[u8], [u16; 2]); 15] = [
        (&[1, 1, 1, 0, 4, 0], [304, 0]),
        (&[2, 1, 2, 1, 9, 0, 0, 0, 2, 2, 0, 0, 1, 7, 0], [309, 0]),
        (&[3, 1, 0, 0, 0, 0], [300, 0]),
        (&[4, 1, 0, 2, 0, 0, 5, 0, 2, 1, 1, 0, 3, 1, 0], [300, 305]),
        (&[5, 1, 0, 0, 0, 0], [300, 0]),
        (&[6, 1, 0, 0, 1, 0, 0, 0], [301, 300]),
        (&[7, 1, 0, 0, 0, 0, 3, 0, 1, 1, 255, 255], [300, 303]),
        (&[8, 1, 3, 0, 0, 0, 0, 0, 1, 2, 24, 0], [0, 0]),
        (&[9, 1, 0, 0, 0, 0], [300, 0]),
        (&[10, 1], [0, 0]),
        (&[11, 1, 0, 0, 1, 0, 10, 0, 1, 1, 9, 0], [301, 310]),
        (&[12, 1, 0, 0, 11, 0, 0, 0, 4, 2, 3, 0, 3, 3, 0, 1, 7, 0, 3, 3, 0], [311, 0]),
        (&[13, 1, 0, 0, 12, 0, 0, 0, 2, 2, 3, 0, 1, 7, 0], [312, 0]),
        (&[14, 1, 0, 0, 13, 0, 0, 0, 2, 3, 3, 0, 3, 3, 0], [313, 0]),
        (&[15, 1, 0, 0, 14, 0, 0, 0, 3, 2, 3, 0, 3, 4, 0, 1, 7, 0], [314, 0]),
    ];
    let first = exits(&[0; 300]);
    let second: Vec<u8> = records.iter().flat_map(|(front, _)| record(front)).collect();
    let image = linked(&first, &second);
    assert_eq!(image[..first.len()], first);
    let parts = image[first.len()..].chunks(84).zip(second.chunks(84));
    for ((part, alone), (_, labels)) in parts.zip(records) {
        assert_eq!([label(part, 4), label(part, 6)], labels);
        assert_eq!((&part[..4], &part[8..]), (&alone[..4], &alone[8..]));
    }
}

#[test]
fn the_second_guest_has_its_labels_shifted_in_events_and_state() {
    let send = Statement::SendBuffered { signal: at(3), data: Vec::new(), on: at(1) };
    let records = [
        record(1, Entry::External, send),
        record(1, Entry::Closed, hold(3, vec![Operand::Number(6)], 2)),
        record(1, Entry::Closed, call(4, 0)),
        exit(2, Entry::Buffered),
        exit(2, Entry::Direct),
    ];
    let mut alone = Bench::new(&[[0, 0], [3, 1], [4, 1]], &records);
    let mut guest = Bench::on(linked(&exits(&[0; 300]), &alone.image), alone.table);
    let list = |label| [vec![arrival(label, &[9]); 2], vec![step(3); 4], vec![cut(4)]].concat();
    let events = relocated_events(&alone.image, &alone.table, &events_bytes(&list(0)), 300);
    assert_eq!(events, Ok(events_bytes(&list(300))));
    assert_eq!(alone.run(&list(0)), guest.run(&list(300)));
    assert_eq!(
        relocated_state(&alone.image, &alone.table, &alone.state, 300),
        Ok(guest.state.clone())
    );
    // Thread 3 runs at label 304 with locks 1 and 2, return label 300 and a held
    // signal of label 303.
    assert_eq!(guest.thread(3)[..9], [48, 1, 6, 0, 1, 44, 1, 0, 0]);
    assert_eq!(guest.thread(3)[HELD..][..7], [1, 47, 1, 1, 6, 0, 0]);
    assert_eq!(guest.thread(4), IDLE);
    // Its tree has the signal of label 303 pending; one of label 300 waits behind.
    assert_eq!(guest.state[TREES..][..7], [2, 3, 1, 47, 1, 0, 0]);
    assert_eq!(guest.state[TREES + 1 + 426..][..7], [3, 1, 44, 1, 1, 9, 0]);
}

#[test]
fn guests_may_have_a_lock_in_common() {
    // Block 1 of thread 0 is the first guest's, block 2 of thread 3 the second's.
    let records = [record(2, Entry::External, Statement::Goto { on: at(0) })];
    let mut alone = Bench::new(&[[0, 0], [0, 1], [3, 1]], &records).grouped(9, &[1, 2]);
    let mut both = Bench::on(linked(&exits(&[1]), &alone.image), alone.table);
    let list = |label| [arrival(label, &[]), step(3), step(3)];
    assert_eq!(alone.run(&list(0)), [[1, 0], [5, 0], [6, 0]]);
    assert_eq!(both.run(&list(1)), [[1, 0], [5, 0], [6, 0]]);
    let relocated = relocated_state(&alone.image, &alone.table, &alone.state, 1);
    assert_eq!(relocated, Ok(both.state.clone()));
    // A job of the first guest waits for one of the second.
    assert_eq!(both.run(&[arrival(0, &[]), step(0)]), [[1, 0], [4, 9]]);
    assert_eq!(both.walk(0), (2, [0, 3, 255, 255, 255, 255, 255, 255]));
}

#[test]
fn what_run_refuses_of_a_guest_is_not_relocated() {
    let bench = Bench::new(&[], &[exit(0, Entry::External)]);
    let beyond = events_bytes(&[step(0), arrival(1, &[])]);
    assert_eq!(relocated_events(&bench.image, &bench.table, &beyond, 5), Err(8 * 65_536 + 1));
    assert_eq!(relocated_state(&bench.image, &bench.table, &[0; STATE_LENGTH], 5), Err(6 * 65_536));
}
