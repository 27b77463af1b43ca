//! The trials of what a record of opcode 11 and held signals must be.

use super::bench::{exit, hold, record, Bench, HELD, STATE_LENGTH, ZERO_TABLE};
use crate::encode::image_bytes;
use crate::image::Entry;
use crate::statement::Operand;
use crate::{check, fresh, run};

#[test]
fn opcode_11_has_the_fields_and_rules_of_opcode_6() {
    let image = image_bytes(&[
        record(0, Entry::External, hold(1, vec![Operand::Number(65_535); 25], 0)),
        exit(1, Entry::Buffered),
        exit(1, Entry::External),
        exit(1, Entry::Direct),
        exit(0, Entry::Closed),
    ]);
    let code = |opcode, byte: usize, value| {
        let mut image = image.clone();
        (image[0], image[byte]) = (opcode, value);
        check(&image, &ZERO_TABLE)
    };
    for opcode in [6, 11] {
        assert_eq!((code(opcode, 2, 0), code(opcode, 6, 4)), (0, 0));
        // The operator; labels A and B; the operand count; an operand's kind.
        let label_a = [(4, 2), (4, 3), (4, 4), (4, 5), (5, 1)];
        let label_b = [(6, 1), (6, 5), (7, 1)];
        let others = [(3, 1), (8, 24), (8, 26), (9, 0), (9, 2), (9, 3), (9, 4)];
        for (byte, value) in label_a.into_iter().chain(label_b).chain(others) {
            assert_eq!(code(opcode, byte, value), 4 * 65_536, "byte {byte} is {value}");
        }
    }
    assert_eq!(code(16, 2, 0), 4 * 65_536);
}

#[test]
fn a_state_of_another_length_is_refused() {
    let image = image_bytes(&[exit(0, Entry::External)]);
    for length in [0, 7_929, STATE_LENGTH - 1, STATE_LENGTH + 1] {
        let mut state = vec![1; length];
        assert_eq!(fresh(&image, &ZERO_TABLE, &[0; 512], &mut state), 5 * 65_536);
        assert_eq!(run(&image, &ZERO_TABLE, &mut state, &[], &mut []), 5 * 65_536);
        assert_eq!(state, vec![1; length]);
    }
}

/// What run returns after one byte of a thread's held signals was set, altering
/// no byte. Thread 0 holds two signals of label 1, each with the value 7; the
/// other threads are idle.
fn code(thread: usize, byte: usize, value: u8) -> u32 {
    let records = [
        record(0, Entry::External, hold(1, vec![Operand::Number(7)], 0)),
        exit(1, Entry::Buffered),
        exit(1, Entry::External),
        exit(1, Entry::Direct),
        exit(1, Entry::Closed),
        exit(2, Entry::Buffered),
    ];
    let mut bench = Bench::new(&[], &records);
    bench.job(&[], 2);
    bench.state[512 + 288 * thread + HELD + byte] = value;
    let mut state = bench.state.clone();
    let code = run(&bench.image, &bench.table, &mut state, &[], &mut []);
    assert_eq!(state, bench.state);
    code
}

#[test]
fn a_held_signal_has_entry_2_and_any_values() {
    for (byte, value) in [(1, 5), (4, 255), (53 + 5, 255), (3, 2), (3, 25)] {
        assert_eq!(code(0, byte, value), 0, "byte {byte} is {value}");
    }
    // Labels of entry 3, 1 and 0, and beyond the image.
    for (byte, value) in [(1, 2), (1, 3), (1, 4), (1, 6), (2, 1), (53 + 1, 2), (53 + 1, 6)] {
        assert_eq!(code(0, byte, value), 6 * 65_536, "byte {byte} is {value}");
    }
}

#[test]
fn the_counts_of_held_signals_and_their_values_are_within_limits() {
    // A third signal would have label 0, which is of entry 3.
    for (byte, value) in [(0, 3), (0, 5), (0, 255), (3, 26), (3, 255), (53 + 3, 26)] {
        assert_eq!(code(0, byte, value), 6 * 65_536, "byte {byte} is {value}");
    }
}

#[test]
fn what_is_not_used_of_the_held_signals_is_zero() {
    // By a lower count, by values that are not counted, by signals that are not.
    for (byte, value) in [(0, 0), (0, 1), (3, 0)] {
        assert_eq!(code(0, byte, value), 6 * 65_536, "byte {byte} is {value}");
    }
    for byte in [6, 53, 53 + 6, 2 * 53, 2 * 53 + 1, 2 * 53 + 3, 3 * 53 + 1, 4 * 53] {
        assert_eq!(code(0, byte, 1), 6 * 65_536, "byte {byte} is 1");
    }
}

#[test]
fn an_idle_thread_holds_no_signal() {
    for byte in 0..=4 * 53 {
        assert_eq!((code(1, byte, 0), code(7, byte, 1)), (0, 6 * 65_536), "byte {byte}");
    }
}
