//! The laws of packed decimals.

use super::decimal_text;
use crate::decimal::{add, pack, unpack};
use std::collections::BTreeSet;

/// All packed numbers, each with its number.
fn packed_numbers() -> Vec<(u16, u16)> {
    let numbered = |packed| Some((packed, decimal_text::unpacked(packed)?));
    (0..=u16::MAX).filter_map(numbered).collect()
}

#[test]
fn unpack_undoes_pack_on_0_to_9999() {
    for number in 0..=9_999 {
        assert_eq!(pack(number).and_then(unpack), Some(number));
        assert_eq!(pack(number), decimal_text::packed(number));
    }
    assert!((10_000..=u16::MAX).all(|number| pack(number).is_none()));
}

#[test]
fn pack_undoes_unpack_on_packed_numbers() {
    let all = packed_numbers();
    assert_eq!(all.len(), 10_000);
    for (packed, number) in all {
        assert_eq!(unpack(packed), Some(number));
        assert_eq!(pack(number), Some(packed));
    }
    let unpacked = (0..=u16::MAX).filter(|&value| unpack(value).is_some());
    assert_eq!(unpacked.count(), 10_000);
}

/// For every p and those q that have no digit but 0, 1, 4, 5, 8 and 9.
#[test]
fn a_sum_unpacked_is_the_sum_of_the_unpacked_modulo_10000() {
    let all = packed_numbers();
    let few = |packed: u16| format!("{packed:x}").chars().all(|digit| "014589".contains(digit));
    let (mut pairs, mut carries) = (0, BTreeSet::new());
    for &(q, number_q) in all.iter().filter(|(packed, _)| few(*packed)) {
        for &(p, number_p) in &all {
            let sum = add(p, q);
            assert_eq!(sum.and_then(unpack), Some((number_p + number_q) % 10_000));
            assert_eq!(add(q, p), sum);
            pairs += 1;
            carries.insert(
                [10, 100, 1_000, 10_000].map(|unit| number_p % unit + number_q % unit >= unit),
            );
        }
    }
    assert_eq!((pairs, carries.len()), (10_000 * 6 * 6 * 6 * 6, 16));
}

#[test]
fn what_is_not_packed_is_not_added() {
    let faulty = (0..=u16::MAX).filter(|&value| decimal_text::unpacked(value).is_none());
    let mut count = 0;
    for faulty in faulty {
        for packed in [0, 1, 0x1234, 0x9999] {
            assert_eq!((add(faulty, packed), add(packed, faulty)), (None, None));
        }
        count += 1;
    }
    assert_eq!(count, 65_536 - 10_000);
}
