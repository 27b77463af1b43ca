//! What the trials of damaged records have in common.

use super::trials::{begun, u16_at};
use super::{damage, Random};
use crate::check;
use std::collections::BTreeSet;
use std::ops::RangeInclusive;

pub const REGISTER_BEYOND: &str = "a register beyond the last";
pub const OTHER_FAULT: &str = "another";

/// Kind and number of each operand of a record, or what is wrong with them by
/// themselves.
pub fn operands(record: &[u8]) -> Result<Vec<(u8, u16)>, &'static str> {
    let count = usize::from(record[8]);
    if count > 25 || record[9 + 3 * count..].iter().any(|&byte| byte != 0) {
        return Err(OTHER_FAULT);
    }
    let operands = record[9..9 + 3 * count].chunks(3);
    operands
        .map(|operand| match (operand[0], u16_at(operand, 1)) {
            (2, 25..) => Err(REGISTER_BEYOND),
            (0 | 4.., _) | (3, 16..) => Err(OTHER_FAULT),
            good => Ok(good),
        })
        .collect()
}

/// The faults that damage makes in single records of these opcodes, each with the
/// opcode, or "none" where it makes none. Check refuses such a record exactly if
/// it has a fault. `fault` is asked of records whose block, entry and label A are
/// right.
pub fn record_faults_met(
    seed: u64,
    opcodes: RangeInclusive<u8>,
    fault: impl Fn(&[u8]) -> Result<(), &'static str>,
) -> BTreeSet<(u8, &'static str)> {
    let random = &mut Random::new(seed);
    let mut faults = BTreeSet::new();
    for whole in (0..300).map(begun) {
        for _ in 0..80 {
            let mut lent = whole.clone();
            damage(random, &mut lent);
            if let Some((label, record)) = changed_record(&whole.image, &lent.image, &opcodes) {
                let fault = fault(record).err();
                faults.insert((record[0], fault.unwrap_or("none")));
                let expected = fault.map_or(0, |_| 4 * 65_536 + label);
                assert_eq!(check(&lent.image, &whole.table), expected);
            }
        }
    }
    faults
}

/// The label and the record that alone differ between the images, if it has one
/// of these opcodes in both, with the same block, entry and label A.
fn changed_record<'a>(
    before: &[u8],
    image: &'a [u8],
    opcodes: &RangeInclusive<u8>,
) -> Option<(u32, &'a [u8])> {
    let records = (0..).zip(before.chunks(84).zip(image.chunks(84)));
    let mut changed = records.filter(|(_, (old, new))| old != new);
    let (label, (old, new)) = changed.next()?;
    let only = changed.next().is_none() && before.len() == image.len();
    let of_opcodes = [old, new].iter().all(|record| opcodes.contains(&record[0]));
    let same = || (&old[1..3], &old[4..6]) == (&new[1..3], &new[4..6]);
    (only && of_opcodes && same()).then_some((label, new))
}
