//! The trials of subtraction, which gives nothing below zero.

use super::bench::at;
use super::storing::{all_store, all_trap, called, of_absent, of_two, the_second_call_traps};
use crate::statement::{Formula, Operand, Place, Statement};

#[test]
fn a_difference_is_exact_down_to_zero() {
    let small = [[0, 0], [1, 0], [1, 1], [7, 6], [7, 7], [256, 255], [1_000, 300]];
    let large = [[32_768, 32_767], [65_535, 0], [65_535, 65_534], [65_535, 65_535]];
    for [p, q] in small.into_iter().chain(large) {
        all_store(&of_two(Formula::Subtract, [p, q]), [p, q], p - q);
    }
}

#[test]
fn below_zero_a_subtraction_traps_and_stores_nothing() {
    let small = [[0, 1], [0, 65_535], [1, 2], [6, 7], [255, 256], [300, 1_000]];
    let large = [[1, 32_769], [32_767, 32_768], [65_534, 65_535]];
    for values in small.into_iter().chain(large) {
        all_trap(&of_two(Formula::Subtract, values), values, 7);
    }
}

#[test]
fn an_absent_register_is_tested_before_below_zero() {
    let values = [0, 65_535];
    all_trap(&of_absent(Formula::Subtract, values), values, 1);
}

#[test]
fn a_job_that_goes_below_zero_ends_as_by_every_trap() {
    let to = Place::Word(16);
    let formula = Formula::Subtract(Operand::Kept(to), Operand::Number(1));
    let mut bench = called(Statement::Assign { to, formula, on: at(3) });
    bench.state[2 * 16] = 1;
    the_second_call_traps(&mut bench, 7);
    assert_eq!(bench.state[2 * 16..][..2], [0, 0]);
}
