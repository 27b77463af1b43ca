//! The trials: what is fixed by numbers is tried with those numbers.

mod bench;
mod decimal;
mod decimal_form;
mod decimal_laws;
pub mod decimal_text;
mod division;
mod division_form;
mod grouped_form;
mod groups;
mod held_form;
mod link;
mod new_trees;
mod record_form;
mod rules;
mod storing;
mod subtraction;
