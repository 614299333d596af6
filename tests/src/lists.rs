//! Lists for the comparison: what they are made of, and what writes them by chance, by search and by
//! tables.

pub mod all_orders;
pub mod command_codes;
pub mod composer;
pub mod every_access;
pub mod every_order;
pub mod guided;
pub mod hex;
pub mod kinds_of_state;
pub mod likely_accesses;
pub mod likely_arguments;
pub mod likely_poll_calls;
pub mod pieces;
pub mod random_numbers;
pub mod random_racks;
pub mod scenarios;
pub mod stands_for;
pub mod tables;
