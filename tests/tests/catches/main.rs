//! The comparison and the ledgers must catch wrong machines, and be quiet about the right one.

mod any_memory;
mod any_order;
mod drivers;
mod either_order;
mod end_marks;
mod findings;
mod machine;
mod parallel_polls;
mod polls_in_memory;
mod registers;
mod runs;
mod second_requests;
mod secondaries;
mod subjects;
