//! The second model, held against answers worked out from documents 01 and 02.

mod bound;
mod drivers;
mod either_order;
mod end_marks;
mod examples;
mod machine;
mod parallel_poll;
mod refusals;
mod registers;
mod script_lines;
mod second_requests;
mod secondaries;
mod turns;
