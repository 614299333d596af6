//! A second model of documents 01 and 02, and what compares it with a subject.

pub mod bench;
pub mod compare;
pub mod ledger;
pub mod lists;
pub mod model;
pub mod wrong;
