//! The crate sflow-parser 0.7.0, as far as its published files are at hand: they are in ../crate, unchanged. The extract lacks this
//! file, models/mod.rs and models/record_counters.rs.

pub mod models;

#[path = "../crate/src/parsers/mod.rs"]
pub mod parsers;
