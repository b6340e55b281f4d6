//! In the place of models/mod.rs: its module lines. The parsers name every type as `models::X` or by its module.

#[path = "../crate/src/models/core.rs"]
pub mod core;
#[path = "../crate/src/models/record_flows.rs"]
pub mod record_flows;
#[path = "record_counters.rs"]
pub mod record_counters;

pub use self::core::*;
