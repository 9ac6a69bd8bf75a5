//! An independent model of the registers, written from the specification and not from the proved code: replicas, clients,
//! viewing clients, messages, cards, digests and withdrawal orders, what a script of calls prints, all short runs, and the judge of
//! a replica's log. The comparisons in tests/ and the bench rest on it.
pub mod asker;
pub mod card;
pub mod client;
pub mod lms;
#[allow(dead_code)] // tests/logs.rs and tests/example_log.rs alone ask for it
pub mod log;
pub mod message;
pub mod order;
pub mod random;
pub mod replica;
pub mod script;
pub mod sha256;
#[allow(dead_code)] // tests/short_runs.rs alone asks for them
pub mod short_runs;
pub mod viewer;
