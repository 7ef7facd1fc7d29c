//! What several tests use.

pub mod chance;
pub mod costed;
pub mod ended;
pub mod lot;
pub mod maps;
