//! The proved simulator for a Rust host: the calls of the static library of the crate `api_c` of Rattle.
//!
//! Without the feature `linked` there is nothing here: the static library is then not at hand.

#[cfg(feature = "linked")]
mod exported;

#[cfg(feature = "linked")]
pub use exported::{Length, Library, Schedule, Seed, area_length, chaos_schedule, stream_seed};
