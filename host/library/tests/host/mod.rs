//! What the tests share: lent memory that is watched, areas in mid-run, and calls with hostile arguments.

#![allow(dead_code, unused_imports)] // each test uses a part

mod areas;
mod hostile;
mod lent;

pub use areas::{recorded, visit};
pub use hostile::Hostile;
pub use lent::{Lent, OLD, PAST};
