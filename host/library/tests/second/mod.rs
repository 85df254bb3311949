//! The calls once more, on the words of an area: written from document 01, the reference's source and docs/LAYOUT.md,
//! plain and slow. It works on a copy, so that a call that finds no room has changed nothing.

#![allow(dead_code)] // each test uses a part

mod area;
mod calls;
mod checks;
mod events;
mod inputs;
mod start;

use trace::{Call, Numbers};

/// Makes a call on an area of which question 4 and 5 are answered yes. Answers none for a call that changes no area.
pub fn make(call: &Call, area: &mut [u8], buffer: &mut [u8]) -> Option<Numbers> {
    match call {
        Call::Start {
            settings,
            limits,
            seed,
        } => Some(start::start(area, settings, limits, *seed).into()),
        Call::ChaosSchedule { .. } => None,
        call if call.reads() => None,
        call => Some(calls::make(call, area, buffer)),
    }
}
