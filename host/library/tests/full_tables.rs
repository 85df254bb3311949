//! Question 10: each table that a call can fill and each counter that it can raise is filled to its last place, and one
//! more is refused and changes nothing.

#![cfg(feature = "linked")]

mod full;
mod host;
mod layout;
mod second;
