//! A run as the port's calls with the answers they must give.
//!
//! A [`Trace`] is a list of [`Exchange`]s: a [`Call`] and its [`Answer`]. [`replay`] makes the
//! calls at a port and compares; [`Trace::to_words`] is the form in which a trace is kept in a
//! file; [`Trace::under`] is the same run with other limits.

mod antt;
mod call;
mod form;
mod refusals;
mod replay;
mod shown;
mod tables;
mod thinned;

pub use antt::runs_to_antt;
pub use call::{Answer, Call, Numbers};
pub use form::BadForm;
pub use refusals::with_refusals;
pub use replay::{Difference, Options, What, replay};
pub use shown::call_name;
pub use tables::Tables;

/// A call and what it must answer.
#[derive(Debug, Clone, PartialEq, Eq, Hash)]
pub struct Exchange {
    /// The call.
    pub call: Call,
    /// Its answer.
    pub answer: Answer,
}

/// A run: its calls in order, the first one a start.
#[derive(Debug, Clone, Default, PartialEq, Eq, Hash)]
pub struct Trace {
    /// The calls with their answers.
    pub exchanges: Vec<Exchange>,
}

impl Trace {
    /// Adds a call with its answer.
    pub fn push(&mut self, call: Call, answer: impl Into<Answer>) {
        let answer = answer.into();
        self.exchanges.push(Exchange { call, answer });
    }
}
