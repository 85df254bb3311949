//! Traces with fewer of the calls that change nothing.

use crate::{Exchange, Numbers, Trace};

impl Trace {
    /// The trace in which, of the calls that change nothing, reads and refused ones, one in
    /// `still` is kept, and every read that finds an element of a list.
    #[must_use]
    pub fn thinned(mut self, still: usize) -> Self {
        let mut met = 0;
        self.exchanges.retain(|Exchange { call, answer }| {
            let changes_nothing = call.reads() || answer.numbers.refusal() != 0;
            met += usize::from(changes_nothing);
            !changes_nothing || met % still == 0 || finds_element(&answer.numbers)
        });
        self
    }
}

/// Whether a reply, confirmation, violation or applied entry was found; each is read once.
fn finds_element(numbers: &Numbers) -> bool {
    match numbers {
        Numbers::Reply(reply) => reply.present == 1,
        Numbers::Confirmation(confirmation) => confirmation.present == 1,
        Numbers::Violation(violation) => violation.present == 1,
        Numbers::AppliedEntry(entry) => entry.present == 1,
        _ => false,
    }
}
