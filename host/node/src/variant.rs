//! A Raft that is correct, and four that are not.

/// What a Raft does at the places where a mistake is classic. Each constant is `false` in a
/// correct one.
pub trait Variant {
    /// The vote is not on stable storage.
    const VOTE_NOT_SAVED: bool = false;
    /// Neither term nor vote is on stable storage, so that the term goes back in a crash.
    const TERM_NOT_SAVED: bool = false;
    /// A leader applies an entry when it appends it.
    const APPLIES_EARLY: bool = false;
    /// A follower removes all entries behind the ones it is sent, whether they conflict or not.
    const TRUNCATES_TOO_FAR: bool = false;
}

macro_rules! variants {
    ($($(#[$about:meta])* $name:ident $(: $mistake:ident)?;)*) => {
        $(
            $(#[$about])*
            #[derive(Debug)]
            pub struct $name;

            impl Variant for $name {
                $(const $mistake: bool = true;)?
            }
        )*
    };
}

variants! {
    /// No mistake.
    Correct;
    /// Votes are not persisted: a server votes twice in a term.
    VoteNotSaved: VOTE_NOT_SAVED;
    /// The term goes back to zero in a crash: a server takes part twice in a term.
    TermNotSaved: TERM_NOT_SAVED;
    /// An entry is applied before it is committed.
    AppliesEarly: APPLIES_EARLY;
    /// The log is truncated too far: a message that comes late removes acknowledged entries.
    TruncatesTooFar: TRUNCATES_TOO_FAR;
}
