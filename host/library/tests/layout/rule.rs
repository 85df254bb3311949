//! The ranges by name, so that a test can tell which of them it has met.

/// Kept, or the first range that is not.
pub type Judged = Result<(), Rule>;

/// Declares the ranges.
macro_rules! rules {
    ($($name:ident,)*) => {
        /// A range of docs/LAYOUT.md that an area does not keep.
        #[derive(Debug, Clone, Copy, PartialEq, Eq, PartialOrd, Ord)]
        pub enum Rule {
            $($name,)*
        }

        impl Rule {
            /// Every range.
            pub const ALL: &[Rule] = &[$(Rule::$name,)*];
        }
    };
}

rules! {
    // The two lengths, question 4's.
    ShorterThanHeader, ShorterThanFormula,
    // Counts and offsets.
    Servers, Clients, LogIndexes, Payload, Message, Events, Writes, History,
    BlocksBegin, BlockBytes, QueueBegins, SeenBegins, LeadersBegin, RepliesBegin,
    ConfirmationsBegin, AppliedBegins, ClientsBegin, ClientsEnd, AreaBytes,
    // Settings.
    HeartbeatInterval, ElectionTimeoutMin, ElectionTimeoutMax, EntriesPerMessage, EntriesInFlight,
    OneWayDelay, CommandBytes, ClientTimeout, ClientBackoff, CountBytes, RaftChecks, StartSpread,
    // The network, what servers sent.
    Loss, Duplication, DelayFactor, Links, Senders,
    // The open input.
    Phase, ClosedInput, Slot, Input, InputClient, InputSequence, InputAttempt, Verdict,
    VerdictOfInput, VerdictLeader, Owed, Next, NextOfNothing,
    // Counts of rows, and what the header does not use.
    QueueRows, SeenRows, LeadersRows, RepliesRows, ConfirmationsRows, AppliedRows, ViolationsRows,
    HeaderUnused,
    // Violations.
    ViolationCheck, ViolationCount, ViolationNumbers, ViolationsUnused,
    // A server's numbers.
    VoteFlag, Vote, DurableVoteFlag, DurableVote, WaitingRows, StatusFlag, NoStatus, Role,
    LeaderFlag, Leader, Incarnation, CrashFlag, NextApply, PendingRows, LeadingFlag, LedTerm,
    BlockUnused,
    // Its logs, its waiting writes, its pending keys.
    LogMark, LogBytes, NoEntry, WaitingMark, WaitingBytes, WaitingIndex, WaitingSecond,
    WaitingUnused, PendingClient, PendingOrder, PendingUnused,
    // Events.
    EventKind, EventOrder, EventPlace, EventServer, EventEntries, EventTimer, EventClient,
    EventFlag, EventLeader, EventIndex, EventNumbers, FaultKind, FaultServer, FaultDowntime,
    FaultGroups, FaultRate, FaultFactor, MessageLength, MessageOfOther, MessageBytes, QueueUnused,
    // The other tables.
    SeenIndex, SeenMark, SeenBytes, SeenOrder, SeenUnused, LeadersServer, LeadersOrder,
    LeadersUnused, ReplyIndex, ReplyClient, RepliesUnused, ConfirmationFlag, ConfirmationIndex,
    ConfirmationsUnused, AppliedMark, AppliedBytes, AppliedUnused, ClientTarget, ClientFlag,
    ClientOutstanding, ClientUnused, Tail,
}

impl Rule {
    /// The refusal of an area that does not keep it.
    pub fn refusal(self) -> u64 {
        match self {
            Rule::ShorterThanHeader | Rule::ShorterThanFormula => 4,
            _ => 5,
        }
    }
}

/// Kept where the answer is yes.
pub fn ask(yes: bool, rule: Rule) -> Judged {
    yes.then_some(()).ok_or(rule)
}

/// Kept where the number lies between the two.
pub fn within(number: u64, low: u64, high: u64, rule: Rule) -> Judged {
    ask((low..=high).contains(&number), rule)
}

/// Kept where it is 0 or 1.
pub fn flag(number: u64, rule: Rule) -> Judged {
    ask(number <= 1, rule)
}

/// Kept where the value beside a flag is 0, or the flag is not.
pub fn present(flag: u64, value: u64, rule: Rule) -> Judged {
    ask(flag != 0 || value == 0, rule)
}
