//! What the calls answer. The first field of each is the refusal; where it is not 0, all other
//! fields are. Where something is absent, its flag and the fields behind the flag are 0.

use crate::words::records;

/// An answer to a refused call.
pub trait Refused: Default {
    /// The refusal, and zeros.
    fn refused(refusal: u64) -> Self;
}

records! {
    /// An input that a call opened.
    Input {
        /// What it is (`kinds::input`).
        kind: u64,
        /// The server that gets it.
        server: u64,
        /// Start: incarnation. Message: sender. Timer: timer. Proposal: client. Confirmation: request.
        first: u64,
        /// Start: the node's seed. Message: length. Proposal: sequence.
        second: u64,
        /// Message: entries.
        third: u64,
    }

    /// A call with nothing to tell.
    Done {
        /// The refusal.
        refusal: u64,
    }

    /// A start, a direct call, or an end.
    Opened {
        /// The refusal.
        refusal: u64,
        /// The input that it opened. A direct call that opens none met a stopped server.
        input: Input,
    }

    /// A step.
    Stepped {
        /// The refusal.
        refusal: u64,
        /// 1 where an event was taken, 0 where none was due.
        taken: u64,
        /// The input that it opened.
        input: Input,
    }

    /// A seal.
    Sealed {
        /// The refusal.
        refusal: u64,
        /// What it did (`kinds::seal`).
        outcome: u64,
        /// The owed start that follows a cut.
        input: Input,
    }

    /// A server's status.
    Status {
        /// The refusal.
        refusal: u64,
        /// 1 where the server runs.
        running: u64,
        /// The role (`kinds::role`).
        role: u64,
        /// The term.
        term: u64,
        /// 1 where the server knows a leader.
        hinted: u64,
        /// The leader.
        leader: u64,
        /// The commit index.
        commit: u64,
    }

    /// A server's term and vote.
    HardState {
        /// The refusal.
        refusal: u64,
        /// The term.
        term: u64,
        /// 1 where the server has voted.
        voted: u64,
        /// For whom.
        vote: u64,
    }

    /// The size of a server's log.
    Log {
        /// The refusal.
        refusal: u64,
        /// Indexes that hold an entry.
        count: u64,
        /// The highest of them, or 0.
        last: u64,
        /// Indexes below it that hold none.
        gaps: u64,
    }

    /// An entry of a log.
    Entry {
        /// The refusal.
        refusal: u64,
        /// 1 where there is an entry.
        present: u64,
        /// Its term.
        term: u64,
        /// What it holds (`kinds::payload`).
        kind: u64,
        /// Bytes of its command.
        length: u64,
    }

    /// The leader of the highest term.
    Leader {
        /// The refusal.
        refusal: u64,
        /// 1 where there is one.
        present: u64,
        /// Who it is.
        server: u64,
        /// The term that it leads.
        term: u64,
    }

    /// The highest index that a server has applied since it last started.
    Applied {
        /// The refusal.
        refusal: u64,
        /// The index.
        index: u64,
    }

    /// The first payload that any server applied at an index.
    AppliedEntry {
        /// The refusal.
        refusal: u64,
        /// 1 where there is one.
        present: u64,
        /// What it holds (`kinds::payload`).
        kind: u64,
        /// Bytes of its command.
        length: u64,
    }

    /// The counters of a run.
    Metrics {
        /// The refusal.
        refusal: u64,
        /// Messages sent.
        messages: u64,
        /// Bytes sent.
        bytes: u64,
        /// Entries sent.
        entries: u64,
        /// Entries delivered to a candidate or leader.
        entries_to_leaders: u64,
        /// Syncs that wrote something.
        fsyncs: u64,
        /// Bytes that they wrote.
        storage_bytes: u64,
        /// Commands acknowledged.
        client_replies: u64,
        /// Entries overwritten or truncated.
        discarded: u64,
        /// The largest number of gaps in a log.
        max_log_gaps: u64,
    }

    /// What one server has sent.
    SentBy {
        /// The refusal.
        refusal: u64,
        /// Messages.
        messages: u64,
        /// Bytes.
        bytes: u64,
        /// Entries.
        entries: u64,
    }

    /// A client's reply.
    Reply {
        /// The refusal.
        refusal: u64,
        /// 1 where there is one at this place.
        present: u64,
        /// When its command was first sent.
        sent: u64,
        /// When the reply arrived.
        received: u64,
        /// The index of its command.
        index: u64,
        /// The client that sent the command.
        client: u64,
        /// The command's sequence number.
        sequence: u64,
    }

    /// A leadership confirmation.
    Confirmation {
        /// The refusal.
        refusal: u64,
        /// 1 where there is one at this place.
        present: u64,
        /// The request that it answers.
        request: u64,
        /// 1 where leadership was confirmed, 0 where it was lost.
        confirmed: u64,
        /// The read index.
        read_index: u64,
    }

    /// A violation.
    Violation {
        /// The refusal.
        refusal: u64,
        /// 1 where there is one at this place.
        present: u64,
        /// When it was reported.
        time: u64,
        /// The check that failed, 0 to 7.
        check: u64,
        /// How many numbers its text has.
        count: u64,
        /// The numbers of its text, in order.
        numbers: [u64; 5],
    }

    /// A schedule of faults.
    Drawn {
        /// The refusal.
        refusal: u64,
        /// Entries of its list.
        count: u64,
    }

    /// The run as a whole.
    Run {
        /// The refusal.
        refusal: u64,
        /// The time.
        now: u64,
        /// Events taken.
        events: u64,
        /// The seed.
        seed: u64,
        /// The phase (`kinds::phase`).
        phase: u64,
        /// The server whose input is open, or 0.
        server: u64,
        /// What the open input is (`kinds::input`).
        input: u64,
        /// Events in the queue.
        queued: u64,
        /// Replies that have arrived.
        replies: u64,
        /// Confirmations that have arrived.
        confirmations: u64,
        /// Violations reported, those not kept included.
        violations: u64,
    }

    /// The counts that a run was started with, by which a host sizes its buffers.
    Capacities {
        /// The refusal.
        refusal: u64,
        /// Number of servers.
        servers: u64,
        /// Number of clients.
        clients: u64,
        /// L: log indexes.
        log: u64,
        /// P: bytes of a payload.
        payload: u64,
        /// M: bytes of a message.
        message: u64,
        /// Q: events.
        events: u64,
        /// W: unsynced writes.
        writes: u64,
        /// H: history.
        history: u64,
    }
}

macro_rules! refused {
    ($($name:ident),* $(,)?) => {
        $(impl Refused for $name {
            fn refused(refusal: u64) -> Self {
                #[allow(clippy::needless_update)] // one of them has no other field
                $name { refusal, ..$name::default() }
            }
        })*
    };
}

refused! {
    Done, Opened, Stepped, Sealed, Status, HardState, Log, Entry, Leader, Applied, AppliedEntry,
    Metrics, SentBy, Reply, Confirmation, Violation, Run, Drawn, Capacities,
}
