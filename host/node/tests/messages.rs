//! Messages on the wire.

use node::{Command, Consensus, Correct, Entry, LogIndex, Message, Payload, Raft, Term, Wire};

fn append() -> Message {
    let entry = Entry {
        term: Term(3),
        payload: Payload::Command(Command(vec![7; 200])),
    };
    let noop = Entry {
        term: Term(u64::MAX),
        payload: Payload::Noop,
    };
    Message::AppendEntries {
        term: Term(4),
        prev_index: LogIndex(1),
        prev_term: Term(3),
        entries: vec![entry, noop],
        commit: LogIndex(2),
        round: 128,
    }
}

#[test]
fn raft_messages_come_back() {
    let messages = [
        Message::RequestVote {
            term: Term(1),
            last_index: LogIndex(300),
            last_term: Term(0),
        },
        Message::Vote {
            term: Term(2),
            granted: true,
        },
        append(),
        Message::Appended {
            term: Term(4),
            success: false,
            index: LogIndex(0),
            round: 0,
        },
    ];
    for message in messages {
        assert_eq!(Message::from_bytes(&message.to_bytes()), Some(message));
    }
    assert_eq!(Message::from_bytes(&[9]), None);
}

#[test]
fn entries_are_counted() {
    let vote = Message::Vote {
        term: Term(2),
        granted: true,
    };
    assert_eq!(Raft::<Correct>::entry_count(&vote), 0);
    assert_eq!(Raft::<Correct>::entry_count(&append()), 2);
}
