//! The same values on both sides: the reference's types and the judge's.

/// Functions that make the values of one side those of the other.
macro_rules! same {
    ($from:ident, $to:ident) => {
        pub(crate) fn id(id: $from::NodeId) -> $to::NodeId {
            $to::NodeId(id.0)
        }

        pub(crate) fn index(index: $from::LogIndex) -> $to::LogIndex {
            $to::LogIndex(index.0)
        }

        pub(crate) fn request(request: $from::RequestId) -> $to::RequestId {
            $to::RequestId(request.0)
        }

        pub(crate) fn command(command: $from::Command) -> $to::Command {
            $to::Command(command.0)
        }

        pub(crate) fn payload(payload: $from::Payload) -> $to::Payload {
            match payload {
                $from::Payload::Noop => $to::Payload::Noop,
                $from::Payload::Command(held) => $to::Payload::Command(command(held)),
            }
        }

        pub(crate) fn entry(entry: $from::Entry) -> $to::Entry {
            $to::Entry {
                term: $to::Term(entry.term.0),
                payload: payload(entry.payload),
            }
        }

        pub(crate) fn hard_state(state: $from::HardState) -> $to::HardState {
            $to::HardState {
                term: $to::Term(state.term.0),
                voted_for: state.voted_for.map(id),
            }
        }

        pub(crate) fn timer(timer: $from::Timer) -> $to::Timer {
            match timer {
                $from::Timer::Election => $to::Timer::Election,
                $from::Timer::Heartbeat => $to::Timer::Heartbeat,
            }
        }

        pub(crate) fn not_leader(refusal: $from::NotLeader) -> $to::NotLeader {
            $to::NotLeader {
                leader: refusal.leader.map(id),
            }
        }

        pub(crate) fn status(status: $from::Status) -> $to::Status {
            $to::Status {
                role: match status.role {
                    $from::Role::Follower => $to::Role::Follower,
                    $from::Role::Candidate => $to::Role::Candidate,
                    $from::Role::Leader => $to::Role::Leader,
                },
                term: $to::Term(status.term.0),
                leader: status.leader.map(id),
                commit_index: index(status.commit_index),
            }
        }

        pub(crate) fn config(config: &$from::Config) -> $to::Config {
            $to::Config {
                heartbeat_interval: config.heartbeat_interval,
                election_timeout_min: config.election_timeout_min,
                election_timeout_max: config.election_timeout_max,
                max_entries_per_message: config.max_entries_per_message,
                max_entries_in_flight: config.max_entries_in_flight,
            }
        }

        /// An output, with its message made by `carried`.
        pub(crate) fn output<A, B>(
            output: $from::Output<A>,
            carried: impl Fn(A) -> B,
        ) -> $to::Output<B> {
            match output {
                $from::Output::Send { to, message } => $to::Output::Send {
                    to: id(to),
                    message: carried(message),
                },
                $from::Output::SetTimer { timer: set, after } => $to::Output::SetTimer {
                    timer: timer(set),
                    after,
                },
                $from::Output::CancelTimer { timer: set } => {
                    $to::Output::CancelTimer { timer: timer(set) }
                }
                $from::Output::Apply {
                    index: at,
                    payload: held,
                } => $to::Output::Apply {
                    index: index(at),
                    payload: payload(held),
                },
                $from::Output::LeadershipConfirmed {
                    request: asked,
                    read_index,
                } => $to::Output::LeadershipConfirmed {
                    request: request(asked),
                    read_index: index(read_index),
                },
                $from::Output::LeadershipLost { request: asked } => $to::Output::LeadershipLost {
                    request: request(asked),
                },
            }
        }
    };
}

/// The reference's values of the judge's.
pub(crate) mod to_reference {
    same!(node, consensus);
}

/// The judge's values of the reference's.
pub(crate) mod to_judge {
    same!(consensus, node);
}
