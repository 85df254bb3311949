//! The calls as values, and their answers.

use crate::shown::Shown as _;

use port::{
    Applied, AppliedEntry, Capacities, Chaos, Confirmation, Done, Drawn, ENTRY, Entry, HardState,
    Input, Leader, Limits, Log, Metrics, Opened, Port, Refused, Reply, Run, Sealed, SentBy,
    Settings, Status, Stepped, Violation, Words, kinds,
};

/// Declares the calls: number, name, arguments, and the kind of answer.
macro_rules! calls {
    ($($(#[$about:meta])* $number:literal $name:ident { $($field:ident: $kind:ty),* } -> $answer:ident;)*) => {
        /// A call with its arguments. Lent buffers are the replay's own.
        #[derive(Debug, Clone, PartialEq, Eq, Hash)]
        pub enum Call {
            $(
                $(#[$about])*
                #[allow(missing_docs)]
                $name { $($field: $kind),* },
            )*
        }

        /// The calls' numbers and names, in order.
        pub(crate) const NAMES: &[(u64, &str)] = &[$(($number, stringify!($name))),*];

        impl Call {
            /// The arguments by name, for people.
            pub(crate) fn arguments(&self) -> Vec<(&'static str, String)> {
                match self {
                    $(Call::$name { $($field),* } => vec![$((stringify!($field), $field.shown())),*],)*
                }
            }

            /// The call's number in the file form.
            pub fn number(&self) -> u64 {
                match self {
                    $(Call::$name { .. } => $number,)*
                }
            }

            /// Appends the arguments.
            pub(crate) fn put(&self, words: &mut Vec<u64>) {
                match self {
                    $(Call::$name { $($field),* } => {
                        let _ = &words;
                        $($field.put(words);)*
                    })*
                }
            }

            /// Takes the arguments of the call with this number.
            pub(crate) fn take(number: u64, words: &mut &[u64]) -> Option<Self> {
                let _ = &words;
                match number {
                    $($number => Some(Call::$name { $($field: Words::take(words)?),* }),)*
                    _ => None,
                }
            }

            fn refused_numbers(&self, refusal: u64) -> Numbers {
                match self {
                    $(Call::$name { .. } => <$answer as Refused>::refused(refusal).into(),)*
                }
            }

            /// Takes an answer to this call.
            pub(crate) fn take_answer(&self, words: &mut &[u64]) -> Option<Answer> {
                match self {
                    $(Call::$name { .. } => {
                        let numbers = <$answer as Words>::take(words)?;
                        Some(Answer { numbers: numbers.into(), bytes: Words::take(words)? })
                    })*
                }
            }
        }
    };
}

calls! {
    1 Start { settings: Box<Settings>, limits: Box<Limits>, seed: u64 } -> Opened;
    2 Step { deadline: u64 } -> Stepped;
    3 Propose { server: u64 } -> Opened;
    4 FireTimer { server: u64, timer: u64 } -> Opened;
    5 ConfirmLeadership { server: u64, request: u64 } -> Opened;
    6 Schedule { at: u64, fault: u64, first: u64, second: u64, groups: Vec<u8> } -> Done;
    7 WriteHardState { term: u64, voted: u64, vote: u64 } -> Done;
    8 WritePut { index: u64, term: u64, kind: u64, payload: Vec<u8> } -> Done;
    9 WriteTruncate { from: u64 } -> Done;
    10 Seal { refused: u64, hinted: u64, leader: u64 } -> Sealed;
    11 OutputSend { to: u64, message: Vec<u8>, entries: u64 } -> Done;
    12 OutputSetTimer { timer: u64, after: u64 } -> Done;
    13 OutputCancelTimer { timer: u64 } -> Done;
    14 OutputApply { index: u64, kind: u64, payload: Vec<u8> } -> Done;
    15 OutputConfirmed { request: u64, read_index: u64 } -> Done;
    16 OutputLost { request: u64 } -> Done;
    17 End { role: u64, term: u64, hinted: u64, leader: u64, commit: u64 } -> Opened;
    18 CheckLogMatching {} -> Done;
    19 CheckDurability {} -> Done;
    20 ReadStatus { server: u64 } -> Status;
    21 ReadHardState { server: u64 } -> HardState;
    22 ReadLog { server: u64 } -> Log;
    23 ReadEntry { server: u64, index: u64 } -> Entry;
    24 ReadLeader {} -> Leader;
    25 ReadApplied { server: u64 } -> Applied;
    26 ReadAppliedEntry { index: u64 } -> AppliedEntry;
    27 ReadMetrics {} -> Metrics;
    28 ReadSentBy { server: u64 } -> SentBy;
    29 ReadReply { place: u64 } -> Reply;
    30 ReadConfirmation { place: u64 } -> Confirmation;
    31 ReadViolation { place: u64 } -> Violation;
    32 ReadRun {} -> Run;
    33 ChaosSchedule { servers: Vec<u8>, chaos: Chaos, generator: u64, length: u64 } -> Drawn;
    34 ReadSettings {} -> Capacities;
}

impl Call {
    /// The answer where this call is refused: nothing that was lent changes.
    pub fn refused(&self, refusal: u64) -> Answer {
        let bytes = match self {
            Call::ChaosSchedule { generator, .. } => generator.to_le_bytes().to_vec(),
            _ => Vec::new(),
        };
        let numbers = self.refused_numbers(refusal);
        Answer { numbers, bytes }
    }

    /// Whether the call only reads.
    pub fn reads(&self) -> bool {
        matches!(self.number(), 20..=32 | 34)
    }
}

/// An answer: the numbers, and the bytes that the call wrote to the lent buffer. Of a schedule:
/// the eight bytes of the generator's state, and the list.
#[derive(Debug, Clone, PartialEq, Eq, Hash)]
pub struct Answer {
    /// The numbers.
    pub numbers: Numbers,
    /// The bytes.
    pub bytes: Vec<u8>,
}

/// Declares the kinds of answers.
macro_rules! numbers {
    ($($name:ident),* $(,)?) => {
        /// The numbers of an answer, by the kind of call.
        #[derive(Debug, Clone, Copy, PartialEq, Eq, Hash)]
        pub enum Numbers {
            $(#[allow(missing_docs)] $name($name),)*
        }

        $(impl From<$name> for Numbers {
            fn from(numbers: $name) -> Self {
                Numbers::$name(numbers)
            }
        })*

        impl Numbers {
            fn put(&self, words: &mut Vec<u64>) {
                match self {
                    $(Numbers::$name(numbers) => numbers.put(words),)*
                }
            }

            /// The numbers in order, the refusal first.
            pub fn to_words(&self) -> Vec<u64> {
                let mut words = Vec::new();
                self.put(&mut words);
                words
            }

            /// The refusal.
            pub fn refusal(&self) -> u64 {
                match self {
                    $(Numbers::$name(numbers) => numbers.refusal,)*
                }
            }
        }
    };
}

numbers! {
    Done, Opened, Stepped, Sealed, Status, HardState, Log, Entry, Leader, Applied, AppliedEntry,
    Metrics, SentBy, Reply, Confirmation, Violation, Run, Drawn, Capacities,
}

impl<N: Into<Numbers>> From<N> for Answer {
    fn from(numbers: N) -> Self {
        (numbers, Vec::new()).into()
    }
}

impl<N: Into<Numbers>> From<(N, Vec<u8>)> for Answer {
    fn from((numbers, bytes): (N, Vec<u8>)) -> Self {
        let numbers = numbers.into();
        Answer { numbers, bytes }
    }
}

impl Answer {
    /// Appends the words.
    pub(crate) fn put(&self, words: &mut Vec<u64>) {
        self.numbers.put(words);
        self.bytes.put(words);
    }

    /// How many bytes of the lent buffer or list the numbers say that the call wrote.
    pub fn written(&self) -> usize {
        let written = match self.numbers {
            Numbers::Stepped(Stepped {
                input:
                    Input {
                        kind: kinds::input::MESSAGE,
                        second,
                        ..
                    },
                ..
            }) => second,
            Numbers::Entry(Entry { length, .. })
            | Numbers::AppliedEntry(AppliedEntry { length, .. }) => length,
            Numbers::Drawn(Drawn { count, .. }) => count.saturating_mul(ENTRY as u64),
            _ => 0,
        };
        usize::try_from(written).unwrap_or(usize::MAX)
    }
}

impl Call {
    /// Makes the call. `buffer` is what is lent where the call takes a buffer or a list.
    pub fn make(&self, port: &mut impl Port, area: &mut [u8], buffer: &mut [u8]) -> Answer {
        let mut state = match self {
            Call::ChaosSchedule { generator, .. } => *generator,
            _ => 0,
        };
        let numbers = self.numbers(port, area, buffer, &mut state);
        let bytes = match self {
            Call::ChaosSchedule { .. } => state.to_le_bytes().to_vec(),
            _ => Vec::new(),
        };
        let mut answer = Answer { numbers, bytes };
        let written = answer.written().min(buffer.len());
        answer.bytes.extend_from_slice(&buffer[..written]);
        answer
    }

    fn numbers(
        &self,
        port: &mut impl Port,
        area: &mut [u8],
        buffer: &mut [u8],
        generator: &mut u64,
    ) -> Numbers {
        match self {
            Call::Start {
                settings,
                limits,
                seed,
            } => port.start(area, settings, limits, *seed).into(),
            Call::Step { deadline } => port.step(area, *deadline, buffer).into(),
            Call::Propose { server } => port.propose(area, *server).into(),
            Call::FireTimer { server, timer } => port.fire_timer(area, *server, *timer).into(),
            Call::ConfirmLeadership { server, request } => {
                port.confirm_leadership(area, *server, *request).into()
            }
            Call::Schedule {
                at,
                fault,
                first,
                second,
                groups,
            } => port
                .schedule(area, *at, *fault, *first, *second, groups)
                .into(),
            Call::WriteHardState { term, voted, vote } => {
                port.write_hard_state(area, *term, *voted, *vote).into()
            }
            Call::WritePut {
                index,
                term,
                kind,
                payload,
            } => port.write_put(area, *index, *term, *kind, payload).into(),
            Call::WriteTruncate { from } => port.write_truncate(area, *from).into(),
            Call::Seal {
                refused,
                hinted,
                leader,
            } => port.seal(area, *refused, *hinted, *leader).into(),
            Call::OutputSend {
                to,
                message,
                entries,
            } => port.output_send(area, *to, message, *entries).into(),
            Call::OutputSetTimer { timer, after } => {
                port.output_set_timer(area, *timer, *after).into()
            }
            Call::OutputCancelTimer { timer } => port.output_cancel_timer(area, *timer).into(),
            Call::OutputApply {
                index,
                kind,
                payload,
            } => port.output_apply(area, *index, *kind, payload).into(),
            Call::OutputConfirmed {
                request,
                read_index,
            } => port.output_confirmed(area, *request, *read_index).into(),
            Call::OutputLost { request } => port.output_lost(area, *request).into(),
            Call::End {
                role,
                term,
                hinted,
                leader,
                commit,
            } => port
                .end(area, *role, *term, *hinted, *leader, *commit)
                .into(),
            Call::CheckLogMatching {} => port.check_log_matching(area).into(),
            Call::CheckDurability {} => port.check_durability(area).into(),
            Call::ReadStatus { server } => port.read_status(area, *server).into(),
            Call::ReadHardState { server } => port.read_hard_state(area, *server).into(),
            Call::ReadLog { server } => port.read_log(area, *server).into(),
            Call::ReadEntry { server, index } => {
                port.read_entry(area, *server, *index, buffer).into()
            }
            Call::ReadLeader {} => port.read_leader(area).into(),
            Call::ReadApplied { server } => port.read_applied(area, *server).into(),
            Call::ReadAppliedEntry { index } => {
                port.read_applied_entry(area, *index, buffer).into()
            }
            Call::ReadMetrics {} => port.read_metrics(area).into(),
            Call::ReadSentBy { server } => port.read_sent_by(area, *server).into(),
            Call::ReadReply { place } => port.read_reply(area, *place).into(),
            Call::ReadConfirmation { place } => port.read_confirmation(area, *place).into(),
            Call::ReadViolation { place } => port.read_violation(area, *place).into(),
            Call::ReadRun {} => port.read_run(area).into(),
            Call::ReadSettings {} => port.read_settings(area).into(),
            Call::ChaosSchedule { servers, chaos, .. } => port
                .chaos_schedule(servers, chaos, generator, buffer)
                .into(),
        }
    }
}
