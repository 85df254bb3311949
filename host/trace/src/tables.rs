//! The same run under larger tables.

use port::Limits;

use crate::{Call, Exchange, Numbers, Trace};

/// Bytes of the longest list of a schedule that a trace may lend.
const LONGEST_LIST: u64 = 1 << 24;

/// How large the tables of a run are.
#[derive(Debug, Clone, Copy, PartialEq, Eq, Default)]
pub enum Tables {
    /// As small as the run allows: every table is exactly full once.
    #[default]
    Smallest,
    /// Twice the smallest, up to document 01's ends.
    Doubled,
    /// Document 01's ends.
    Largest,
}

impl Tables {
    /// Every size.
    pub const ALL: [Tables; 3] = [Tables::Smallest, Tables::Doubled, Tables::Largest];

    /// Its name.
    pub fn name(self) -> &'static str {
        match self {
            Tables::Smallest => "smallest",
            Tables::Doubled => "doubled",
            Tables::Largest => "largest",
        }
    }

    /// The limits of a run whose smallest these are.
    pub fn limits(self, smallest: &Limits) -> Limits {
        let at_most = |most: u64, least: u64| match self {
            Tables::Smallest => least,
            Tables::Doubled => (2 * least).min(most),
            Tables::Largest => most,
        };
        Limits {
            log: at_most(1_024, smallest.log),
            payload: at_most(256, smallest.payload),
            message: at_most(4_096, smallest.message),
            events: at_most(65_536, smallest.events),
            writes: at_most(65_536, smallest.writes),
            history: at_most(65_536, smallest.history),
        }
    }
}

impl Trace {
    /// The run under other tables. Its calls were accepted under the smallest limits, so they are
    /// under larger ones, with the same answers: limits decide refusals alone, and what the reading
    /// of the settings tells. Refused calls are to be put in afterwards
    /// ([`with_refusals`](crate::with_refusals)): which calls are refused with 4, 8, 9 and 10
    /// depends on the limits.
    #[must_use]
    pub fn under(mut self, tables: Tables) -> Self {
        let mut started = Limits::default();
        for Exchange { call, answer } in &mut self.exchanges {
            match (call, &mut answer.numbers) {
                (Call::Start { limits, .. }, _) => {
                    **limits = tables.limits(limits);
                    started = **limits;
                }
                (_, Numbers::Capacities(told)) => {
                    told.log = started.log;
                    told.payload = started.payload;
                    told.message = started.message;
                    told.events = started.events;
                    told.writes = started.writes;
                    told.history = started.history;
                }
                _ => {}
            }
        }
        self
    }

    /// The first call that lends more memory than document 01 has use for: only in a file that is no
    /// run.
    pub fn unlendable(&self) -> Option<usize> {
        let greatest = Tables::Largest.limits(&Limits::default());
        let fits = |limits: &Limits| {
            limits.log <= greatest.log
                && limits.payload <= greatest.payload
                && limits.message <= greatest.message
                && limits.events.max(limits.writes) <= greatest.events
                && limits.history <= greatest.history
        };
        let lends = |Exchange { call, answer }: &Exchange| match call {
            Call::Start {
                settings, limits, ..
            } if answer.numbers.refusal() == 0 => {
                settings.servers <= 8 && settings.clients <= 64 && fits(limits)
            }
            Call::ChaosSchedule { length, .. } => *length <= LONGEST_LIST,
            _ => true,
        };
        self.exchanges.iter().position(|exchange| !lends(exchange))
    }
}
