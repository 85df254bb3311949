//! The calls but a start: questions 6 to 10, and what is done.

use port::kinds::{fault, input, seal};
use port::{Done, Input, Opened, Refused, Sealed, Stepped};
use trace::{Call, Numbers};

use super::area::{
    Area, BLOCKED, COUNT_BYTES, CRASH, DIRECT_SEQ, DISCARDED, DUPLICATION, EVENTS, GENERATION,
    INPUT, LOSS, NAMED, NOW, PHASE, SENT, SENT_BY, SLOT, STATUS, VERDICT, packed, payload,
};

/// The longest duration and the latest time.
const LONGEST: u64 = 1 << 40;
const LATEST: u64 = 1 << 62;

/// A client number that no client has: a direct proposal's.
const DIRECT: u64 = 0xFFFF_FFFF;

/// Makes the call. Where it finds no room, nothing is written.
pub fn make(call: &Call, bytes: &mut [u8], buffer: &mut [u8]) -> Numbers {
    let mut area = Area::of(bytes);
    let refusal = area.refusal(call, buffer.len());
    if refusal != 0 {
        return call.refused(refusal).numbers;
    }
    let numbers = area.act(call);
    if area.over {
        return call.refused(10).numbers;
    }
    area.write_to(bytes);
    buffer[..area.message.len()].copy_from_slice(&area.message);
    numbers
}

impl Area {
    /// Questions 6 to 9.
    fn refusal(&self, call: &Call, buffer: usize) -> u64 {
        let questions = [
            (self.is_in_phase(call), 6),
            (self.names_members(call), 7),
            (self.has_index(call), 8),
            (self.is_in_range(call, buffer), 9),
        ];
        let first = questions.iter().find(|(yes, _)| !yes);
        first.map_or(0, |(_, number)| *number)
    }

    fn is_in_phase(&self, call: &Call) -> bool {
        let phase = self.words[PHASE];
        match call.number() {
            7..=10 => phase == 1,
            11..=16 => phase == 2 && self.words[VERDICT] == 0,
            17 => phase == 2,
            _ => phase == 0,
        }
    }

    fn names_members(&self, call: &Call) -> bool {
        match call {
            Call::Propose { server }
            | Call::FireTimer { server, .. }
            | Call::ConfirmLeadership { server, .. }
            | Call::OutputSend { to: server, .. } => self.is_member(*server),
            Call::Schedule {
                fault,
                first,
                second,
                groups,
                ..
            } => match *fault {
                fault::CRASH..=fault::RESTART => self.is_member(*first),
                fault::PARTITION => !groups
                    .iter()
                    .any(|g| u32::from(*g) >> self.counts.servers != 0),
                fault::BLOCK | fault::UNBLOCK => self.is_member(*first) && self.is_member(*second),
                _ => true,
            },
            _ => true,
        }
    }

    fn has_index(&self, call: &Call) -> bool {
        let last = self.counts.log as u64;
        match call {
            Call::WritePut { index, .. } => (1..=last).contains(index),
            Call::OutputApply { index, .. } => *index <= last,
            _ => true,
        }
    }

    fn is_in_range(&self, call: &Call, buffer: usize) -> bool {
        let fits = |kind: u64, payload: &[u8]| {
            kind == 1 && payload.len() <= self.counts.payload || kind == 0 && payload.is_empty()
        };
        match call {
            Call::Step { deadline } => *deadline <= LATEST && buffer >= self.counts.message,
            Call::FireTimer { timer, .. } | Call::OutputCancelTimer { timer } => *timer <= 1,
            Call::Schedule {
                at,
                fault,
                first,
                groups,
                ..
            } => *at <= LATEST && is_fault(*fault, *first, groups.len()),
            Call::WriteHardState { voted, .. } => *voted <= 1,
            Call::WritePut { kind, payload, .. } | Call::OutputApply { kind, payload, .. } => {
                fits(*kind, payload)
            }
            Call::Seal {
                refused, hinted, ..
            } => *refused == 0 || *refused == 1 && *hinted <= 1 && self.words[INPUT] >= 3,
            Call::OutputSend {
                message, entries, ..
            } => message.len() <= self.counts.message && entries >> 32 == 0,
            Call::OutputSetTimer { timer, after } => *timer <= 1 && *after <= LONGEST,
            Call::End { role, hinted, .. } => *role <= 2 && *hinted <= 1,
            _ => true,
        }
    }

    /// What the call does, as if there were room.
    fn act(&mut self, call: &Call) -> Numbers {
        match call {
            Call::Step { deadline } => return self.step(*deadline).into(),
            Call::Propose { .. } | Call::FireTimer { .. } | Call::ConfirmLeadership { .. } => {
                let input = self.direct(call);
                return Opened { refusal: 0, input }.into();
            }
            Call::Seal {
                refused,
                hinted,
                leader,
            } => return self.seal(*refused, *hinted, *leader).into(),
            Call::End {
                role,
                term,
                hinted,
                leader,
                commit,
            } => {
                let leader = hinted * leader;
                let input = self.end([1, *role, *term, *hinted, leader, *commit]);
                return Opened { refusal: 0, input }.into();
            }
            Call::CheckLogMatching {} => self.check_log_matching(),
            Call::CheckDurability {} => self.check_durability(),
            Call::Schedule { .. } => self.schedule(call),
            Call::WriteHardState { .. } | Call::WritePut { .. } | Call::WriteTruncate { .. } => {
                self.write(call);
            }
            _ => self.output(call),
        }
        Done::refused(0).into()
    }

    fn step(&mut self, deadline: u64) -> Stepped {
        let table = self.queue();
        let due = self
            .rows(table)
            .next()
            .is_some_and(|row| row[0] <= deadline);
        if !due {
            self.words[NOW] = self.words[NOW].max(deadline);
            return Stepped::default();
        }
        let row = self.remove(table, 0);
        self.words[NOW] = row[0];
        self.add(EVENTS, 1);
        Stepped {
            refusal: 0,
            taken: 1,
            input: self.process(&row),
        }
    }

    fn direct(&mut self, call: &Call) -> Input {
        let (server, number, kind, told) = match call {
            Call::Propose { server } => {
                let sequence = self.words[DIRECT_SEQ];
                self.add(DIRECT_SEQ, 1);
                (*server, 3, input::PROPOSAL, [DIRECT, sequence, 0])
            }
            Call::FireTimer { server, timer } => (*server, 2, input::TIMER, [*timer, 0, 0]),
            Call::ConfirmLeadership { server, request } => {
                (*server, 5, input::CONFIRMATION, [*request, 0, 0])
            }
            _ => unreachable!("a direct call"),
        };
        if self.running(server - 1) {
            self.opened(server - 1, number, [0; 3], kind, told)
        } else {
            Input::default()
        }
    }

    fn schedule(&mut self, call: &Call) {
        let Call::Schedule {
            at,
            fault,
            first,
            second,
            groups,
        } = call
        else {
            unreachable!("a schedule");
        };
        let (first, second) = match *fault {
            fault::PARTITION => (packed(groups, 1)[0], 0),
            fault::BLOCK | fault::UNBLOCK => (*first, *second),
            fault::HEAL_LINKS | fault::HEAL_ALL => (0, 0),
            _ => (*first, 0),
        };
        let time = self.words[NOW].max(*at);
        self.push_at(time, 3, [*fault, first, second, 0], &[]);
    }

    fn write(&mut self, call: &Call) {
        let slot = self.words[SLOT];
        let words = self.counts.payload_words();
        let discarded = self.server(slot, DISCARDED);
        let row = match call {
            Call::WriteHardState { term, voted, vote } => {
                let vote = voted * vote;
                let hard_state = self.server(slot, 0);
                self.words[hard_state..hard_state + 3].copy_from_slice(&[*term, *voted, vote]);
                [&[*voted], &vec![0; words][..], &[*term, vote]].concat()
            }
            Call::WritePut {
                index,
                term,
                kind,
                payload: bytes,
            } => {
                let (place, payload) = (self.place(slot, *index), payload(*kind, bytes, words));
                let old = &self.words[place.start..place.end - 1];
                let replaced = old[0] != 0 && old != payload;
                self.add(discarded, replaced.into());
                self.words[place].copy_from_slice(&[&payload[..], &[*term]].concat());
                [&[payload[0] + 2], &payload[1..], &[*index, *term]].concat()
            }
            Call::WriteTruncate { from } => {
                for index in (*from).max(1)..=self.counts.log as u64 {
                    let place = self.place(slot, index);
                    self.add(discarded, (self.words[place.start] != 0).into());
                    self.words[place].fill(0);
                }
                [&[2], &vec![0; words][..], &[*from, 0]].concat()
            }
            _ => unreachable!("a write"),
        };
        self.append(self.waiting(slot), &row);
    }

    fn seal(&mut self, refused: u64, hinted: u64, leader: u64) -> Sealed {
        let slot = self.words[SLOT];
        self.words[PHASE] = 2;
        if refused == 1 {
            self.words[VERDICT] = 1 + hinted;
            self.words[NAMED] = hinted * leader;
        }
        let (outcome, input) = if self.words[self.server(slot, CRASH)] == 1 {
            self.stop(slot);
            (seal::CUT, self.close())
        } else if self.sync(slot) {
            (seal::SYNCED, Input::default())
        } else {
            (seal::NOTHING, Input::default())
        };
        Sealed {
            refusal: 0,
            outcome,
            input,
        }
    }

    fn end(&mut self, status: [u64; 6]) -> Input {
        let slot = self.words[SLOT];
        let word = self.server(slot, STATUS);
        self.words[word..word + 6].copy_from_slice(&status);
        self.on_status(slot);
        self.raise_gaps(slot);
        self.close()
    }

    fn output(&mut self, call: &Call) {
        let slot = self.words[SLOT];
        match call {
            Call::OutputSend {
                to,
                message,
                entries,
            } => self.send(slot + 1, *to, message, *entries),
            Call::OutputSetTimer { timer, after } => {
                let generation = self.raise_generation(slot, *timer);
                self.push(*after, 2, [slot, *timer, generation, 0], &[]);
            }
            Call::OutputCancelTimer { timer } => {
                self.raise_generation(slot, *timer);
            }
            Call::OutputApply {
                index,
                kind,
                payload,
            } => self.apply(slot, *index, *kind, payload),
            Call::OutputConfirmed {
                request,
                read_index,
            } => self.append(self.confirmations(), &[*request, 1, *read_index]),
            Call::OutputLost { request } => self.append(self.confirmations(), &[*request, 0, 0]),
            _ => unreachable!("an output"),
        }
    }

    fn raise_generation(&mut self, slot: u64, timer: u64) -> u64 {
        let generation = self.server(slot, GENERATION + timer as usize);
        self.add(generation, 1);
        self.words[generation]
    }

    /// A copy is pushed before the original.
    fn send(&mut self, from: u64, to: u64, message: &[u8], entries: u64) {
        let bytes = self.words[COUNT_BYTES] * message.len() as u64;
        for (place, number) in [1, bytes, entries].into_iter().enumerate() {
            self.add(SENT + place, number);
            self.add(SENT_BY + 3 * (from as usize - 1) + place, number);
        }
        let blocked = self.words[BLOCKED] >> (8 * (from - 1) + to - 1) & 1 == 1;
        if blocked || self.chance(LOSS) {
            return;
        }
        let delay = self.delay();
        let copy = self.chance(DUPLICATION).then(|| self.delay());
        for delay in copy.into_iter().chain([delay]) {
            self.push(delay, 1, [from, to, entries, 0], message);
        }
    }

    /// The command of a pending key is answered.
    fn apply(&mut self, slot: u64, index: u64, kind: u64, bytes: &[u8]) {
        let words = payload(kind, bytes, self.counts.payload_words());
        self.on_apply(slot, index, &words);
        let Some((client, rest)) = bytes.split_first_chunk() else {
            return;
        };
        let Some((sequence, _)) = rest.split_first_chunk() else {
            return;
        };
        let (client, sequence) = (u32::from_le_bytes(*client), u64::from_le_bytes(*sequence));
        if self.take_key(slot, client.into(), sequence) {
            let delay = self.delay();
            self.push(delay, 8, [client.into(), sequence, index, 0], &[]);
        }
    }
}

/// Whether it is a fault, with its first number and its groups within limits.
fn is_fault(kind: u64, first: u64, groups: usize) -> bool {
    match kind {
        fault::CRASH_LEADER => first <= LONGEST,
        fault::PARTITION => groups <= 8,
        fault::SET_LOSS | fault::SET_DUPLICATION => first >> 32 == 0,
        fault::SET_DELAY_FACTOR => first <= 65_536,
        _ => kind <= fault::HEAL_ALL,
    }
}
