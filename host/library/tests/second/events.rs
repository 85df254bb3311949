//! Events, faults and clients.

use port::{Input, kinds};

use super::area::{
    Area, BLOCKED, CLIENT_BACKOFF, CLIENT_REPLIES, CLIENT_TIMEOUT, CRASH, DELAY_FACTOR,
    DUPLICATION, ENTRIES_TO_LEADERS, GENERATION, INCARNATION, LOSS, NOW, STATUS, WORKLOAD,
};

impl Area {
    /// What an event does, by its row. Answers the input that it opens.
    pub fn process(&mut self, row: &[u64]) -> Input {
        let numbers = [row[2], row[3], row[4], row[5]];
        let [first, second, third, _] = numbers;
        match row[1] {
            0 if !self.running(first) && self.words[self.server(first, INCARNATION)] == 0 => {
                return self.open_start(first);
            }
            1 => return self.deliver(numbers, row[6], &row[7..]),
            2 => {
                let generation = self.server(first, GENERATION + second as usize);
                if self.words[generation] == third && self.running(first) {
                    return self.opened(first, 2, [0; 3], kinds::input::TIMER, [second, 0, 0]);
                }
            }
            3 => return self.fault(first, second, third),
            4 => self.client_send(first),
            5 if self.running(first) => return self.client_arrive(numbers),
            6 => self.client_redirect(numbers),
            7 if self.words[self.client(first, 2)] == second => self.client_attempt(first),
            8 => self.client_reply(numbers),
            9 if self.waits(first, second) => {
                self.new_target(first);
                self.client_attempt(first);
            }
            _ => {}
        }
        Input::default()
    }

    /// Opens an input, and answers it.
    pub fn opened(
        &mut self,
        slot: u64,
        input: u64,
        key: [u64; 3],
        kind: u64,
        told: [u64; 3],
    ) -> Input {
        self.open(slot, input, key);
        let [first, second, third] = told;
        Input {
            kind,
            server: slot + 1,
            first,
            second,
            third,
        }
    }

    fn deliver(&mut self, numbers: [u64; 4], length: u64, message: &[u64]) -> Input {
        let [from, to, entries, _] = numbers;
        let status = self.server(to - 1, STATUS);
        if self.words[status] == 0 {
            return Input::default();
        }
        if self.words[status + 1] != 0 {
            self.add(ENTRIES_TO_LEADERS, entries);
        }
        let bytes = message.iter().flat_map(|word| word.to_le_bytes());
        self.message = bytes.take(length as usize).collect();
        self.opened(
            to - 1,
            1,
            [0; 3],
            kinds::input::MESSAGE,
            [from, length, entries],
        )
    }

    fn fault(&mut self, kind: u64, first: u64, second: u64) -> Input {
        use kinds::fault;
        let slot = first.wrapping_sub(1);
        match kind {
            fault::CRASH if self.running(slot) => self.stop(slot),
            fault::CRASH_DURING_NEXT_INPUT if self.running(slot) => {
                let crash = self.server(slot, CRASH);
                self.words[crash] = 1;
            }
            fault::RESTART if !self.running(slot) => return self.restart(slot),
            fault::CRASH_LEADER => self.crash_leader(first),
            fault::PARTITION => self.partition(first.to_le_bytes()),
            fault::BLOCK => self.words[BLOCKED] |= link(slot, second - 1),
            fault::UNBLOCK => self.words[BLOCKED] &= !link(slot, second - 1),
            fault::HEAL_LINKS => self.words[BLOCKED] = 0,
            fault::SET_LOSS => self.words[LOSS] = first,
            fault::SET_DUPLICATION => self.words[DUPLICATION] = first,
            fault::SET_DELAY_FACTOR => self.words[DELAY_FACTOR] = first.max(1),
            fault::HEAL_ALL => {
                self.words[LOSS..BLOCKED + 1].copy_from_slice(&[0, 0, 1, 0]);
                self.owed = [2, 0];
                return self.go_on();
            }
            _ => {}
        }
        Input::default()
    }

    /// Stops the leader of the highest term, the last of several, and schedules its restart.
    fn crash_leader(&mut self, downtime: u64) {
        let term = |slot: &u64| self.words[self.server(*slot, STATUS + 2)];
        let leads =
            |slot: &u64| self.running(*slot) && self.words[self.server(*slot, STATUS + 1)] == 2;
        let leader = (0..self.counts.servers as u64)
            .filter(leads)
            .max_by_key(term);
        if let Some(slot) = leader {
            self.stop(slot);
            self.push(downtime, 3, [kinds::fault::RESTART, slot + 1, 0, 0], &[]);
        }
    }

    /// Blocks the links between members of different groups, both ways.
    fn partition(&mut self, groups: [u8; 8]) {
        let members = |group: u8| (0..8).filter(move |slot| group >> slot & 1 == 1);
        for (place, group) in groups.into_iter().enumerate() {
            for other in groups.into_iter().skip(place + 1) {
                for (one, two) in members(group).flat_map(|a| members(other).map(move |b| (a, b))) {
                    self.words[BLOCKED] |= link(one, two) | link(two, one);
                }
            }
        }
    }

    fn client_send(&mut self, client: u64) {
        let row = self.client(client, 0);
        if self.words[row + 3] == 0 {
            let outstanding = [1, self.words[row + 1], self.words[NOW]];
            self.words[row + 3..row + 6].copy_from_slice(&outstanding);
            self.add(row + 1, 1);
            self.client_attempt(client);
        }
    }

    /// The delay is drawn before it is known whether there is anything to send.
    fn client_attempt(&mut self, client: u64) {
        let delay = self.delay();
        let row = self.client(client, 0);
        if self.words[row + 3] == 0 {
            return;
        }
        self.add(row + 2, 1);
        let [target, _, attempt, _, sequence] = [0, 1, 2, 3, 4].map(|i| self.words[row + i]);
        self.push(delay, 5, [target, client, sequence, attempt], &[]);
        self.push(self.words[CLIENT_TIMEOUT], 9, [client, attempt, 0, 0], &[]);
    }

    fn client_arrive(&mut self, numbers: [u64; 4]) -> Input {
        let [slot, client, sequence, attempt] = numbers;
        let (table, key) = (self.pending(slot), [client, sequence]);
        if !self.rows(table).any(|row| row == key) {
            let before = self.rows(table).filter(|row| **row < key[..]).count();
            self.insert(table, before, &key);
        }
        let key = [client, sequence, attempt];
        self.opened(slot, 4, key, kinds::input::PROPOSAL, [client, sequence, 0])
    }

    /// Whether the client waits for the reply to this attempt.
    fn waits(&self, client: u64, attempt: u64) -> bool {
        let row = self.client(client, 0);
        self.words[row + 2] == attempt && self.words[row + 3] == 1
    }

    fn new_target(&mut self, client: u64) {
        let target = self.client(client, 0);
        self.words[target] = self.below(WORKLOAD, self.counts.servers as u64);
    }

    fn client_redirect(&mut self, numbers: [u64; 4]) {
        let [client, attempt, named, leader] = numbers;
        if !self.waits(client, attempt) {
            return;
        }
        if named == 1 && self.is_member(leader) {
            let target = self.client(client, 0);
            self.words[target] = leader - 1;
            self.client_attempt(client);
        } else {
            self.new_target(client);
            self.push(self.words[CLIENT_BACKOFF], 7, [client, attempt, 0, 0], &[]);
        }
    }

    fn client_reply(&mut self, numbers: [u64; 4]) {
        let [client, sequence, index, _] = numbers;
        let row = self.client(client, 0);
        let outstanding = &self.words[row + 3..row + 6];
        if outstanding[..2] != [1, sequence] {
            return;
        }
        let reply = [outstanding[2], self.words[NOW], index, client, sequence];
        self.append(self.replies(), &reply);
        self.add(CLIENT_REPLIES, 1);
        self.words[row + 3..row + 6].fill(0);
        self.add(row + 2, 1);
        self.push(0, 4, [client, 0, 0, 0], &[]);
    }
}

/// The bit of a link, by places.
fn link(from: u64, to: u64) -> u64 {
    1 << (8 * from + to)
}
