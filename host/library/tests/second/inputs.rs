//! The open input: how it is opened, synced or cut, and closed.

use library::stream_seed;
use port::{Input, kinds};

use super::area::{
    Area, CRASH, DURABLE, FSYNCS, GENERATION, INCARNATION, LEADING, MAX_LOG_GAPS, NEXT_APPLY,
    PHASE, SEED, STATUS, STORAGE_BYTES,
};

impl Area {
    /// Opens an input at a server's place; a client's proposal has client, sequence number and attempt.
    pub fn open(&mut self, slot: u64, input: u64, key: [u64; 3]) {
        let [client, sequence, attempt] = key;
        let open = [1, slot, input, client, sequence, attempt, 0, 0];
        self.words[PHASE..PHASE + 8].copy_from_slice(&open);
        self.words[PHASE + 8..PHASE + 10].copy_from_slice(&self.owed);
    }

    /// Opens a server's start.
    pub fn open_start(&mut self, slot: u64) -> Input {
        self.open(slot, 0, [0; 3]);
        let (seed, server) = (self.words[SEED], slot + 1);
        let incarnation = self.words[self.server(slot, INCARNATION)];
        Input {
            kind: kinds::input::START,
            server,
            first: incarnation,
            second: stream_seed(seed, 5, server, incarnation).seed,
            third: 0,
        }
    }

    /// A restart: incarnation and generations rise.
    pub fn restart(&mut self, slot: u64) -> Input {
        let incarnation = self.server(slot, INCARNATION);
        self.words[incarnation] += 1;
        self.over |= self.words[incarnation] >> 32 != 0;
        for timer in 0..2 {
            self.add(self.server(slot, GENERATION + timer), 1);
        }
        let next_apply = self.server(slot, NEXT_APPLY);
        self.words[next_apply] = 1;
        self.open_start(slot)
    }

    /// A stop: what is not durable is gone.
    pub fn stop(&mut self, slot: u64) {
        let block = self.server(slot, 0);
        let log = self.counts.log * self.counts.place();
        let words = &mut self.words[block..];
        words.copy_within(DURABLE..DURABLE + 3, 0);
        words.copy_within(64 + log..64 + 2 * log, 64);
        words[STATUS..INCARNATION].fill(0);
        words[CRASH] = 0;
        words[LEADING..LEADING + 2].fill(0);
        self.clear(self.waiting(slot));
        self.clear(self.pending(slot));
    }

    /// Makes the waiting writes durable. Answers whether there were any.
    pub fn sync(&mut self, slot: u64) -> bool {
        let writes: Vec<Vec<u64>> = self.rows(self.waiting(slot)).map(<[u64]>::to_vec).collect();
        if writes.is_empty() {
            return false;
        }
        self.add(FSYNCS, 1);
        for write in &writes {
            self.make_durable(slot, write);
        }
        self.clear(self.waiting(slot));
        for write in writes.iter().filter(|write| write[0] >= 3) {
            self.on_write(slot, write[write.len() - 2]);
        }
        true
    }

    /// Does one write on the durable log, and counts the bytes of its record.
    fn make_durable(&mut self, slot: u64, write: &[u64]) {
        let (row, numbers) = write.split_at(write.len() - 2);
        let [first, second] = [numbers[0], numbers[1]];
        let durable = self.counts.log * self.counts.place();
        let body = match write[0] {
            mark @ 0..2 => {
                let hard_state = self.server(slot, DURABLE);
                self.words[hard_state..hard_state + 3].copy_from_slice(&[first, mark, second]);
                varint(first) + 1 + mark * varint(second)
            }
            2 => {
                for index in first.max(1)..=self.counts.log as u64 {
                    let place = self.place(slot, index);
                    self.words[place.start + durable..place.end + durable].fill(0);
                }
                varint(first)
            }
            mark => {
                let place = self.place(slot, first);
                let entry = [&[mark - 2], &row[1..], &[second]].concat();
                self.words[place.start + durable..place.end + durable].copy_from_slice(&entry);
                let command = mark
                    .checked_sub(4)
                    .map_or(0, |length| varint(length) + length);
                varint(first) + varint(second) + 1 + command
            }
        };
        self.add(STORAGE_BYTES, 4 + 1 + body);
    }

    /// Takes the status' word on gaps: those of the open input's log.
    pub fn raise_gaps(&mut self, slot: u64) {
        let indexes = 1..=self.counts.log as u64;
        let held = indexes.filter(|index| self.words[self.place(slot, *index).start] != 0);
        let held: Vec<u64> = held.collect();
        let gaps = held.last().map_or(0, |last| last - held.len() as u64);
        self.words[MAX_LOG_GAPS] = self.words[MAX_LOG_GAPS].max(gaps);
    }

    /// Closes the input: a client that was refused is redirected, and what is owed goes on.
    pub fn close(&mut self) -> Input {
        let open = self.words[PHASE..PHASE + 10].to_vec();
        self.words[PHASE..PHASE + 10].fill(0);
        let [
            _,
            slot,
            input,
            client,
            sequence,
            attempt,
            verdict,
            leader,
            ..,
        ] = open[..]
        else {
            unreachable!("there are ten words");
        };
        if input == 4 && verdict > 0 {
            self.take_key(slot, client, sequence);
            let delay = self.delay();
            let named = u64::from(verdict == 2);
            self.push(delay, 6, [client, attempt, named, leader], &[]);
        }
        self.go_on()
    }

    /// Opens the next start that is owed.
    pub fn go_on(&mut self) -> Input {
        let [owed, next] = self.owed;
        let servers = self.counts.servers as u64;
        if owed == 1 && next < servers {
            self.owed = [1, next + 1];
            return self.open_start(next);
        }
        if owed == 2 {
            for slot in next..servers {
                let crash = self.server(slot, CRASH);
                self.words[crash] = 0;
                if !self.running(slot) {
                    self.owed = [2, slot + 1];
                    return self.restart(slot);
                }
            }
        }
        self.owed = [0, 0];
        if owed == 1 {
            self.start_clients();
        }
        Input::default()
    }

    /// The first sends of all clients.
    pub fn start_clients(&mut self) {
        for client in 0..self.counts.clients as u64 {
            self.push(0, 4, [client, 0, 0, 0], &[]);
        }
    }

    /// Takes a pending key away. Answers whether it was there.
    pub fn take_key(&mut self, slot: u64, client: u64, sequence: u64) -> bool {
        let table = self.pending(slot);
        let place = self.rows(table).position(|key| key == [client, sequence]);
        if let Some(place) = place {
            self.remove(table, place);
        }
        place.is_some()
    }
}

/// Bytes of a number in the postcard wire format: seven bits a byte.
fn varint(number: u64) -> u64 {
    let mut bytes = 1;
    while bytes < 10 && number >> (7 * bytes) != 0 {
        bytes += 1;
    }
    bytes
}
