//! The checks: what they remember and what they report.

use super::area::{
    APPLIED_ROWS, Area, COMMAND_BYTES, LEADING, NEXT_APPLY, NOW, RAFT_CHECKS, STATUS, TOTAL,
    command, payload,
};

impl Area {
    /// Counts a violation, and keeps the first 32.
    fn report(&mut self, check: u64, numbers: &[u64]) {
        self.add(TOTAL, 1);
        let table = self.violations();
        if self.rows(table).count() < 32 {
            let mut row = vec![self.words[NOW], check, numbers.len() as u64];
            row.extend(numbers);
            row.resize(8, 0);
            self.append(table, &row);
        }
    }

    /// An entry was applied: in order, and as it was applied first.
    pub fn on_apply(&mut self, slot: u64, index: u64, payload: &[u64]) {
        let next = self.server(slot, NEXT_APPLY);
        if index != self.words[next] {
            self.report(2, &[slot + 1, index, self.words[next]]);
        }
        self.words[next] = index + 1;
        let held = self.words[APPLIED_ROWS];
        if index == held + 1 {
            self.append(self.applied(), payload);
        } else if (1..=held).contains(&index) && self.applied_at(index) != payload {
            self.report(1, &[slot + 1, index]);
        }
    }

    /// The payload that was applied first at an index.
    fn applied_at(&self, index: u64) -> &[u64] {
        let mut rows = self.rows(self.applied());
        rows.nth(index as usize - 1).expect("it was applied")
    }

    /// An entry was written: index and term identify it.
    pub fn on_write(&mut self, slot: u64, index: u64) {
        let place = self.words[self.place(slot, index)].to_vec();
        let (term, payload) = place.split_last().expect("a place has words");
        if payload[0] == 0 {
            return;
        }
        let (table, key) = (self.seen(), [index, *term]);
        let known = self.rows(table).find(|row| row[..2] == key);
        match known.map(|row| row[2..] == *payload) {
            Some(true) => {}
            Some(false) => self.report(3, &[slot + 1, index, *term]),
            None => {
                let before = self.rows(table).filter(|row| row[..2] < key[..]).count();
                self.insert(table, before, &[&key, payload].concat());
            }
        }
    }

    /// A server's status after its input: one leader a term, whose log holds what was applied.
    pub fn on_status(&mut self, slot: u64) {
        let status = self.server(slot, STATUS);
        let [role, term] = [self.words[status + 1], self.words[status + 2]];
        let leading = self.server(slot, LEADING);
        if role != 2 {
            self.words[leading..leading + 2].fill(0);
            return;
        }
        let table = self.leaders();
        let first = self
            .rows(table)
            .find(|row| row[0] == term)
            .map(|row| row[1]);
        match first {
            Some(other) if other != slot + 1 => self.report(0, &[other, slot + 1, term]),
            Some(_) => {}
            None => {
                let before = self.rows(table).filter(|row| row[0] < term).count();
                self.insert(table, before, &[term, slot + 1]);
            }
        }
        if self.words[leading..leading + 2] != [1, term] {
            self.words[leading..leading + 2].copy_from_slice(&[1, term]);
            self.check_leader_completeness(slot, term);
        }
    }

    fn check_leader_completeness(&mut self, slot: u64, term: u64) {
        let held = self.words[APPLIED_ROWS] * self.words[RAFT_CHECKS];
        let missing = (1..=held).find(|index| {
            let place = &self.words[self.place(slot, *index)];
            place[..place.len() - 1] != *self.applied_at(*index)
        });
        if let Some(index) = missing {
            self.report(7, &[slot + 1, term, index]);
        }
    }

    /// Every pair of logs.
    pub fn check_log_matching(&mut self) {
        let servers = self.counts.servers as u64;
        for one in 0..servers {
            for two in one + 1..servers {
                if let Some([term, index, difference]) = self.mismatch(one, two) {
                    self.report(6, &[one + 1, two + 1, term, index, difference]);
                }
            }
        }
    }

    /// The term and index of two entries of one term behind the first difference, and where that is.
    fn mismatch(&self, one: u64, two: u64) -> Option<[u64; 3]> {
        let place = |slot, index| &self.words[self.place(slot, index)];
        let last = |slot| (1..=self.counts.log as u64).rfind(|index| place(slot, *index)[0] != 0);
        let shared = last(one)?.min(last(two)?);
        let difference = (1..=shared).find(|i| place(one, *i) != place(two, *i))?;
        let matches = |index: &u64| {
            let (a, b) = (place(one, *index), place(two, *index));
            a[0] != 0 && b[0] != 0 && a.last() == b.last()
        };
        let index = (difference + 1..=shared).find(matches)?;
        Some([*place(one, index).last()?, index, difference])
    }

    /// Every acknowledged command was applied, by every server.
    pub fn check_durability(&mut self) {
        let replies: Vec<Vec<u64>> = self.rows(self.replies()).map(<[u64]>::to_vec).collect();
        for reply in &replies {
            let (index, client, sequence) = (reply[2], reply[3], reply[4]);
            let bytes = command(client, sequence, self.words[COMMAND_BYTES]);
            let acknowledged = payload(1, &bytes, self.counts.payload_words());
            let place = index.max(1);
            if place > self.words[APPLIED_ROWS] || self.applied_at(place) != acknowledged {
                self.report(4, &[index]);
            }
        }
        let Some(highest) = replies.iter().map(|reply| reply[2]).max() else {
            return;
        };
        for slot in 0..self.counts.servers as u64 {
            let applied = self.words[self.server(slot, NEXT_APPLY)] - 1;
            if applied < highest {
                self.report(4, &[slot + 1, applied, highest]);
            }
        }
    }
}
