//! The reference's event queue, with a note of each push and take.
//!
//! The simulation's own event type is private to it. What can be told of an event from here is
//! its time, its push number, and its kind: the number of its variant, in the order of
//! declaration.

use std::cell::RefCell;

use crate::SimTime;
use crate::plain_queue;

/// What happened to the queue.
#[derive(Debug, Clone, Copy, PartialEq, Eq)]
pub enum Note {
    /// An event went in.
    Pushed(Event),
    /// An event came out.
    Taken(Event),
}

/// What is known of an event.
#[derive(Debug, Clone, Copy, PartialEq, Eq)]
pub struct Event {
    /// How many events went in before it.
    pub number: u64,
    /// The number of its variant.
    pub kind: u64,
    /// When it is due.
    pub time: SimTime,
    /// How many events the queue holds now.
    pub held: u64,
}

thread_local! {
    static NOTES: RefCell<Vec<Note>> = const { RefCell::new(Vec::new()) };
}

/// Takes the notes made on this thread since the last call.
pub fn take_notes() -> Vec<Note> {
    NOTES.take()
}

fn note(note: Note) {
    NOTES.with_borrow_mut(|notes| notes.push(note));
}

/// The number of an enum value's variant.
fn variant<E>(value: &E) -> u64 {
    let text = format!("{:?}", std::mem::discriminant(value));
    let digits = text.trim_matches(|c: char| !c.is_ascii_digit());
    digits.parse().expect("a discriminant shows its number")
}

/// The queue that the simulation uses.
pub(crate) struct EventQueue<E> {
    inner: plain_queue::EventQueue<(u64, E)>,
    pushed: u64,
    held: u64,
}

impl<E> Default for EventQueue<E> {
    fn default() -> Self {
        EventQueue {
            inner: plain_queue::EventQueue::default(),
            pushed: 0,
            held: 0,
        }
    }
}

impl<E> EventQueue<E> {
    pub(crate) fn push(&mut self, time: SimTime, event: E) {
        let number = self.pushed;
        self.pushed += 1;
        self.held += 1;
        note(Note::Pushed(Event {
            number,
            kind: variant(&event),
            time,
            held: self.held,
        }));
        self.inner.push(time, (number, event));
    }

    pub(crate) fn pop(&mut self) -> Option<(SimTime, E)> {
        let (time, (number, event)) = self.inner.pop()?;
        self.held -= 1;
        note(Note::Taken(Event {
            number,
            kind: variant(&event),
            time,
            held: self.held,
        }));
        Some((time, event))
    }

    pub(crate) fn peek_time(&self) -> Option<SimTime> {
        self.inner.peek_time()
    }
}
