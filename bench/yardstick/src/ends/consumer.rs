//! A consumer: its subscriptions, and what each shows.
use std::collections::BTreeMap;
use std::rc::Rc;

use super::item::{Item, Key};
use super::producer::{Wanted, apply};
use super::{Mark, Message, Part};

pub(super) struct Held {
    pub(super) number: u64,
    pub(super) view: BTreeMap<Key, Rc<Item>>,
    /// The number, the start and the round of what is shown.
    pub(super) shows: (u64, u64, u64),
    is_fetched: bool,
    start: u64,
    round: u64,
    buffered: Vec<Part>,
}

pub(super) struct Consumer {
    pub(super) name: String,
    next: u64,
    pub(super) held: BTreeMap<String, Held>,
}

/// What a consumer says of a message.
pub(super) enum Outcome {
    Noted,
    Unknown,
    OldStart,
    Gap(u64, usize),
    Repeat,
    Ready,
    Buffered(u64, usize),
    Applied(u64),
}

impl Consumer {
    pub(super) fn new(name: &str) -> Consumer {
        Consumer { name: name.to_owned(), next: 1, held: BTreeMap::new() }
    }

    /// Holds a subscription under the next number.
    pub(super) fn ask(&mut self, wanted: &Wanted) -> u64 {
        let number = self.next;
        self.next += 1;
        let before = self.held.remove(&*wanted.identifier);
        let (view, shows) = before.map_or((BTreeMap::new(), (0, 0, 0)), |held| (held.view, held.shows));
        let held = Held { number, view, shows, is_fetched: wanted.is_fetched, start: 0, round: 0, buffered: Vec::new() };
        self.held.insert(wanted.identifier.to_string(), held);
        number
    }

    /// What a message is to it, and what it replies.
    pub(super) fn take(&mut self, message: &Message) -> (Outcome, [Option<Message>; 2]) {
        let (mark, part) = match message {
            Message::Part(part) => (&part.mark, Some(part)),
            Message::Ready(mark, _) => (mark, None),
            _ => return (Outcome::Noted, [None, None]),
        };
        match self.held.get_mut(&*mark.identifier).filter(|held| held.number == mark.number) {
            Some(held) => held.take(mark, part),
            None => (Outcome::Unknown, [None, None]),
        }
    }
}

impl Held {
    fn take(&mut self, mark: &Mark, part: Option<&Part>) -> (Outcome, [Option<Message>; 2]) {
        let received = Some(Message::Received(mark.clone()));
        let wanted = (self.round + 1, self.buffered.len() + 1);
        if mark.start < self.start {
            return (Outcome::OldStart, [None, None]);
        }
        if mark.start > self.start && (mark.round, mark.part) != (1, 1) || mark.start == self.start && (mark.round, mark.part) > wanted {
            return (Outcome::Gap(wanted.0, wanted.1), [None, None]);
        }
        if mark.start == self.start && (mark.round, mark.part) < wanted {
            return (Outcome::Repeat, [received, None]);
        }
        let Some(part) = part else { return (Outcome::Ready, [Some(Message::ReadyTaken), Some(Message::Supply(mark.clone()))]) };
        if mark.start > self.start {
            (self.start, self.round) = (mark.start, 0);
            self.buffered.clear();
        }
        if part.to < part.changes.len() {
            self.buffered.push(part.clone());
            let next = Mark { part: mark.part + 1, ..mark.clone() };
            return (Outcome::Buffered(mark.round, mark.part), [received, self.is_fetched.then_some(Message::Supply(next))]);
        }
        if mark.round == 1 {
            self.view.clear();
        }
        for part in std::mem::take(&mut self.buffered).iter().chain([part]) {
            apply(&mut self.view, &part.changes[part.from..part.to]);
        }
        self.round = mark.round;
        self.shows = (mark.number, mark.start, mark.round);
        (Outcome::Applied(mark.round), [received, None])
    }
}
