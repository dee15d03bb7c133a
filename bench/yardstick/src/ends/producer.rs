//! The producer: what it holds, and its subscriptions with their rounds.
use std::collections::{BTreeMap, BTreeSet, HashMap};
use std::rc::Rc;

use super::item::{Asked, Change, Item, Key};
use super::{Mark, Message, Part};

/// How many changes a part has.
const A_PART: usize = 100;
/// So long after a message it is sent again.
const AGAIN: i64 = 30_000;
const MOST_HELD: usize = 20_000;

pub(super) struct Wanted {
    pub(super) consumer: usize,
    pub(super) identifier: Rc<str>,
    pub(super) termination: i64,
    pub(super) topic: Asked,
    pub(super) slack: i64,
    pub(super) is_fetched: bool,
}

/// A round that isn't acknowledged whole: its wanted part, and when a message of it was sent or came.
struct Round {
    changes: Rc<Vec<Change>>,
    opened: i64,
    part: usize,
    told: Option<i64>,
}

struct Subscription {
    wanted: Rc<Wanted>,
    number: u64,
    /// What was acknowledged.
    view: BTreeMap<Key, Rc<Item>>,
    rounds: u64,
    open: Option<Round>,
    /// Of its place, since the last look.
    touched: BTreeSet<Key>,
    looked: i64,
}

/// What the producer says of a message.
pub(super) enum Taken {
    Subscribed,
    Supplied,
    NothingReady,
    WrongPart(u64, usize),
    Acknowledged,
    NotThis,
    Ignored,
}

#[derive(Default)]
pub(super) struct Producer {
    pub(super) start: u64,
    pub(super) now: i64,
    items: BTreeMap<Key, Rc<Item>>,
    /// Of each place its items by moment.
    by_moment: HashMap<Rc<str>, BTreeSet<(i64, Key)>>,
    /// All items by moment, at which they end.
    ends: BTreeSet<(i64, Key)>,
    subscriptions: Vec<Subscription>,
    by_place: HashMap<Rc<str>, Vec<usize>>,
    /// A key before all others.
    lowest: Key,
}

impl Producer {
    pub(super) fn started(now: i64, start: u64) -> Producer {
        Producer { start, now, ..Producer::default() }
    }

    pub(super) fn clock(&mut self, now: i64) {
        self.now = self.now.max(now);
        while let Some((moment, key)) = self.ends.first() {
            if *moment >= self.now {
                return;
            }
            let key = key.clone();
            self.withdraw(&key);
        }
    }

    pub(super) fn observe(&mut self, key: Key, item: Item) {
        if item.moment < self.now {
            return self.withdraw(&key);
        }
        assert!(self.items.len() < MOST_HELD || self.items.contains_key(&key), "the store is full");
        self.touch(&item.place, &key);
        let of_place = match self.by_moment.get_mut(&item.place) {
            Some(of_place) => of_place,
            None => self.by_moment.entry(item.place.clone()).or_default(),
        };
        let item = Rc::new(item);
        if let Some(old) = self.items.insert(key.clone(), item.clone()) {
            if old.moment == item.moment {
                return;
            }
            of_place.remove(&(old.moment, key.clone()));
            self.ends.remove(&(old.moment, key.clone()));
        }
        of_place.insert((item.moment, key.clone()));
        self.ends.insert((item.moment, key));
    }

    pub(super) fn withdraw(&mut self, key: &Key) {
        let Some((key, old)) = self.items.remove_entry(key) else { return };
        self.touch(&old.place, &key);
        let at = (old.moment, key);
        if let Some(of_place) = self.by_moment.get_mut(&old.place) {
            of_place.remove(&at);
        }
        self.ends.remove(&at);
    }

    fn touch(&mut self, place: &Rc<str>, key: &Key) {
        for number in self.by_place.get(place).into_iter().flatten() {
            self.subscriptions[*number].touched.insert(key.clone());
        }
    }

    /// What is shown to a topic, in order of key.
    pub(super) fn shown(&self, topic: &Asked) -> BTreeMap<Key, Rc<Item>> {
        let Some(of_place) = self.by_moment.get(&topic.place) else { return BTreeMap::new() };
        let end = topic.preview.map_or(i64::MAX, |preview| self.now + preview);
        let shown = of_place.iter().take_while(|(moment, _)| *moment < end).take(topic.limit.unwrap_or(usize::MAX));
        shown.map(|(_, key)| (key.clone(), self.items[key].clone())).collect()
    }

    /// Whether a subscription is quiet, right after a settle.
    pub(super) fn is_quiet(&self, consumer: usize, identifier: &str, number: u64) -> bool {
        self.place_of(consumer, identifier, number).is_some_and(|place| {
            let subscription = &self.subscriptions[place];
            subscription.open.is_none() && subscription.rounds > 0
        })
    }

    fn place_of(&self, consumer: usize, identifier: &str, number: u64) -> Option<usize> {
        self.subscriptions.iter().position(|it| it.wanted.consumer == consumer && *it.wanted.identifier == *identifier && it.number == number)
    }

    pub(super) fn take(&mut self, message: &Message) -> (Taken, Option<Message>) {
        match message {
            Message::Subscribe { number, wanted } => {
                if self.place_of(wanted.consumer, &wanted.identifier, *number).is_none() {
                    self.accept(*number, wanted);
                }
                (Taken::Subscribed, Some(Message::Subscribed { number: *number, wanted: wanted.clone() }))
            }
            Message::Supply(mark) => self.supply(mark),
            Message::Received(mark) => (if self.acknowledge(mark).is_some() { Taken::Acknowledged } else { Taken::NotThis }, None),
            _ => (Taken::Ignored, None),
        }
    }

    fn accept(&mut self, number: u64, wanted: &Rc<Wanted>) {
        self.by_place.entry(wanted.topic.place.clone()).or_default().push(self.subscriptions.len());
        self.subscriptions.push(Subscription {
            wanted: wanted.clone(),
            number,
            view: BTreeMap::new(),
            rounds: 0,
            open: None,
            touched: BTreeSet::new(),
            looked: self.now,
        });
    }

    /// The subscription of a mark. A consumer's identifiers are those of no other in the scripts that are played.
    fn of_mark(&mut self, mark: &Mark) -> Option<&mut Subscription> {
        self.subscriptions.iter_mut().find(|it| it.number == mark.number && it.wanted.identifier == mark.identifier)
    }

    fn acknowledge(&mut self, mark: &Mark) -> Option<()> {
        let (start, now) = (self.start, self.now);
        let subscription = self.of_mark(mark)?;
        let round = subscription.open.as_mut()?;
        if (mark.start, mark.round, mark.part) != (start, subscription.rounds, round.part) {
            return None;
        }
        if round.part * A_PART < round.changes.len() {
            round.part += 1;
            round.told = subscription.wanted.is_fetched.then_some(now);
            return Some(());
        }
        let round = subscription.open.take()?;
        apply(&mut subscription.view, &round.changes);
        Some(())
    }

    fn supply(&mut self, mark: &Mark) -> (Taken, Option<Message>) {
        let (start, now) = (self.start, self.now);
        let found = self.of_mark(mark).filter(|it| it.wanted.is_fetched && it.open.is_some());
        let Some(subscription) = found else { return (Taken::NothingReady, Some(Message::NotSupplied("NothingReady", 0))) };
        let wanted = (start, subscription.rounds, subscription.open.as_ref().map_or(0, |round| round.part));
        if (mark.start, mark.round, mark.part) != wanted {
            return (Taken::WrongPart(wanted.1, wanted.2), Some(Message::NotSupplied("WrongPart", wanted.2)));
        }
        let part = subscription.part(start);
        if let Some(round) = &mut subscription.open {
            round.told = Some(now);
        }
        (Taken::Supplied, part.map(Message::Part))
    }

    /// Looks at each subscription that has no round, and sends what is due, in their order.
    pub(super) fn settle(&mut self, mut send: impl FnMut(usize, Message)) {
        for place in 0..self.subscriptions.len() {
            if self.subscriptions[place].open.is_none() {
                self.look(place);
            }
            let (now, start) = (self.now, self.start);
            let subscription = &mut self.subscriptions[place];
            let is_due = subscription.open.as_ref().is_some_and(|round| round.told.is_none_or(|told| now - told >= AGAIN));
            if !is_due {
                continue;
            }
            let Some(part) = subscription.part(start) else { continue };
            let message = if subscription.wanted.is_fetched { Message::Ready(part.mark, part.opened) } else { Message::Part(part) };
            send(subscription.wanted.consumer, message);
            if let Some(round) = &mut subscription.open {
                round.told = Some(now);
            }
        }
    }

    /// Opens a round, where there is a change.
    fn look(&mut self, place: usize) {
        let subscription = &self.subscriptions[place];
        let (topic, is_first) = (&subscription.wanted.topic, subscription.rounds == 0);
        let crossed = self.crossed(subscription);
        if !is_first && subscription.touched.is_empty() && crossed.is_empty() {
            self.subscriptions[place].looked = self.now;
            return;
        }
        let changes = if is_first || topic.limit.is_some() {
            self.changes_of_all(subscription)
        } else {
            self.changes_of(subscription, crossed)
        };
        let now = self.now;
        let subscription = &mut self.subscriptions[place];
        subscription.touched.clear();
        subscription.looked = now;
        if is_first || !changes.is_empty() {
            subscription.rounds += 1;
            subscription.open = Some(Round { changes: Rc::new(changes), opened: now, part: 1, told: None });
        }
    }

    /// The keys that the end of the window passed since the last look.
    fn crossed(&self, subscription: &Subscription) -> Vec<Key> {
        let Some(preview) = subscription.wanted.topic.preview else { return Vec::new() };
        let Some(of_place) = self.by_moment.get(&subscription.wanted.topic.place) else { return Vec::new() };
        let edge = |moment: i64| (moment + preview, self.lowest.clone());
        of_place.range(edge(subscription.looked)..edge(self.now)).map(|(_, key)| key.clone()).collect()
    }

    fn changes_of_all(&self, subscription: &Subscription) -> Vec<Change> {
        let shown = self.shown(&subscription.wanted.topic);
        let mut keys: BTreeSet<&Key> = shown.keys().collect();
        keys.extend(subscription.view.keys());
        keys.into_iter().filter_map(|key| subscription.change(key, shown.get(key))).collect()
    }

    fn changes_of(&self, subscription: &Subscription, crossed: Vec<Key>) -> Vec<Change> {
        let mut keys = subscription.touched.clone();
        keys.extend(crossed);
        let end = subscription.wanted.topic.preview.map_or(i64::MAX, |preview| self.now + preview);
        let shown = |key: &Key| self.items.get(key).filter(|item| item.moment < end);
        keys.iter().filter_map(|key| subscription.change(key, shown(key))).collect()
    }
}

impl Subscription {
    /// The change of a key to what is shown, where that isn't near to what was acknowledged.
    fn change(&self, key: &Key, shown: Option<&Rc<Item>>) -> Option<Change> {
        let is_near = match (self.view.get(key), shown) {
            (Some(old), Some(new)) => Rc::ptr_eq(old, new) || old.is_near(new, self.wanted.slack),
            (None, None) => true,
            _ => false,
        };
        (!is_near).then(|| Change { key: key.clone(), item: shown.cloned() })
    }

    /// The wanted part.
    fn part(&self, start: u64) -> Option<Part> {
        let round = self.open.as_ref()?;
        let mark = Mark { identifier: self.wanted.identifier.clone(), number: self.number, start, round: self.rounds, part: round.part };
        let (from, to) = ((round.part - 1) * A_PART, (round.part * A_PART).min(round.changes.len()));
        Some(Part { mark, opened: round.opened, changes: round.changes.clone(), from, to })
    }
}

/// Makes changes in a view.
pub(super) fn apply(view: &mut BTreeMap<Key, Rc<Item>>, changes: &[Change]) {
    for Change { key, item } in changes {
        match item {
            Some(item) => view.insert(key.clone(), item.clone()),
            None => view.remove(key),
        };
    }
}
