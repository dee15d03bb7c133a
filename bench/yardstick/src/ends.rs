//! A third yardstick: a producer and its consumers in one process, as a Rust programmer writes them by hand, in plain maps. It
//! plays the scripts of `make.py` and writes the report that `siri replay` writes of them, byte for byte; and it plays the
//! script of `siri load`, and writes its line. It has no refusal with a place and no bound of memory, and knows neither
//! terminations, heartbeats, restarts nor complete sets: where a script has one, it stops.
mod consumer;
mod item;
mod load;
mod producer;
mod report;

use std::collections::HashMap;
use std::io::{self, BufRead, BufWriter, Write};
use std::rc::Rc;

use crate::by_hand::moment;
use consumer::{Consumer, Outcome};
use item::{Change, Item, Key};
use producer::{Producer, Taken, Wanted};
use report::Report;

/// The name of a part of a round, which an acknowledgement brings back.
#[derive(Clone)]
struct Mark {
    identifier: Rc<str>,
    number: u64,
    start: u64,
    round: u64,
    part: usize,
}

/// A part of a round: these of its changes.
#[derive(Clone)]
struct Part {
    mark: Mark,
    opened: i64,
    changes: Rc<Vec<Change>>,
    from: usize,
    to: usize,
}

enum Message {
    Subscribe { number: u64, wanted: Rc<Wanted> },
    Subscribed { number: u64, wanted: Rc<Wanted> },
    Part(Part),
    Ready(Mark, i64),
    ReadyTaken,
    Supply(Mark),
    NotSupplied(&'static str, usize),
    Received(Mark),
}

/// A message of a consumer to the producer, or the other way. Consumers are named by their place.
struct Packet {
    consumer: usize,
    to_producer: bool,
    message: Message,
}

/// All ends, and each packet that was ever sent.
#[derive(Default)]
struct World {
    producer: Producer,
    consumers: Vec<Consumer>,
    places: HashMap<String, usize>,
    packets: Vec<Packet>,
    now: i64,
}

impl World {
    fn start(&mut self, now: i64) {
        self.producer = Producer::started(now, self.producer.start + 1);
        self.pass(now);
    }

    fn pass(&mut self, now: i64) {
        self.now = self.now.max(now);
    }

    fn clock(&mut self, now: i64) {
        self.pass(now);
        self.producer.clock(now);
        self.settle();
    }

    fn feed(&mut self, items: Vec<(Key, Item)>, removals: Vec<Key>) {
        for (key, item) in items {
            self.producer.observe(key, item);
        }
        for key in removals {
            self.producer.withdraw(&key);
        }
        self.settle();
    }

    fn subscribe(&mut self, name: &str, mut wanted: Wanted) {
        let place = self.place_of(name);
        wanted.consumer = place;
        let number = self.consumers[place].ask(&wanted);
        let wanted = Rc::new(wanted);
        self.send(place, true, Message::Subscribe { number, wanted });
    }

    fn place_of(&mut self, name: &str) -> usize {
        if let Some(place) = self.places.get(name) {
            return *place;
        }
        self.consumers.push(Consumer::new(name));
        self.places.insert(name.to_owned(), self.consumers.len() - 1);
        self.consumers.len() - 1
    }

    fn send(&mut self, consumer: usize, to_producer: bool, message: Message) {
        self.packets.push(Packet { consumer, to_producer, message });
    }

    fn settle(&mut self) {
        let packets = &mut self.packets;
        self.producer.settle(|consumer, message| packets.push(Packet { consumer, to_producer: false, message }));
    }

    /// A packet reaches its receiver, who says what it is.
    fn deliver(&mut self, number: usize) -> Option<Delivered> {
        let packet = self.packets.get(number.checked_sub(1)?)?;
        let consumer = packet.consumer;
        if packet.to_producer {
            let (taken, reply) = self.producer.take(&packet.message);
            if let Some(reply) = reply {
                self.send(consumer, false, reply);
            }
            self.settle();
            return Some(Delivered::Producer(taken));
        }
        let (outcome, replies) = self.consumers[consumer].take(&packet.message);
        for reply in replies.into_iter().flatten() {
            self.send(consumer, true, reply);
        }
        Some(Delivered::Consumer(consumer, outcome))
    }
}

enum Delivered {
    Producer(Taken),
    Consumer(usize, Outcome),
}

/// Plays a script from standard input.
pub fn replay() -> io::Result<()> {
    let mut input = io::stdin().lock();
    let mut output = BufWriter::new(io::stdout().lock());
    let (mut world, mut report) = (World::default(), Report::default());
    let mut line = Vec::new();
    loop {
        line.clear();
        if input.read_until(b'\n', &mut line)? == 0 {
            return output.flush();
        }
        let text = std::str::from_utf8(&line).map_err(|_| wrong())?.trim_end_matches('\n');
        let before = world.packets.len();
        report.text.clear();
        play(&mut world, &mut report, text).ok_or_else(wrong)?;
        for number in before..world.packets.len() {
            report.packet(&world, number);
        }
        output.write_all(&report.text)?;
    }
}

fn wrong() -> io::Error {
    io::Error::new(io::ErrorKind::InvalidData, "no script of the bench")
}

/// Plays `siri load SEED COUNT`.
pub fn load(seed: u64, count: u64) -> String {
    load::played(seed, count)
}

/// Plays a line, and reports what it brings besides packets.
fn play(world: &mut World, report: &mut Report, line: &str) -> Option<()> {
    let (word, rest) = line.split_once(' ')?;
    match word {
        "start" => {
            world.start(moment(rest)??);
            report.started(world.producer.start);
        }
        "clock" => world.clock(moment(rest)??),
        "feed" => {
            let (items, removals) = item::read_feed(rest)?;
            report.fed(items.len(), removals.len());
            world.feed(items, removals);
        }
        "ask" => {
            let asked = item::read_request(rest)?;
            report.answer(&world.producer, &asked);
        }
        "subscribe" => {
            let (name, document) = rest.split_once(' ')?;
            world.subscribe(name, item::read_wanted(document)?);
        }
        "deliver" => {
            let number: usize = rest.parse().ok()?;
            let delivered = world.deliver(number);
            report.took(world, number, delivered);
        }
        "view" => {
            let (name, identifier) = rest.split_once(' ')?;
            report.view(world, name, identifier);
        }
        _ => return None,
    }
    Some(())
}
