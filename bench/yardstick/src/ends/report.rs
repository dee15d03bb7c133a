//! The lines of a report.
use super::consumer::Outcome;
use super::item::{Asked, Change};
use super::producer::{Producer, Taken, Wanted};
use super::{Delivered, Mark, Message, Part, World};
use crate::by_hand::Writer;

#[derive(Default)]
pub(super) struct Report {
    pub(super) text: Vec<u8>,
}

impl Report {
    fn line(&mut self, line: &str) {
        self.text.extend_from_slice(line.as_bytes());
        self.text.push(b'\n');
    }

    pub(super) fn started(&mut self, start: u64) {
        self.line(&format!("started {start}"));
    }

    pub(super) fn fed(&mut self, observed: usize, withdrawn: usize) {
        self.line(&format!("fed {observed} {withdrawn} 0"));
    }

    pub(super) fn took(&mut self, world: &World, number: usize, delivered: Option<Delivered>) {
        let line = match delivered {
            None => format!("no packet {number}"),
            Some(Delivered::Producer(taken)) => match taken {
                Taken::Subscribed => "took producer Subscribed".to_owned(),
                Taken::Supplied => "took producer Supplied".to_owned(),
                Taken::NothingReady => "took producer NothingReady".to_owned(),
                Taken::WrongPart(round, part) => format!("took producer WrongPart {round} {part}"),
                Taken::Acknowledged => "took producer Acknowledged".to_owned(),
                Taken::NotThis => "took producer NotThis".to_owned(),
                Taken::Ignored => "took producer Ignored".to_owned(),
            },
            Some(Delivered::Consumer(consumer, outcome)) => {
                let name = &world.consumers[consumer].name;
                match outcome {
                    Outcome::Noted => format!("took {name} Noted"),
                    Outcome::Unknown => format!("took {name} UnknownSubscription"),
                    Outcome::OldStart => format!("took {name} OldStart"),
                    Outcome::Gap(round, part) => format!("took {name} Gap {round} {part}"),
                    Outcome::Repeat => format!("took {name} Repeat"),
                    Outcome::Ready => format!("took {name} Ready"),
                    Outcome::Buffered(round, part) => format!("took {name} Buffered {round} {part}"),
                    Outcome::Applied(round) => format!("took {name} Applied {round}"),
                }
            }
        };
        self.line(&line);
    }

    pub(super) fn view(&mut self, world: &World, name: &str, identifier: &str) {
        let found = world.places.get(name).and_then(|place| Some((*place, world.consumers[*place].held.get(identifier)?)));
        let Some((place, held)) = found else { return self.line(&format!("unknown {name} {identifier}")) };
        let (number, start, round) = held.shows;
        let state = if round > 0 && world.producer.is_quiet(place, identifier, number) { "quiet" } else { "moving" };
        let items = held.view.len();
        self.line(&format!("view {name} {identifier} number {number} start {start} round {round} items {items} {state}"));
        for item in held.view.values() {
            self.line(&format!("item {{\"MonitoredStopVisit\":{}}}", item.text));
        }
    }

    /// The answer to a request: a functional delivery for each topic.
    pub(super) fn answer(&mut self, producer: &Producer, asked: &[Asked]) {
        let mut writer = Writer { text: std::mem::take(&mut self.text) };
        writer.raw(b"answer {\"Siri\":{\"ServiceDelivery\":{");
        let of_lines = asked.first().is_some_and(|topic| topic.place.starts_with('L'));
        if of_lines {
            deliveries(&mut writer, "EstimatedTimetableDelivery", producer, asked);
        }
        writer.string("ProducerRef", &Some("producer".to_owned()));
        writer.moment("ResponseTimestamp", Some(producer.now));
        writer.flag("Status", Some(true));
        if !of_lines {
            deliveries(&mut writer, "StopMonitoringDelivery", producer, asked);
        }
        writer.raw(b"}}}\n");
        self.text = writer.text;
    }

    pub(super) fn packet(&mut self, world: &World, place: usize) {
        let packet = &world.packets[place];
        let name = &world.consumers[packet.consumer].name;
        let to = if packet.to_producer { "producer" } else { name };
        let mut writer = Writer { text: std::mem::take(&mut self.text) };
        writer.raw(format!("packet {} to {to} {{\"Siri\":{{", place + 1).as_bytes());
        match &packet.message {
            Message::Subscribe { number, wanted } => subscription(&mut writer, world.now, name, *number, wanted),
            Message::Subscribed { number, wanted } => response(&mut writer, world.producer.now, name, *number, wanted),
            Message::Part(part) => delivery(&mut writer, name, part),
            Message::Ready(mark, opened) => writer.object("DataReadyNotification", |writer| {
                extensions(writer, mark);
                writer.string("ProducerRef", &Some("producer".to_owned()));
                writer.moment("RequestTimestamp", Some(*opened));
            }),
            Message::ReadyTaken => writer.object("DataReadyAcknowledgement", |writer| {
                writer.string("ConsumerRef", &Some(name.clone()));
                writer.moment("ResponseTimestamp", Some(world.now));
                writer.flag("Status", Some(true));
            }),
            Message::Supply(mark) => writer.object("DataSupplyRequest", |writer| {
                writer.string("ConsumerRef", &Some(name.clone()));
                extensions(writer, mark);
                writer.moment("RequestTimestamp", Some(world.now));
            }),
            Message::NotSupplied(why, part) => writer.raw(format!("\"{why}\":{part}").as_bytes()),
            Message::Received(mark) => writer.object("DataReceivedAcknowledgement", |writer| {
                writer.string("ConsumerRef", &Some(name.clone()));
                extensions(writer, mark);
                writer.moment("ResponseTimestamp", Some(world.now));
                writer.flag("Status", Some(true));
            }),
        }
        writer.raw(b"}}\n");
        self.text = writer.text;
    }
}

fn deliveries(writer: &mut Writer, name: &str, producer: &Producer, asked: &[Asked]) {
    writer.list(name, asked, |writer, topic| {
        let shown: Vec<_> = producer.shown(topic).into_values().collect();
        let texts: Vec<&str> = shown.iter().map(|item| &*item.text).collect();
        if name == "StopMonitoringDelivery" {
            listed(writer, "MonitoredStopVisit", &texts);
        } else {
            writer.list("EstimatedJourneyVersionFrame", &texts, |writer, text| listed(writer, "EstimatedVehicleJourney", &[*text]));
        }
        writer.moment("ResponseTimestamp", Some(producer.now));
        writer.flag("Status", Some(true));
    });
}

/// A list of what is written already.
fn listed(writer: &mut Writer, name: &str, texts: &[&str]) {
    for (place, text) in texts.iter().enumerate() {
        if place == 0 {
            writer.name(name);
        }
        writer.raw(if place == 0 { b"[" } else { b"," });
        writer.raw(text.as_bytes());
    }
    if !texts.is_empty() {
        writer.raw(b"]");
    }
}

fn extensions(writer: &mut Writer, mark: &Mark) {
    writer.object("Extensions", |writer| {
        writer.number("Number", Some(mark.number));
        writer.number("Part", Some(mark.part as u64));
        writer.number("Round", Some(mark.round));
        writer.number("Start", Some(mark.start));
        writer.string("SubscriptionRef", &Some(mark.identifier.to_string()));
    });
}

fn subscription(writer: &mut Writer, now: i64, name: &str, number: u64, wanted: &Wanted) {
    writer.object("SubscriptionRequest", |writer| {
        writer.string("MessageIdentifier", &Some(number.to_string()));
        writer.moment("RequestTimestamp", Some(now));
        writer.string("RequestorRef", &Some(name.to_owned()));
        writer.list("StopMonitoringSubscriptionRequest", &[()], |writer, ()| {
            writer.span("ChangeBeforeUpdates", Some(wanted.slack));
            if wanted.is_fetched {
                writer.object("Extensions", |writer| writer.string("DeliveryMethod", &Some("fetched".to_owned())));
            }
            writer.flag("IncrementalUpdates", Some(true));
            writer.moment("InitialTerminationTime", Some(wanted.termination));
            writer.object("StopMonitoringRequest", |writer| {
                writer.number("MaximumStopVisits", wanted.topic.limit.map(|limit| limit as u64));
                writer.string("MonitoringRef", &Some(wanted.topic.place[1..].to_owned()));
                writer.span("PreviewInterval", wanted.topic.preview);
            });
            writer.string("SubscriberRef", &Some(name.to_owned()));
            writer.string("SubscriptionIdentifier", &Some(wanted.identifier.to_string()));
        });
    });
}

fn response(writer: &mut Writer, now: i64, name: &str, number: u64, wanted: &Wanted) {
    writer.object("SubscriptionResponse", |writer| {
        writer.string("RequestMessageRef", &Some(number.to_string()));
        writer.list("ResponseStatus", &[()], |writer, ()| {
            writer.flag("Status", Some(true));
            writer.string("SubscriberRef", &Some(name.to_owned()));
            writer.string("SubscriptionRef", &Some(wanted.identifier.to_string()));
            writer.moment("ValidUntil", Some(wanted.termination));
        });
        writer.moment("ResponseTimestamp", Some(now));
    });
}

fn delivery(writer: &mut Writer, name: &str, part: &Part) {
    let changes = &part.changes[part.from..part.to];
    writer.object("ServiceDelivery", |writer| {
        if part.to < part.changes.len() {
            writer.flag("MoreData", Some(true));
        }
        writer.string("ProducerRef", &Some("producer".to_owned()));
        writer.string("RequestMessageRef", &Some(part.mark.number.to_string()));
        writer.moment("ResponseTimestamp", Some(part.opened));
        writer.flag("Status", Some(true));
        writer.list("StopMonitoringDelivery", &[()], |writer, ()| {
            writer.object("Extensions", |writer| {
                writer.number("Part", Some(part.mark.part as u64));
                writer.number("Round", Some(part.mark.round));
                writer.number("Start", Some(part.mark.start));
            });
            let texts: Vec<&str> = changes.iter().filter_map(|change| Some(&*change.item.as_ref()?.text)).collect();
            listed(writer, "MonitoredStopVisit", &texts);
            let removed: Vec<&Change> = changes.iter().filter(|change| change.item.is_none()).collect();
            writer.list("MonitoredStopVisitCancellation", &removed, |writer, change| {
                let (stop, identifier) = change.key[1..].split_once('\0').unwrap_or_default();
                writer.string("ItemRef", &Some(identifier.to_owned()));
                writer.string("MonitoringRef", &Some(stop.to_owned()));
            });
            writer.moment("ResponseTimestamp", Some(part.opened));
            writer.flag("Status", Some(true));
            writer.string("SubscriberRef", &Some(name.to_owned()));
            writer.string("SubscriptionRef", &Some(part.mark.identifier.to_string()));
        });
    });
}
