//! What is stored: visits and journeys with their canonical text, and how documents of scripts are read.
use std::rc::Rc;

use super::producer::Wanted;
use crate::by_hand::{Reader, Visit, Writer, moment, span};

/// An item's key: `S` and a stop or `L` and a line, then behind a zero byte what names the item there. So keys of a stop stand
/// together, in the order of answers.
pub(super) type Key = Rc<str>;

/// A key, and the item that it has from then on, or none.
#[derive(Clone)]
pub(super) struct Change {
    pub(super) key: Key,
    pub(super) item: Option<Rc<Item>>,
}

pub(super) struct Item {
    /// The stop of a visit, the line of a journey.
    pub(super) place: Rc<str>,
    pub(super) moment: i64,
    pub(super) delay: Option<i64>,
    pub(super) expected: Option<i64>,
    pub(super) text: Box<str>,
}

impl Item {
    /// Whether they are equal but for what changes often, and that by less than the slack.
    pub(super) fn is_near(&self, other: &Item, slack: i64) -> bool {
        self.text == other.text && self.expected == other.expected
            || near(self.delay, other.delay, slack)
                && near(self.expected, other.expected, slack)
                && lasting(&self.text).eq(lasting(&other.text))
    }
}

fn near(a: Option<i64>, b: Option<i64>, slack: i64) -> bool {
    match (a, b) {
        (Some(a), Some(b)) => a == b || (a - b).abs() < slack,
        (a, b) => a == b,
    }
}

/// The pieces of a canonical text beside the values that change often.
fn lasting(text: &str) -> impl Iterator<Item = &str> {
    let mut rest = text.split_once(",\"RecordedAtTime\":").map_or(text, |(before, _)| before.trim_end_matches('}'));
    ["\"Delay\":\"", "\"ExpectedDepartureTime\":\"", "\0"].into_iter().map(move |name| {
        let (before, behind) = rest.split_once(name).unwrap_or((rest, "\""));
        rest = behind.split_once('"').map_or("", |(_, behind)| behind);
        before
    })
}

/// The key of a visit, and its stop.
pub(super) fn visit_key(stop: &str, identifier: &str) -> (Key, Rc<str>) {
    (format!("S{stop}\0{identifier}").into(), format!("S{stop}").into())
}

/// The place of a stop.
pub(super) fn stop(name: &str) -> Rc<str> {
    format!("S{name}").into()
}

pub(super) type Fed = (Vec<(Key, Item)>, Vec<Key>);

/// A feed of visits, of cancellations of visits, and of journeys.
pub(super) fn read_feed(document: &str) -> Option<Fed> {
    let (mut items, mut removals) = (Vec::new(), Vec::new());
    let mut reader = Reader { text: document, at: 0 };
    inside(&mut reader, &["Siri", "ServiceDelivery"], &mut |reader, name| match name {
        "StopMonitoringDelivery" => reader.list(|reader| {
            reader.object(|reader, name| match name {
                "MonitoredStopVisit" => reader.list(|reader| {
                    items.push(read_visit(reader)?);
                    Some(())
                }),
                "MonitoredStopVisitCancellation" => reader.list(|reader| {
                    removals.push(read_cancellation(reader)?);
                    Some(())
                }),
                _ => reader.pass_value(),
            })
        }),
        "EstimatedTimetableDelivery" => inside(reader, &["EstimatedJourneyVersionFrame"], &mut |reader, name| match name {
            "EstimatedVehicleJourney" => reader.list(|reader| {
                items.push(read_journey(reader)?);
                Some(())
            }),
            _ => reader.pass_value(),
        }),
        _ => reader.pass_value(),
    })?;
    Some((items, removals))
}

/// Goes into the members of these names, one inside the other, into each entry of a list; all others are passed over.
fn inside(reader: &mut Reader, names: &[&str], member: &mut dyn FnMut(&mut Reader, &str) -> Option<()>) -> Option<()> {
    reader.list(|reader| {
        reader.object(|reader, name| match names.split_first() {
            None => member(reader, name),
            Some((first, rest)) if name == *first => inside(reader, rest, member),
            Some(_) => reader.pass_value(),
        })
    })
}

fn read_visit(reader: &mut Reader) -> Option<(Key, Item)> {
    let mut visit = Visit::default();
    reader.visit(&mut visit)?;
    let (key, place) = visit_key(visit.monitoring_ref.as_ref()?, visit.item_identifier.as_ref()?);
    let call = &visit.journey.call;
    let mut writer = Writer { text: b"{".to_vec() };
    writer.visit(&visit);
    writer.raw(b"}");
    let item = Item {
        place,
        moment: call.expected_departure_time.or(call.aimed_departure_time)?,
        delay: visit.journey.delay,
        expected: call.expected_departure_time,
        text: owned(writer)?,
    };
    Some((key, item))
}

fn owned(writer: Writer) -> Option<Box<str>> {
    Some(String::from_utf8(writer.text).ok()?.into_boxed_str())
}

fn read_cancellation(reader: &mut Reader) -> Option<Key> {
    let (mut stop, mut identifier) = (None, None);
    reader.object(|reader, name| {
        match name {
            "MonitoringRef" => stop = reader.owned()?,
            "ItemRef" => identifier = reader.owned()?,
            _ => reader.pass_value()?,
        }
        Some(())
    })?;
    Some(visit_key(&stop?, &identifier?).0)
}

/// A journey with a line, a reference and the departures of its calls.
fn read_journey(reader: &mut Reader) -> Option<(Key, Item)> {
    let (mut line, mut frame, mut dated, mut calls) = (None, None, None, Vec::new());
    reader.object(|reader, name| match name {
        "LineRef" => {
            line = reader.owned()?;
            Some(())
        }
        "FramedVehicleJourneyRef" => reader.object(|reader, name| {
            match name {
                "DataFrameRef" => frame = reader.owned()?,
                "DatedVehicleJourneyRef" => dated = reader.owned()?,
                _ => reader.pass_value()?,
            }
            Some(())
        }),
        "EstimatedCalls" => inside(reader, &["EstimatedCall"], &mut |reader, name| {
            match name {
                "ExpectedDepartureTime" => calls.push(moment(&reader.text()??)??),
                _ => reader.pass_value()?,
            }
            Some(())
        }),
        _ => reader.pass_value(),
    })?;
    let mut writer = Writer { text: b"{".to_vec() };
    writer.object("EstimatedCalls", |writer| {
        writer.list("EstimatedCall", &calls, |writer, call| writer.moment("ExpectedDepartureTime", Some(*call)));
    });
    writer.object("FramedVehicleJourneyRef", |writer| {
        writer.string("DataFrameRef", &frame);
        writer.string("DatedVehicleJourneyRef", &dated);
    });
    writer.string("LineRef", &line);
    writer.raw(b"}");
    let (line, text) = (line?, owned(writer)?);
    let key = format!("L{line}\0{}\0{}", frame.unwrap_or_default(), dated?).into();
    let item = Item { place: format!("L{line}").into(), moment: *calls.iter().max()?, delay: None, expected: None, text };
    Some((key, item))
}

/// What a request asks for: of each topic its place, window and limit. The places of one topic are of one kind.
pub(super) struct Asked {
    pub(super) place: Rc<str>,
    pub(super) preview: Option<i64>,
    pub(super) limit: Option<usize>,
}

pub(super) fn read_request(document: &str) -> Option<Vec<Asked>> {
    let mut asked = Vec::new();
    let mut reader = Reader { text: document, at: 0 };
    inside(&mut reader, &["Siri", "ServiceRequest"], &mut |reader, name| match name {
        "StopMonitoringRequest" => reader.list(|reader| {
            asked.push(read_topic(reader)?);
            Some(())
        }),
        "EstimatedTimetableRequest" => inside(reader, &["Lines", "LineDirection"], &mut |reader, name| {
            match name {
                "LineRef" => asked.push(Asked { place: format!("L{}", reader.text()??).into(), preview: None, limit: None }),
                _ => reader.pass_value()?,
            }
            Some(())
        }),
        _ => reader.pass_value(),
    })?;
    Some(asked)
}

fn read_topic(reader: &mut Reader) -> Option<Asked> {
    let mut asked = Asked { place: "".into(), preview: None, limit: None };
    reader.object(|reader, name| {
        match name {
            "MonitoringRef" => asked.place = stop(&reader.text()??),
            "PreviewInterval" => asked.preview = Some(span(&reader.text()??)?),
            "MaximumStopVisits" => asked.limit = Some(reader.text()??.parse().ok()?),
            _ => reader.pass_value()?,
        }
        Some(())
    })?;
    Some(asked)
}

/// A subscription to the visits of a stop.
pub(super) fn read_wanted(document: &str) -> Option<Wanted> {
    let mut reader = Reader { text: document, at: 0 };
    let (mut identifier, mut termination, mut topic, mut slack, mut is_fetched) = (None, None, None, 0, false);
    inside(&mut reader, &["StopMonitoringSubscriptionRequest"], &mut |reader, name| {
        match name {
            "SubscriptionIdentifier" => identifier = reader.owned()?,
            "InitialTerminationTime" => termination = moment(&reader.text()??)?,
            "ChangeBeforeUpdates" => slack = span(&reader.text()??)?,
            "StopMonitoringRequest" => topic = Some(read_topic(reader)?),
            "Extensions" => inside(reader, &[], &mut |reader, name| {
                match name {
                    "DeliveryMethod" => is_fetched = reader.text()?? == "fetched",
                    _ => reader.pass_value()?,
                }
                Some(())
            })?,
            _ => reader.pass_value()?,
        }
        Some(())
    })?;
    Some(Wanted { consumer: 0, identifier: identifier?.into(), termination: termination?, topic: topic?, slack, is_fetched })
}
