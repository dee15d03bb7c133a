//! A second yardstick for documents: what a Rust programmer writes by hand who knows what the document looks like. It goes
//! over the bytes once, from front to back, into structs of visits, and writes the canonical text, the same as `siri convert`
//! writes. It is for the deliveries of `make.py` alone: it passes over members that it has no field for, and it stops at the
//! first thing that isn't as there. It has no refusals with a path, no other messages and no bound of a text.
use std::borrow::Cow;
use std::io::{self, Read, Write};

/// `ServiceDelivery` of stop visits: all that a bench's delivery says.
#[derive(Default)]
struct Delivery {
    response_timestamp: Option<i64>,
    producer_ref: Option<String>,
    status: Option<bool>,
    services: Vec<Service>,
}

#[derive(Default)]
struct Service {
    response_timestamp: Option<i64>,
    status: Option<bool>,
    visits: Vec<Visit>,
}

#[derive(Default)]
pub(crate) struct Visit {
    recorded_at_time: Option<i64>,
    pub(crate) item_identifier: Option<String>,
    pub(crate) monitoring_ref: Option<String>,
    pub(crate) journey: Journey,
}

#[derive(Default)]
pub(crate) struct Journey {
    line_ref: Option<String>,
    direction_ref: Option<String>,
    data_frame_ref: Option<String>,
    dated_vehicle_journey_ref: Option<String>,
    destination_name: Option<String>,
    pub(crate) delay: Option<i64>,
    longitude: Option<i64>,
    latitude: Option<i64>,
    pub(crate) call: Call,
}

#[derive(Default)]
pub(crate) struct Call {
    stop_point_name: Option<String>,
    order: Option<u64>,
    vehicle_at_stop: Option<bool>,
    pub(crate) aimed_departure_time: Option<i64>,
    pub(crate) expected_departure_time: Option<i64>,
    departure_status: Option<String>,
}

/// Reads a delivery from standard input, and writes its canonical text, or `ok ServiceDelivery` where it is only checked.
pub fn run(command: &str) -> io::Result<()> {
    let mut document = Vec::new();
    io::stdin().lock().read_to_end(&mut document)?;
    let text = std::str::from_utf8(&document).map_err(|_| wrong())?;
    let delivery = read(text).ok_or_else(wrong)?;
    let mut output = match command {
        "check" => b"ok ServiceDelivery".to_vec(),
        _ => written(&delivery),
    };
    output.push(b'\n');
    io::stdout().lock().write_all(&output)
}

fn wrong() -> io::Error {
    io::Error::new(io::ErrorKind::InvalidData, "no delivery of the bench")
}

// ---- reading

/// The bytes that end the plain part of a string: a quote, a backslash, and control characters, which may not stand there.
const STOPS: [bool; 256] = {
    let mut stops = [false; 256];
    let mut byte = 0;
    while byte < 32 {
        stops[byte] = true;
        byte += 1;
    }
    stops[b'"' as usize] = true;
    stops[b'\\' as usize] = true;
    stops
};

pub(crate) struct Reader<'a> {
    pub(crate) text: &'a str,
    pub(crate) at: usize,
}

fn read(text: &str) -> Option<Delivery> {
    let mut reader = Reader { text, at: 0 };
    let mut delivery = Delivery::default();
    reader.object(|reader, name| match name {
        "Siri" => reader.object(|reader, name| match name {
            "ServiceDelivery" => reader.delivery(&mut delivery),
            _ => reader.pass_value(),
        }),
        _ => reader.pass_value(),
    })?;
    reader.space();
    (reader.at == text.len()).then_some(delivery)
}

impl<'a> Reader<'a> {
    fn delivery(&mut self, delivery: &mut Delivery) -> Option<()> {
        self.object(|reader, name| {
            match name {
                "ResponseTimestamp" => delivery.response_timestamp = moment(&reader.text()??)?,
                "ProducerRef" => delivery.producer_ref = reader.owned()?,
                "Status" => delivery.status = Some(reader.flag()?),
                "StopMonitoringDelivery" => return reader.list(|reader| {
                    let mut service = Service::default();
                    reader.service(&mut service)?;
                    delivery.services.push(service);
                    Some(())
                }),
                _ => reader.pass_value()?,
            }
            Some(())
        })
    }

    fn service(&mut self, service: &mut Service) -> Option<()> {
        self.object(|reader, name| {
            match name {
                "ResponseTimestamp" => service.response_timestamp = moment(&reader.text()??)?,
                "Status" => service.status = Some(reader.flag()?),
                "MonitoredStopVisit" => return reader.list(|reader| {
                    let mut visit = Visit::default();
                    reader.visit(&mut visit)?;
                    service.visits.push(visit);
                    Some(())
                }),
                _ => reader.pass_value()?,
            }
            Some(())
        })
    }

    pub(crate) fn visit(&mut self, visit: &mut Visit) -> Option<()> {
        self.object(|reader, name| {
            match name {
                "RecordedAtTime" => visit.recorded_at_time = moment(&reader.text()??)?,
                "ItemIdentifier" => visit.item_identifier = reader.owned()?,
                "MonitoringRef" => visit.monitoring_ref = reader.owned()?,
                "MonitoredVehicleJourney" => reader.journey(&mut visit.journey)?,
                _ => reader.pass_value()?,
            }
            Some(())
        })
    }

    fn journey(&mut self, journey: &mut Journey) -> Option<()> {
        self.object(|reader, name| {
            match name {
                "LineRef" => journey.line_ref = reader.owned()?,
                "DirectionRef" => journey.direction_ref = reader.owned()?,
                "FramedVehicleJourneyRef" => reader.object(|reader, name| {
                    match name {
                        "DataFrameRef" => journey.data_frame_ref = reader.owned()?,
                        "DatedVehicleJourneyRef" => journey.dated_vehicle_journey_ref = reader.owned()?,
                        _ => reader.pass_value()?,
                    }
                    Some(())
                })?,
                "DestinationName" => journey.destination_name = reader.owned()?,
                "Delay" => journey.delay = Some(span(&reader.text()??)?),
                "VehicleLocation" => reader.object(|reader, name| {
                    match name {
                        "Longitude" => journey.longitude = Some(decimal(&reader.text()??)?),
                        "Latitude" => journey.latitude = Some(decimal(&reader.text()??)?),
                        _ => reader.pass_value()?,
                    }
                    Some(())
                })?,
                "MonitoredCall" => reader.call(&mut journey.call)?,
                _ => reader.pass_value()?,
            }
            Some(())
        })
    }

    fn call(&mut self, call: &mut Call) -> Option<()> {
        self.object(|reader, name| {
            match name {
                "StopPointName" => call.stop_point_name = reader.owned()?,
                "Order" => call.order = Some(reader.text()??.parse().ok()?),
                "VehicleAtStop" => call.vehicle_at_stop = Some(reader.flag()?),
                "AimedDepartureTime" => call.aimed_departure_time = moment(&reader.text()??)?,
                "ExpectedDepartureTime" => call.expected_departure_time = moment(&reader.text()??)?,
                "DepartureStatus" => call.departure_status = reader.owned()?,
                _ => reader.pass_value()?,
            }
            Some(())
        })
    }

    fn space(&mut self) {
        while matches!(self.text.as_bytes().get(self.at), Some(b' ' | b'\t' | b'\n' | b'\r')) {
            self.at += 1;
        }
    }

    /// The next byte that isn't space, which isn't passed.
    fn peek(&mut self) -> Option<u8> {
        self.space();
        self.text.as_bytes().get(self.at).copied()
    }

    fn byte(&mut self, wanted: u8) -> Option<()> {
        (self.peek()? == wanted).then(|| self.at += 1)
    }

    fn word(&mut self, wanted: &str) -> Option<()> {
        self.text.as_bytes()[self.at..].starts_with(wanted.as_bytes()).then(|| self.at += wanted.len())
    }

    /// An object: `member` is called behind the colon of each name, and reads its value.
    pub(crate) fn object(&mut self, mut member: impl FnMut(&mut Self, &str) -> Option<()>) -> Option<()> {
        self.byte(b'{')?;
        if self.peek()? == b'}' {
            return self.byte(b'}');
        }
        loop {
            let name = self.string()?;
            self.byte(b':')?;
            member(self, &name)?;
            match self.peek()? {
                b',' => self.at += 1,
                _ => return self.byte(b'}'),
            }
        }
    }

    /// A list, or a value by itself, which is its own only entry.
    pub(crate) fn list(&mut self, mut entry: impl FnMut(&mut Self) -> Option<()>) -> Option<()> {
        if self.peek()? != b'[' {
            return entry(self);
        }
        self.at += 1;
        if self.peek()? == b']' {
            return self.byte(b']');
        }
        loop {
            entry(self)?;
            match self.peek()? {
                b',' => self.at += 1,
                _ => return self.byte(b']'),
            }
        }
    }

    /// A string: its own bytes where it has no escape.
    fn string(&mut self) -> Option<Cow<'a, str>> {
        self.byte(b'"')?;
        let start = self.at;
        let rest = &self.text.as_bytes()[start..];
        let len = rest.iter().position(|byte| STOPS[*byte as usize])?;
        self.at += len;
        match rest[len] {
            b'"' => {
                self.at += 1;
                Some(Cow::Borrowed(&self.text[start..start + len]))
            }
            b'\\' => self.escaped(start).map(Cow::Owned),
            _ => None,
        }
    }

    /// The rest of a string that has an escape.
    fn escaped(&mut self, start: usize) -> Option<String> {
        let mut text = self.text[start..self.at].to_owned();
        loop {
            let next = self.text[self.at..].chars().next()?;
            self.at += next.len_utf8();
            match next {
                '"' => return Some(text),
                '\\' => {
                    let letter = *self.text.as_bytes().get(self.at)?;
                    self.at += 1;
                    text.push(match letter {
                        b'"' | b'\\' | b'/' => letter as char,
                        b'b' => '\u{8}',
                        b'f' => '\u{c}',
                        b'n' => '\n',
                        b'r' => '\r',
                        b't' => '\t',
                        b'u' => self.code_point()?,
                        _ => return None,
                    });
                }
                _ if next < ' ' => return None,
                _ => text.push(next),
            }
        }
    }

    fn code_point(&mut self) -> Option<char> {
        let high = self.four_digits()?;
        if !(0xD800..0xDC00).contains(&high) {
            return char::from_u32(high);
        }
        self.word("\\u")?;
        let low = self.four_digits()?;
        (0xDC00..0xE000).contains(&low).then_some(())?;
        char::from_u32(0x10000 + ((high - 0xD800) << 10) + (low - 0xDC00))
    }

    fn four_digits(&mut self) -> Option<u32> {
        let digits = self.text.get(self.at..self.at + 4)?;
        self.at += 4;
        digits.bytes().try_fold(0, |number, byte| Some(16 * number + (byte as char).to_digit(16)?))
    }

    /// The text of a number, by the grammar of JSON.
    fn number(&mut self) -> Option<&'a str> {
        let start = self.at;
        let bytes = self.text.as_bytes();
        if bytes.get(self.at) == Some(&b'-') {
            self.at += 1;
        }
        if bytes.get(self.at) == Some(&b'0') {
            self.at += 1;
        } else {
            self.digits()?;
        }
        if bytes.get(self.at) == Some(&b'.') {
            self.at += 1;
            self.digits()?;
        }
        if matches!(bytes.get(self.at), Some(b'e' | b'E')) {
            self.at += 1;
            if matches!(bytes.get(self.at), Some(b'+' | b'-')) {
                self.at += 1;
            }
            self.digits()?;
        }
        Some(&self.text[start..self.at])
    }

    fn digits(&mut self) -> Option<()> {
        let start = self.at;
        while matches!(self.text.as_bytes().get(self.at), Some(b'0'..=b'9')) {
            self.at += 1;
        }
        (self.at > start).then_some(())
    }

    /// The text of a value, as the profile reads it: a string, a number, an object's at `value`, a list's first.
    pub(crate) fn text(&mut self) -> Option<Option<Cow<'a, str>>> {
        let mut found = None;
        match self.peek()? {
            b'"' => found = Some(self.string()?),
            b'{' => self.object(|reader, name| {
                match name {
                    "value" => found = reader.text()?,
                    _ => reader.pass_value()?,
                }
                Some(())
            })?,
            b'[' => {
                let mut is_first = true;
                self.list(|reader| {
                    if std::mem::take(&mut is_first) {
                        found = reader.text()?;
                        return Some(());
                    }
                    reader.pass_value()
                })?
            }
            b'-' | b'0'..=b'9' => found = Some(Cow::Borrowed(self.number()?)),
            _ => return None,
        }
        Some(found.filter(|text| !text.is_empty()))
    }

    pub(crate) fn owned(&mut self) -> Option<Option<String>> {
        Some(self.text()?.map(Cow::into_owned))
    }

    pub(crate) fn flag(&mut self) -> Option<bool> {
        match self.peek()? {
            b't' => self.word("true").map(|()| true),
            b'f' => self.word("false").map(|()| false),
            _ => match &*self.text()?? {
                "true" | "1" => Some(true),
                "false" | "0" => Some(false),
                _ => None,
            },
        }
    }

    pub(crate) fn pass_value(&mut self) -> Option<()> {
        match self.peek()? {
            b'{' => self.object(|reader, _| reader.pass_value()),
            b'[' => self.list(|reader| reader.pass_value()),
            b'"' => self.string().map(drop),
            b't' => self.word("true"),
            b'f' => self.word("false"),
            b'n' => self.word("null"),
            _ => self.number().map(drop),
        }
    }
}

/// The milliseconds since 1970 of `YYYY-MM-DDThh:mm:ss`, a fraction and an offset.
pub(crate) fn moment(text: &str) -> Option<Option<i64>> {
    let bytes = text.as_bytes();
    let two = |at: usize| -> Option<i64> {
        match bytes.get(at..at + 2)? {
            [a @ b'0'..=b'9', b @ b'0'..=b'9'] => Some(10 * i64::from(a - b'0') + i64::from(b - b'0')),
            _ => None,
        }
    };
    let marks = [(4, b'-'), (7, b'-'), (10, b'T'), (13, b':'), (16, b':')];
    if bytes.len() < 20 || marks.iter().any(|(at, mark)| bytes[*at] != *mark) {
        return None;
    }
    let (year, month, day) = (100 * two(0)? + two(2)?, two(5)?, two(8)?);
    let (hour, minute, second) = (two(11)?, two(14)?, two(17)?);
    let is_leap = year % 4 == 0 && (year % 100 != 0 || year % 400 == 0);
    let month_days = [31, if is_leap { 29 } else { 28 }, 31, 30, 31, 30, 31, 31, 30, 31, 30, 31];
    if !(1..=12).contains(&month) || day < 1 || day > month_days[month as usize - 1] || hour > 23 || minute > 59 || second > 59 {
        return None;
    }
    let mut at = 19;
    let mut thousandths = 0;
    if bytes.get(at) == Some(&b'.') {
        let digits = bytes[at + 1..].iter().take_while(|byte| byte.is_ascii_digit()).count();
        if digits == 0 {
            return None;
        }
        for place in 0..3 {
            thousandths = 10 * thousandths + if place < digits { i64::from(bytes[at + 1 + place] - b'0') } else { 0 };
        }
        at += 1 + digits;
    }
    let offset = match &bytes[at..] {
        [b'Z'] => 0,
        [sign @ (b'+' | b'-'), _, _, b':', _, _] => {
            let minutes = 60 * two(at + 1)? + two(at + 4)?;
            if *sign == b'-' { -minutes } else { minutes }
        }
        _ => return None,
    };
    let days = days_before(year, month) + day - 1;
    Some(Some(86_400_000 * days + 1000 * (3600 * hour + 60 * minute + second) + thousandths - 60_000 * offset))
}

/// The days from 1970 to a month of a year.
fn days_before(year: i64, month: i64) -> i64 {
    let year = if month <= 2 { year - 1 } else { year };
    let in_year = (153 * ((month + 9) % 12) + 2) / 5;
    365 * year + year / 4 - year / 100 + year / 400 + in_year - 719_468
}

/// The milliseconds of `PnDTnHnMnS`, as the bench has them.
pub(crate) fn span(text: &str) -> Option<i64> {
    let (sign, rest) = match text.strip_prefix('-') {
        Some(rest) => (-1, rest),
        None => (1, text),
    };
    let mut total = 0;
    let mut number = None;
    for byte in rest.strip_prefix('P')?.bytes() {
        match byte {
            b'T' => (),
            b'D' => total += 86_400_000 * number.take()?,
            b'0'..=b'9' => number = Some(10 * number.unwrap_or(0) + i64::from(byte - b'0')),
            b'H' => total += 3_600_000 * number.take()?,
            b'M' => total += 60_000 * number.take()?,
            b'S' => total += 1000 * number.take()?,
            _ => return None,
        }
    }
    number.is_none().then_some(sign * total)
}

/// A decimal in 10^-7 degrees.
fn decimal(text: &str) -> Option<i64> {
    let (sign, rest) = match text.strip_prefix('-') {
        Some(rest) => (-1, rest),
        None => (1, text),
    };
    let (whole, fraction) = rest.split_once('.').unwrap_or((rest, ""));
    let mut units: i64 = whole.parse().ok()?;
    for place in 0..7 {
        units = 10 * units + match fraction.as_bytes().get(place) {
            Some(byte @ b'0'..=b'9') => i64::from(byte - b'0'),
            Some(_) => return None,
            None => 0,
        };
    }
    (units <= 1_800_000_000).then_some(sign * units)
}

// ---- writing

pub(crate) struct Writer {
    pub(crate) text: Vec<u8>,
}

/// The canonical text: compact, the members in byte order of their names.
fn written(delivery: &Delivery) -> Vec<u8> {
    let mut writer = Writer { text: Vec::new() };
    writer.raw(b"{\"Siri\":{\"ServiceDelivery\":{");
    writer.string("ProducerRef", &delivery.producer_ref);
    writer.moment("ResponseTimestamp", delivery.response_timestamp);
    writer.flag("Status", Some(delivery.status != Some(false)));
    writer.list("StopMonitoringDelivery", &delivery.services, |writer, service| {
        writer.list("MonitoredStopVisit", &service.visits, Writer::visit);
        writer.moment("ResponseTimestamp", service.response_timestamp);
        writer.flag("Status", Some(service.status != Some(false)));
    });
    writer.raw(b"}}}");
    writer.text
}

impl Writer {
    pub(crate) fn visit(&mut self, visit: &Visit) {
        self.string("ItemIdentifier", &visit.item_identifier);
        self.object("MonitoredVehicleJourney", |writer| writer.journey(&visit.journey));
        self.string("MonitoringRef", &visit.monitoring_ref);
        self.moment("RecordedAtTime", visit.recorded_at_time);
    }

    fn journey(&mut self, journey: &Journey) {
        self.span("Delay", journey.delay);
        self.string("DestinationName", &journey.destination_name);
        self.string("DirectionRef", &journey.direction_ref);
        if journey.dated_vehicle_journey_ref.is_some() {
            self.object("FramedVehicleJourneyRef", |writer| {
                writer.string("DataFrameRef", &journey.data_frame_ref);
                writer.string("DatedVehicleJourneyRef", &journey.dated_vehicle_journey_ref);
            });
        }
        self.string("LineRef", &journey.line_ref);
        self.object("MonitoredCall", |writer| {
            let call = &journey.call;
            writer.moment("AimedDepartureTime", call.aimed_departure_time);
            writer.string("DepartureStatus", &call.departure_status);
            writer.moment("ExpectedDepartureTime", call.expected_departure_time);
            writer.number("Order", call.order);
            writer.string("StopPointName", &call.stop_point_name);
            writer.flag("VehicleAtStop", call.vehicle_at_stop);
        });
        if journey.latitude.is_some() || journey.longitude.is_some() {
            self.object("VehicleLocation", |writer| {
                writer.decimal("Latitude", journey.latitude);
                writer.decimal("Longitude", journey.longitude);
            });
        }
    }

    pub(crate) fn raw(&mut self, bytes: &[u8]) {
        self.text.extend_from_slice(bytes);
    }

    /// A member's name, behind a comma where it isn't the first.
    pub(crate) fn name(&mut self, name: &str) {
        if !matches!(self.text.last(), Some(b'{' | b'[')) {
            self.text.push(b',');
        }
        self.text.push(b'"');
        self.raw(name.as_bytes());
        self.raw(b"\":");
    }

    pub(crate) fn object(&mut self, name: &str, rows: impl FnOnce(&mut Self)) {
        self.name(name);
        self.text.push(b'{');
        rows(self);
        self.text.push(b'}');
    }

    pub(crate) fn list<T>(&mut self, name: &str, entries: &[T], mut rows: impl FnMut(&mut Self, &T)) {
        if entries.is_empty() {
            return;
        }
        self.name(name);
        self.text.push(b'[');
        for (place, entry) in entries.iter().enumerate() {
            self.raw(if place == 0 { b"{" } else { b",{" });
            rows(self, entry);
            self.text.push(b'}');
        }
        self.text.push(b']');
    }

    pub(crate) fn string(&mut self, name: &str, text: &Option<String>) {
        let Some(text) = text else { return };
        self.name(name);
        self.text.push(b'"');
        let mut rest = text.as_bytes();
        while let Some(place) = rest.iter().position(|byte| STOPS[*byte as usize]) {
            self.raw(&rest[..place]);
            match rest[place] {
                b'"' => self.raw(b"\\\""),
                b'\\' => self.raw(b"\\\\"),
                8 => self.raw(b"\\b"),
                9 => self.raw(b"\\t"),
                10 => self.raw(b"\\n"),
                12 => self.raw(b"\\f"),
                13 => self.raw(b"\\r"),
                other => self.raw(format!("\\u{other:04x}").as_bytes()),
            }
            rest = &rest[place + 1..];
        }
        self.raw(rest);
        self.text.push(b'"');
    }

    pub(crate) fn flag(&mut self, name: &str, flag: Option<bool>) {
        let Some(flag) = flag else { return };
        self.name(name);
        self.raw(if flag { b"true" } else { b"false" });
    }

    pub(crate) fn number(&mut self, name: &str, number: Option<u64>) {
        let Some(number) = number else { return };
        self.name(name);
        self.digits(number);
    }

    fn digits(&mut self, mut number: u64) {
        let mut buffer = [0; 20];
        let mut at = buffer.len();
        loop {
            at -= 1;
            buffer[at] = b'0' + (number % 10) as u8;
            number /= 10;
            if number == 0 {
                break;
            }
        }
        self.raw(&buffer[at..]);
    }

    fn wide(&mut self, width: usize, mut number: u64) {
        let mut buffer = [b'0'; 8];
        for place in (0..width).rev() {
            buffer[place] += (number % 10) as u8;
            number /= 10;
        }
        self.raw(&buffer[..width]);
    }

    pub(crate) fn moment(&mut self, name: &str, moment: Option<i64>) {
        let Some(moment) = moment else { return };
        self.name(name);
        let (days, rest) = (moment / 86_400_000 + 719_468, (moment % 86_400_000) as u64);
        let century = days / 146_097;
        let in_century = days % 146_097;
        let years = (in_century - in_century / 1460 + in_century / 36_524 - in_century / 146_096) / 365;
        let in_year = in_century - (365 * years + years / 4 - years / 100);
        let shifted = (5 * in_year + 2) / 153;
        let day = in_year - (153 * shifted + 2) / 5 + 1;
        let month = if shifted < 10 { shifted + 3 } else { shifted - 9 };
        let year = years + 400 * century + i64::from(month <= 2);
        self.text.push(b'"');
        for (width, number, mark) in [(4, year as u64, b'-'), (2, month as u64, b'-'), (2, day as u64, b'T')] {
            self.wide(width, number);
            self.text.push(mark);
        }
        self.wide(2, rest / 3_600_000);
        self.text.push(b':');
        self.wide(2, rest / 60_000 % 60);
        self.text.push(b':');
        self.wide(2, rest / 1000 % 60);
        if rest % 1000 != 0 {
            self.text.push(b'.');
            self.wide(3, rest % 1000);
        }
        self.raw(b"Z\"");
    }

    pub(crate) fn span(&mut self, name: &str, span: Option<i64>) {
        let Some(span) = span else { return };
        self.name(name);
        self.raw(if span < 0 { b"\"-P" } else { b"\"P" });
        let seconds = span.unsigned_abs() / 1000;
        if seconds == 0 {
            return self.raw(b"T0S\"");
        }
        self.part(seconds / 86_400, b'D');
        if seconds % 86_400 != 0 {
            self.text.push(b'T');
        }
        self.part(seconds / 3600 % 24, b'H');
        self.part(seconds / 60 % 60, b'M');
        self.part(seconds % 60, b'S');
        self.text.push(b'"');
    }

    fn part(&mut self, number: u64, letter: u8) {
        if number != 0 {
            self.digits(number);
            self.text.push(letter);
        }
    }

    fn decimal(&mut self, name: &str, units: Option<i64>) {
        let Some(units) = units else { return };
        self.name(name);
        self.raw(if units < 0 { b"\"-" } else { b"\"" });
        let magnitude = units.unsigned_abs();
        self.digits(magnitude / 10_000_000);
        let fraction = magnitude % 10_000_000;
        if fraction != 0 {
            self.text.push(b'.');
            self.wide(7, fraction);
            while self.text.last() == Some(&b'0') {
                self.text.pop();
            }
        }
        self.text.push(b'"');
    }
}
