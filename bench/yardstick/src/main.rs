//! What `siri` is measured against: an ordinary program on `serde_json`, which knows nothing of the profile.
//!
//! `yardstick convert` parses the document on standard input to a tree, and writes the tree compactly. `yardstick replay`
//! reads a script: of each `feed` line it keeps the visits as trees, and at each `ask` line it writes those of the asked
//! monitoring point, looking at all of them. It neither sorts them nor knows which of them are current.
//!
//! `yardstick --by-hand convert` and `yardstick --by-hand check` are a second yardstick, which takes no library and goes over
//! the bytes once: `by_hand`. `yardstick --by-hand replay` and `yardstick --by-hand load SEED COUNT` are a third one, a producer and
//! its consumers: `ends`.
mod by_hand;
mod ends;

use std::env;
use std::io::{self, BufRead, BufWriter, Read, Write};

use serde_json::Value;

fn main() -> io::Result<()> {
    match env::args().nth(1).as_deref() {
        Some("--by-hand") => by_hand(&env::args().skip(2).collect::<Vec<_>>()),
        Some("convert") => convert(),
        Some("replay") => replay(),
        _ => Err(usage()),
    }
}

fn usage() -> io::Error {
    io::Error::new(io::ErrorKind::InvalidInput, "convert, replay or --by-hand")
}

fn by_hand(words: &[String]) -> io::Result<()> {
    match words {
        [word] if word == "replay" => ends::replay(),
        [word] => by_hand::run(word),
        [word, seed, count] if word == "load" => match (seed.parse(), count.parse()) {
            (Ok(seed), Ok(count)) => writeln!(io::stdout(), "{}", ends::load(seed, count)),
            _ => Err(usage()),
        },
        _ => Err(usage()),
    }
}

fn convert() -> io::Result<()> {
    let mut document = Vec::new();
    io::stdin().lock().read_to_end(&mut document)?;
    let tree: Value = serde_json::from_slice(&document)?;
    drop(document);
    let text = serde_json::to_vec(&tree)?;
    let mut output = io::stdout().lock();
    output.write_all(&text)?;
    output.write_all(b"\n")
}

fn replay() -> io::Result<()> {
    let mut visits = Vec::new();
    let mut output = BufWriter::new(io::stdout().lock());
    for line in io::stdin().lock().lines() {
        let line = line?;
        match line.split_once(' ') {
            Some(("feed", document)) => take_visits(&serde_json::from_str(document)?, &mut visits),
            Some(("ask", document)) => answer(&serde_json::from_str(document)?, &visits, &mut output)?,
            _ => (),
        }
    }
    output.flush()
}

fn take_visits(document: &Value, visits: &mut Vec<Value>) {
    let fed = &document["Siri"]["ServiceDelivery"]["StopMonitoringDelivery"][0]["MonitoredStopVisit"];
    visits.extend(fed.as_array().into_iter().flatten().cloned());
}

fn answer(document: &Value, visits: &[Value], output: &mut impl Write) -> io::Result<()> {
    let stop = &document["Siri"]["ServiceRequest"]["StopMonitoringRequest"][0]["MonitoringRef"];
    let shown: Vec<&Value> = visits.iter().filter(|visit| visit["MonitoringRef"]["value"] == *stop).collect();
    serde_json::to_writer(&mut *output, &shown)?;
    output.write_all(b"\n")
}
