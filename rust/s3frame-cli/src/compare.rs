//! `s3frame compare`: which packets two lists have in common, and which one of them lacks.
use crate::failure::{Failure, Outcome};
use crate::files::{Content, Files};
use crate::gaps::{compare, Comparison, Digest, Gap};
use crate::inputs::Input;
use crate::packets::{is_null, SYNC};
use crate::progress::Progress;
use crate::report::Report;
use crate::words::CompareWords;
use s3frame::PACKET_OCTETS;
use std::collections::hash_map::DefaultHasher;
use std::hash::Hasher;
use std::ops::Range;
use std::time::Duration;

/// How long the search for packets in common may take. Lists that were mixed through and through need too long.
const PATIENCE: Duration = Duration::from_secs(3);

type Packet = [u8; PACKET_OCTETS];

fn digest(packet: &Packet) -> Digest {
    let half = |first: u8| {
        let mut hasher = DefaultHasher::new();
        hasher.write_u8(first);
        hasher.write(packet);
        Digest::from(hasher.finish())
    };
    half(0) << 64 | half(1)
}

/// What is kept of the packets behind those that agree from the front: their digests, and which are null packets.
#[derive(Default)]
struct Rest {
    digests: Vec<Digest>,
    null: Vec<bool>,
}

impl Rest {
    fn add(&mut self, packet: &Packet) {
        self.digests.push(digest(packet));
        self.null.push(is_null(packet));
    }
}

/// A list of packets as it is read, and what was counted.
struct List {
    input: Input,
    packets: usize,
    unsynced: usize,
    left_over: usize,
}

impl List {
    fn new(input: Input) -> List {
        List { input, packets: 0, unsynced: 0, left_over: 0 }
    }

    /// The next packet, or none where the list ends.
    fn next(&mut self) -> Result<Option<Packet>, Failure> {
        let mut packet = [0; PACKET_OCTETS];
        let octets = self.input.fill(&mut packet)?;
        if octets < PACKET_OCTETS {
            self.left_over += octets;
            return Ok(None);
        }
        self.packets += 1;
        self.unsynced += usize::from(packet[0] != SYNC);
        Ok(Some(packet))
    }

    /// A packet that was read, if any, and all that follow.
    fn rest(&mut self, first: Option<Packet>, read: impl Fn(u64)) -> Result<Rest, Failure> {
        let mut rest = Rest::default();
        first.iter().for_each(|packet| rest.add(packet));
        while let Some(packet) = self.next()? {
            rest.add(&packet);
            read(self.input.taken());
        }
        Ok(rest)
    }

    fn count(&self, name: &str, report: &mut Report) -> Result<(), Failure> {
        let unsynced = match self.unsynced {
            0 => String::new(),
            count => format!(", {count} without 0x47 in front, compared as they are"),
        };
        report.line(format_args!("{name} {}: {} packets{unsynced}", self.input.name(), self.packets))
    }
}

/// Compares two lists of packets.
pub fn run(words: &CompareWords) -> Result<Outcome, Failure> {
    let mut files = Files::default();
    let mut sent = List::new(files.open(Some(&words.sent), Content::Binary)?);
    let mut received = List::new(files.open(Some(&words.received), Content::Binary)?);
    let mut report = files.report()?;
    let (front, rests) = read(&mut sent, &mut received)?;
    sent.count("SENT", &mut report)?;
    received.count("RECEIVED", &mut report)?;
    let comparison = compare(front, &rests[0].digests, &rests[1].digests, PATIENCE);
    tell(&comparison, &rests, [sent.packets, received.packets], &mut report)?;
    let outcome = Outcome::new(!comparison.gaps.is_empty());
    let outcome = outcome.left_over(sent.input.name(), "packet", sent.left_over);
    Ok(outcome.left_over(received.input.name(), "packet", received.left_over))
}

/// Reads both lists: how many packets agree from the front, and the others.
fn read(sent: &mut List, received: &mut List) -> Result<(usize, [Rest; 2]), Failure> {
    let octets = sent.input.octets().zip(received.input.octets());
    let progress = Progress::new(octets.map(|(one, other)| one + other));
    let (mut front, mut two) = (0, (sent.next()?, received.next()?));
    while two.0.is_some() && two.0 == two.1 {
        front += 1;
        progress.at(sent.input.taken() + received.input.taken());
        two = (sent.next()?, received.next()?);
    }
    let of_sent = sent.rest(two.0, |octets| progress.at(octets + received.input.taken()))?;
    let of_received = received.rest(two.1, |octets| progress.at(sent.input.taken() + octets))?;
    Ok((front, [of_sent, of_received]))
}

fn tell(comparison: &Comparison, rests: &[Rest; 2], packets: [usize; 2], report: &mut Report) -> Result<(), Failure> {
    report.line(format_args!("agree from the front: {} packets", comparison.front))?;
    report.line(format_args!("agree from the end: {} packets", comparison.end))?;
    if comparison.gaps.is_empty() {
        return report.line(format_args!("the lists are equal"));
    }
    report.line(format_args!("between them, packets counted from 0:"))?;
    for gap in &comparison.gaps {
        let numbers = |run: &_, rest: &_| numbers(run, rest, comparison.front);
        tell_run("SENT", numbers(&gap.sent, &rests[0]), "RECEIVED", gap.received.start, packets[1], report)?;
        tell_run("RECEIVED", numbers(&gap.received, &rests[1]), "SENT", gap.sent.end, packets[0], report)?;
    }
    if !comparison.whole {
        let seconds = PATIENCE.as_secs();
        report.line(format_args!("the search ended after {seconds} seconds: more packets may be in both lists"))?;
    }
    let only = |packets: fn(&Gap) -> usize| comparison.gaps.iter().map(packets).sum::<usize>();
    let (sent, received) = (only(|gap| gap.sent.len()), only(|gap| gap.received.len()));
    report.line(format_args!("only in SENT {sent}, only in RECEIVED {received}"))
}

/// How many packets a run has, their numbers, and how many are null packets; nothing for a run without packets.
fn numbers(run: &Range<usize>, rest: &Rest, front: usize) -> Option<String> {
    let null = rest.null[run.start - front..run.end - front].iter().filter(|null| **null).count();
    let of_them = match null {
        0 => String::new(),
        all if all == run.len() => ", null".to_string(),
        some => format!(", {some} of them null"),
    };
    match run.len() {
        0 => None,
        1 => Some(format!("1 packet, {}{of_them}", run.start)),
        count => Some(format!("{count} packets, {} to {}{of_them}", run.start, run.end - 1)),
    }
}

/// The line of a run that only one list has: the other, of so many packets, goes on at a place.
fn tell_run(
    name: &str,
    numbers: Option<String>,
    other: &str,
    place: usize,
    packets: usize,
    report: &mut Report,
) -> Result<(), Failure> {
    let after = if place < packets { format!("goes on at {place}") } else { "has ended".to_string() };
    numbers.map_or(Ok(()), |numbers| report.line(format_args!("only in {name}: {numbers}; {other} {after}")))
}
