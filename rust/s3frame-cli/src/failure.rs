//! How a run ends: what it found, or what stopped it.
use s3frame::Refusal;
use std::fmt::{self, Display};

/// The exit status of a run that was stopped, or never began.
pub const STOPPED: i32 = 2;

/// A line about a file or a setting: which one, and what is wrong with it.
#[derive(Debug)]
pub struct Failure {
    about: String,
    wrong: String,
}

impl Failure {
    pub fn new(about: impl Display, wrong: impl Display) -> Failure {
        Failure { about: about.to_string(), wrong: wrong.to_string() }
    }

    /// A refusal with more to say than what its number means.
    pub fn refused(about: impl Display, refusal: Refusal, why: impl Display) -> Failure {
        Failure::new(about, format!("refused {} {}: {why}", refusal.number(), refusal.word()))
    }

    /// A packet that was refused, by its number and the octet of the stream where it begins.
    pub fn refused_packet(about: &str, refusal: Refusal, packet: u64, octet: u64, why: impl Display) -> Failure {
        let why = format!("packet {packet}, counted from 0, at octet {octet}, {why}");
        Failure::refused(about, refusal, why)
    }

    /// A stream without a single packet, slot or frame, of so many octets.
    pub fn without(name: &str, unit: &str, octets: usize) -> Failure {
        match octets {
            0 => Failure::new(name, format!("has no {unit}s")),
            _ => Failure::new(name, format!("has no whole {unit}: it ends after {octets} octets")),
        }
    }
}

impl Display for Failure {
    fn fmt(&self, to: &mut fmt::Formatter) -> fmt::Result {
        write!(to, "{}: {}", self.about, self.wrong)
    }
}

/// How a run went that came to its end: whether it found slots refused or lists that differ, and streams that were cut.
pub struct Outcome {
    pub found: bool,
    pub cut: Vec<Failure>,
}

impl Outcome {
    /// The outcome of a run whose streams were whole so far.
    pub fn new(found: bool) -> Outcome {
        Outcome { found, cut: Vec::new() }
    }

    /// The outcome with one stream more, of which so many octets were left over behind its last whole unit.
    pub fn left_over(mut self, name: &str, unit: &str, octets: usize) -> Outcome {
        if octets > 0 {
            self.cut.push(Failure::new(name, format!("ends inside a {unit}: {octets} octets left over")));
        }
        self
    }

    /// The exit status.
    pub fn status(&self) -> i32 {
        i32::from(self.found || !self.cut.is_empty())
    }
}
