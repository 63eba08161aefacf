//! What becomes of the slots of frames and of what they carry, counted.
use s3frame::{ReadRefusal, Refusal, StuffBits};
use serde::Serialize;
use std::fmt::{self, Display};
use std::ops::AddAssign;

/// What became of a slot, the worst last: other stuff bits than ones are no refusal, and the sooner a check fails, the worse.
#[derive(Clone, Copy, Debug, PartialEq, Eq, PartialOrd, Ord)]
pub enum Answer {
    Dummy,
    Accepted,
    OtherStuff,
    Bch,
    Parity,
}

impl Answer {
    /// The answer of a data slot. Reading it at its place, with areas of their lengths, has no other refusals.
    pub fn of(read: Result<StuffBits, ReadRefusal>) -> Answer {
        match read.map_err(Refusal::from) {
            Ok(StuffBits::ONES) => Answer::Accepted,
            Ok(_) => Answer::OtherStuff,
            Err(Refusal::Bch) => Answer::Bch,
            Err(Refusal::Parity) => Answer::Parity,
            Err(other) => unreachable!("a data slot at its place: {other}"),
        }
    }
}

/// What frames carried, counted by the kind of their packets: every number behind its name.
pub trait Carried: AddAssign + Copy + Default + Display + Serialize {}

/// Slots by answer, those accepted that have other stuff bits than ones, and what they carried.
#[derive(Clone, Copy, Default, Debug, PartialEq, Eq, Serialize)]
pub struct Tally<C> {
    accepted: u64,
    dummy: u64,
    parity: u64,
    #[serde(rename = "BCH")]
    bch: u64,
    other_stuff: u64,
    #[serde(flatten)]
    pub carried: C,
}

/// A slot that was refused, with what it lost: the packets that its plan has it carry or, of TLV packets, its octets; and the
/// lowest failing parity position, which a slot has that is refused for its parity.
#[derive(Clone, Copy, Debug, PartialEq, Eq, Serialize)]
pub struct Refused {
    pub slot: usize,
    number: u32,
    word: &'static str,
    lost: usize,
    pub position: Option<u16>,
}

impl Refused {
    pub fn new(slot: usize, refused: ReadRefusal, lost: usize) -> Refused {
        let ReadRefusal { refusal, position, .. } = refused;
        Refused { slot, number: refusal.number(), word: refusal.word(), lost, position }
    }
}

impl<C> Tally<C> {
    /// Counts a slot by its answer.
    pub fn answered(&mut self, answer: Answer) {
        let count = match answer {
            Answer::Dummy => &mut self.dummy,
            Answer::Accepted | Answer::OtherStuff => &mut self.accepted,
            Answer::Bch => &mut self.bch,
            Answer::Parity => &mut self.parity,
        };
        *count += 1;
        self.other_stuff += u64::from(answer == Answer::OtherStuff);
    }

    /// How many slots were refused.
    pub fn refused(&self) -> u64 {
        self.parity + self.bch
    }
}

impl<C: Carried> AddAssign for Tally<C> {
    fn add_assign(&mut self, other: Tally<C>) {
        self.accepted += other.accepted;
        self.dummy += other.dummy;
        self.parity += other.parity;
        self.bch += other.bch;
        self.other_stuff += other.other_stuff;
        self.carried += other.carried;
    }
}

/// Every number behind its name, as `accepted 94 dummy 26 ..`.
impl<C: Carried> Display for Tally<C> {
    fn fmt(&self, to: &mut fmt::Formatter) -> fmt::Result {
        let Tally { accepted, dummy, parity, bch, other_stuff, carried } = self;
        write!(to, "accepted {accepted} dummy {dummy} parity {parity} BCH {bch} other_stuff {other_stuff} {carried}")
    }
}

/// As `slot 2 refused 8 parity lost 23 position 4711`, or `slot 3 refused 9 BCH lost 23`.
impl Display for Refused {
    fn fmt(&self, to: &mut fmt::Formatter) -> fmt::Result {
        let Refused { slot, number, word, lost, position } = self;
        write!(to, "slot {slot} refused {number} {word} lost {lost}")?;
        position.map_or(Ok(()), |position| write!(to, " position {position}"))
    }
}

#[cfg(test)]
mod tests {
    use super::*;

    #[test]
    fn slots_with_other_stuff_bits_are_accepted() {
        let mut tally = Tally::default();
        let answers = [Answer::OtherStuff, Answer::Dummy, Answer::Accepted, Answer::Bch, Answer::OtherStuff];
        answers.into_iter().for_each(|answer| tally.answered(answer));
        assert_eq!(tally, Tally { accepted: 3, dummy: 1, parity: 0, bch: 1, other_stuff: 2, carried: () });
        assert_eq!(tally.refused(), 1);
    }

    #[test]
    fn a_position_stands_with_parity_alone() {
        let parity = Refused { slot: 2, number: 8, word: "parity", lost: 23, position: Some(4711) };
        let bch = Refused { slot: 3, number: 9, word: "BCH", lost: 23, position: None };
        assert_eq!(parity.to_string(), "slot 2 refused 8 parity lost 23 position 4711");
        assert_eq!(bch.to_string(), "slot 3 refused 9 BCH lost 23");
        let text = |refused| serde_json::to_string(&refused).expect("numbers and words can be written");
        assert_eq!(text(parity), r#"{"slot":2,"number":8,"word":"parity","lost":23,"position":4711}"#);
        assert_eq!(text(bch), r#"{"slot":3,"number":9,"word":"BCH","lost":23,"position":null}"#);
    }
}
