//! Why something received was not read, and where its parity broke.
use crate::bindings::{s3_word_answer, S3_NO_POSITION};
use crate::refusal::answer;
use crate::Refusal;
use std::error::Error;
use std::fmt;

/// Why a slot or a TMCC block was not read.
#[derive(Clone, Copy, Debug, PartialEq, Eq, Hash)]
#[non_exhaustive]
pub struct ReadRefusal {
    /// What is wrong.
    pub refusal: Refusal,
    /// With [`Refusal::Parity`] the lowest failing position among the parity bits, counted from 0, in a TMCC block too; with
    /// any other refusal none.
    pub position: Option<u16>,
}

/// What a call says for a position where its answer isn't [`Refusal::Parity`].
const NO_POSITION: u16 = S3_NO_POSITION as u16;

/// The result of a reading call's number and position.
pub(crate) fn read_answer(number: u8, position: u16) -> Result<(), ReadRefusal> {
    debug_assert_eq!(position == NO_POSITION, number != Refusal::Parity as u8, "the contracts of the calls");
    let position = Some(position).filter(|&position| position != NO_POSITION);
    answer(number).map_err(|refusal| ReadRefusal { refusal, position })
}

/// That of a call which answers both and no more.
pub(crate) fn word_answer(told: s3_word_answer) -> Result<(), ReadRefusal> {
    read_answer(told.number, told.position)
}

/// As [`Refusal`] is printed, and the position where there is one.
impl fmt::Display for ReadRefusal {
    fn fmt(&self, f: &mut fmt::Formatter<'_>) -> fmt::Result {
        match self.position {
            Some(position) => write!(f, "{}, first at position {position}", self.refusal),
            None => self.refusal.fmt(f),
        }
    }
}

impl Error for ReadRefusal {}

impl From<ReadRefusal> for Refusal {
    fn from(refused: ReadRefusal) -> Refusal {
        refused.refusal
    }
}

#[cfg(test)]
mod tests {
    use super::*;

    #[test]
    fn parity_alone_has_a_position() {
        assert_eq!(read_answer(0, 65535), Ok(()));
        for position in [0, 1, 29545] {
            let refused = ReadRefusal { refusal: Refusal::Parity, position: Some(position) };
            assert_eq!(read_answer(8, position), Err(refused));
        }
        for refusal in Refusal::ALL.into_iter().filter(|&refusal| refusal != Refusal::Parity) {
            assert_eq!(read_answer(refusal as u8, 65535), Err(ReadRefusal { refusal, position: None }));
        }
    }

    #[test]
    fn a_refusal_prints_its_position_where_it_has_one() {
        let printed = |number, position| read_answer(number, position).expect_err("a refusal").to_string();
        assert_eq!(printed(8, 0), "refused 8 parity: some LDPC parity bit is wrong, first at position 0");
        assert_eq!(printed(8, 29545), "refused 8 parity: some LDPC parity bit is wrong, first at position 29545");
        assert_eq!(printed(9, 65535), Refusal::Bch.to_string());
        assert_eq!(printed(4, 65535), Refusal::Length.to_string());
    }

    #[test]
    fn the_refusal_by_itself() {
        let refused = read_answer(8, 7).expect_err("a refusal");
        assert_eq!(Refusal::from(refused), Refusal::Parity);
    }
}
