//! The refusals of documents 01 and 02.
use crate::numbered::numbered;
use std::error::Error;
use std::fmt;

numbered! {
    /// Why a call was refused: the words of documents 01 and 02, with their numbers.
    #[non_exhaustive]
    Refusal {
        Plan = 1 "the plan has no groups or more than 8, or the slot number is 0",
        Dummy = 2 "a data call at a dummy, or a pass at a data slot",
        Full = 3 "slot 120 is past",
        Length = 4 "a lent area isn't exactly its length",
        Table = 5 "the parity table breaks its form",
        Register = 6 "start or register is 0 or too wide, or the mask is too wide or lacks the top weight",
        Sync = 7 "a TS packet doesn't begin 0x47",
        Parity = 8 "some LDPC parity bit is wrong",
        Bch = 9 "BCH bits are wrong after dispersal is taken off",
        Tail = 11 "one of the last two TMCC bits is 1",
        Label = 12 "a symbol is 2^modulation or more",
        Value = 13 "a group's modulation or rate is unknown, or its slots are 0 or no multiple of 5",
        Order = 14 "the groups do not fall: higher modulations come first and, within one, higher rates",
        Total = 15 "the slots of all groups do not add to 120",
        Packet = 16 "a TLV head is wrong, a null body holds another octet, or a head or length runs past the packets",
        Block = 17 "the card has no block of this number, or its mark, edition or sum is wrong, or a filler isn't zero",
        Coordinate = 18 "a coordinate that is used is infinite or not a number",
    }
}

impl Refusal {
    /// Its word.
    pub fn word(self) -> &'static str {
        match self {
            Refusal::Plan => "plan",
            Refusal::Dummy => "dummy",
            Refusal::Full => "full",
            Refusal::Length => "length",
            Refusal::Table => "table",
            Refusal::Register => "register",
            Refusal::Sync => "sync",
            Refusal::Parity => "parity",
            Refusal::Bch => "BCH",
            Refusal::Tail => "tail",
            Refusal::Label => "label",
            Refusal::Value => "value",
            Refusal::Order => "order",
            Refusal::Total => "total",
            Refusal::Packet => "packet",
            Refusal::Block => "block",
            Refusal::Coordinate => "coordinate",
        }
    }
}

/// Number, word and what it means, as `refused 3 full: slot 120 is past`.
impl fmt::Display for Refusal {
    fn fmt(&self, f: &mut fmt::Formatter<'_>) -> fmt::Result {
        write!(f, "refused {} {}: {}", self.number(), self.word(), self.text())
    }
}

impl Error for Refusal {}

/// The result of a call's number. The contracts of the calls allow no other numbers.
pub(crate) fn answer(number: u8) -> Result<(), Refusal> {
    match number {
        0 => Ok(()),
        _ => Err(Refusal::from_number(number.into()).expect("a refusal's number")),
    }
}

#[cfg(test)]
mod tests {
    use super::*;
    use crate::bindings::*;

    #[test]
    fn the_numbers_and_words_of_the_documents() {
        let up_to_9 = (1..).zip("plan dummy full length table register sync parity BCH".split(' '));
        let from_11_on = (11..).zip("tail label value order total packet block coordinate".split(' '));
        let words: Vec<(u32, &str)> = up_to_9.chain(from_11_on).collect();
        assert_eq!(words.len(), Refusal::ALL.len());
        for (number, word) in words {
            let refusal = Refusal::from_number(number).expect("a refusal");
            assert_eq!((refusal.number(), refusal.word()), (number, word));
            assert_eq!(answer(number as u8), Err(refusal));
        }
        assert_eq!([0, 10, 19].map(Refusal::from_number), [None; 3]);
        assert_eq!(answer(0), Ok(()));
    }

    #[test]
    fn the_numbers_of_the_header() {
        let numbers = [
            S3_REFUSED_PLAN,
            S3_REFUSED_DUMMY,
            S3_REFUSED_FULL,
            S3_REFUSED_LENGTH,
            S3_REFUSED_TABLE,
            S3_REFUSED_REGISTER,
            S3_REFUSED_SYNC,
            S3_REFUSED_PARITY,
            S3_REFUSED_BCH,
            S3_REFUSED_TAIL,
            S3_REFUSED_LABEL,
            S3_REFUSED_VALUE,
            S3_REFUSED_ORDER,
            S3_REFUSED_TOTAL,
            S3_REFUSED_PACKET,
            S3_REFUSED_BLOCK,
            S3_REFUSED_COORDINATE,
        ];
        assert_eq!(Refusal::ALL.map(Refusal::number), numbers);
        assert_eq!(answer(S3_ACCEPTED as u8), Ok(()));
    }

    #[test]
    fn a_refusal_prints_its_number_its_word_and_what_it_means() {
        assert_eq!(Refusal::Length.to_string(), "refused 4 length: a lent area isn't exactly its length");
        assert_eq!(Refusal::Bch.to_string(), "refused 9 BCH: BCH bits are wrong after dispersal is taken off");
    }
}
