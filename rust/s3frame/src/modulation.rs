//! Modulations.
use crate::numbered::numbered;
use crate::SLOT_OCTETS;
use std::fmt;

numbered! {
    /// A modulation, numbered by the bits in a symbol.
    Modulation {
        Bpsk = 1 "π/2-shift BPSK",
        Qpsk = 2 "QPSK",
        Psk8 = 3 "8PSK",
        Apsk16 = 4 "16APSK",
        Apsk32 = 5 "32APSK",
    }
}

impl Modulation {
    /// How many labels there are, and so points.
    pub fn points(self) -> usize {
        1 << self.number()
    }

    /// How many labels a slot has.
    pub fn labels(self) -> usize {
        8 * SLOT_OCTETS / self.number() as usize
    }
}

/// Document 01's name, as `16APSK`.
impl fmt::Display for Modulation {
    fn fmt(&self, f: &mut fmt::Formatter<'_>) -> fmt::Result {
        f.pad(self.text())
    }
}

#[cfg(test)]
mod tests {
    use super::*;

    #[test]
    fn the_numbers_and_names_of_document_01() {
        let names = ["π/2-shift BPSK", "QPSK", "8PSK", "16APSK", "32APSK"];
        assert_eq!(names.len(), Modulation::ALL.len());
        for (number, name) in (1..).zip(names) {
            let modulation = Modulation::from_number(number).expect("a modulation");
            assert_eq!((modulation.number(), modulation.to_string()), (number, name.to_string()));
        }
        assert_eq!([0, 6, 257, u32::MAX].map(Modulation::from_number), [None; 4]);
    }

    #[test]
    fn points_of_the_modulations() {
        assert_eq!(Modulation::ALL.map(Modulation::points), [2, 4, 8, 16, 32]);
    }

    #[test]
    fn labels_of_a_slot() {
        assert_eq!(Modulation::ALL.map(Modulation::labels), [44_880, 22_440, 14_960, 11_220, 8_976]);
    }
}
