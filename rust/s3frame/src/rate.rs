//! Rates, and the lengths that they fix.
use crate::numbered::numbered;
use crate::refusal::answer;
use crate::{calls, HEADER_OCTETS, PACKET_OCTETS, SLOT_OCTETS};
use std::fmt;

numbered! {
    /// A rate of the LDPC code.
    Rate {
        R1_3 = 1 "1/3",
        R2_5 = 2 "2/5",
        R1_2 = 3 "1/2",
        R3_5 = 4 "3/5",
        R2_3 = 5 "2/3",
        R3_4 = 6 "3/4",
        R7_9 = 7 "7/9",
        R4_5 = 8 "4/5",
        R5_6 = 9 "5/6",
        R7_8 = 10 "7/8",
        R9_10 = 11 "9/10",
    }
}

/// The bits of a slot between data and parity.
const BCH_BITS: usize = 192;
const STUFF_BITS: usize = 6;

impl Rate {
    /// How many TS packets a slot carries.
    pub fn packets(self) -> usize {
        calls::packets_of(self.number())
    }

    /// The octets of a slot's packets.
    pub fn packet_octets(self) -> usize {
        PACKET_OCTETS * self.packets()
    }

    /// The data octets of a slot: its packets without their sync octets.
    pub fn data_octets(self) -> usize {
        (PACKET_OCTETS - 1) * self.packets()
    }

    /// The octets of header and data, from which a slot is coded.
    pub fn source_octets(self) -> usize {
        HEADER_OCTETS + self.data_octets()
    }

    /// The parity bits of a slot: all that aren't header, data, BCH and stuff bits. A failing position is below this.
    pub fn parity_bits(self) -> usize {
        8 * (SLOT_OCTETS - self.source_octets()) - BCH_BITS - STUFF_BITS
    }

    /// The entries of the published parity table.
    pub fn table_entries(self) -> usize {
        calls::table_entries(self.number())
    }

    /// The published parity table.
    pub fn published_table(self) -> Vec<u16> {
        let mut table = vec![0; self.table_entries()];
        answer(calls::published_table(self.number(), &mut table))
            .expect("a known rate, and an area of its table's length");
        table
    }
}

/// As `7/9`.
impl fmt::Display for Rate {
    fn fmt(&self, f: &mut fmt::Formatter<'_>) -> fmt::Result {
        f.pad(self.text())
    }
}

#[cfg(test)]
mod tests {
    use super::*;

    #[test]
    fn the_numbers_and_names_of_document_01() {
        let names = ["1/3", "2/5", "1/2", "3/5", "2/3", "3/4", "7/9", "4/5", "5/6", "7/8", "9/10"];
        assert_eq!(names.len(), Rate::ALL.len());
        for (number, name) in (1..).zip(names) {
            let rate = Rate::from_number(number).expect("a rate");
            assert_eq!((rate.number(), rate.to_string()), (number, name.to_string()));
        }
        assert_eq!([0, 12, 257, u32::MAX].map(Rate::from_number), [None; 4]);
    }

    #[test]
    fn lengths_at_the_ends() {
        let ends = |length: fn(Rate) -> usize| [length(Rate::R1_3), length(Rate::R9_10)];
        assert_eq!(ends(Rate::packet_octets), [1_880, 5_076]);
        assert_eq!(ends(Rate::data_octets), [1_870, 5_049]);
        assert_eq!(ends(Rate::source_octets), [1_892, 5_071]);
        assert_eq!(ends(Rate::parity_bits), [29_546, 4_114]);
    }
}
