//! The exact lengths of lent areas that depend on no rate, as the header has them.

/// The most groups of a plan.
pub const MOST_GROUPS: usize = 8;
/// The slots of a frame.
pub const SLOTS: usize = 120;
/// The octets of a slot.
pub const SLOT_OCTETS: usize = 5_610;
/// The octets of a whole frame.
pub const FRAME_OCTETS: usize = SLOTS * SLOT_OCTETS;
/// The header octets of a slot.
pub const HEADER_OCTETS: usize = 22;
/// The octets of a TS packet.
pub const PACKET_OCTETS: usize = 188;
/// The octets that hold the 9,422 TMCC bits and two zeros.
pub const TMCC_OCTETS: usize = 1_178;
/// The octets of a coded TMCC block.
pub const BLOCK_OCTETS: usize = 3_960;
/// The labels of a TMCC block.
pub const BLOCK_LABELS: usize = 8 * BLOCK_OCTETS;
/// The entries of the longest published parity table.
pub const MOST_TABLE: usize = 510;
/// The most header and data octets of a slot.
pub const MOST_SOURCE: usize = 5_071;
/// The octets of an area that has room for the list of any plan.
pub(crate) const LIST_OCTETS: usize = 512;
/// The octets of a setting on a card.
pub const SETTING_OCTETS: usize = 512;
/// The most settings of a card.
pub const MOST_SETTINGS: usize = 64;

#[cfg(test)]
mod tests {
    use super::*;
    use crate::Rate;

    /// The name and the number of a size that a line of the header defines.
    fn size(line: &'static str) -> Option<(&'static str, usize)> {
        let (name, number) = line.strip_prefix("#define S3_")?.split_once(" ((size_t)")?;
        Some((name, number.split_once(')')?.0.parse().expect("a number")))
    }

    #[test]
    fn the_sizes_of_the_header() {
        let header = include_str!("../../../include/s3frame.h");
        let sizes = [
            ("GROUPS", MOST_GROUPS),
            ("SLOTS", SLOTS),
            ("SLOT_OCTETS", SLOT_OCTETS),
            ("FRAME_OCTETS", FRAME_OCTETS),
            ("HEADER_OCTETS", HEADER_OCTETS),
            ("PACKET_OCTETS", PACKET_OCTETS),
            ("MOST_SOURCE", MOST_SOURCE),
            ("MOST_TABLE", MOST_TABLE),
            ("LIST_OCTETS", LIST_OCTETS),
            ("TMCC_OCTETS", TMCC_OCTETS),
            ("TMCC_BLOCK_OCTETS", BLOCK_OCTETS),
            ("TMCC_BLOCK_LABELS", BLOCK_LABELS),
            ("SETTING_OCTETS", SETTING_OCTETS),
            ("MOST_SETTINGS", MOST_SETTINGS),
        ];
        assert_eq!(header.lines().filter_map(size).collect::<Vec<_>>(), sizes);
    }

    #[test]
    fn the_most_of_all_rates() {
        let most = |length: fn(Rate) -> usize| Rate::ALL.into_iter().map(length).max();
        assert_eq!([most(Rate::table_entries), most(Rate::source_octets)], [Some(MOST_TABLE), Some(MOST_SOURCE)]);
    }
}
