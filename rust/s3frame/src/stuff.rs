//! The stuff bits of a slot.
use crate::bindings::S3_STUFF_ONES;

/// The six bits between BCH bits and parity of a slot that was read. Coding sends ones; a received slot may have any.
#[derive(Clone, Copy, Debug, PartialEq, Eq, Hash, PartialOrd, Ord)]
pub struct StuffBits(u8);

impl StuffBits {
    /// Six ones.
    pub const ONES: StuffBits = StuffBits(S3_STUFF_ONES as u8);

    /// Those of an accepted slot, from the number of a call.
    pub(crate) fn of_number(number: u8) -> StuffBits {
        debug_assert!(number < 64, "the contracts of the calls allow no other numbers with 0");
        StuffBits(number)
    }

    /// As a number from 0 to 63, the first bit the highest.
    pub const fn number(self) -> u8 {
        self.0
    }
}
