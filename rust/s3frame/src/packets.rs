//! TS packets and data octets.
use crate::refusal::answer;
use crate::{calls, Rate, Refusal};

/// Packs the TS packets of one slot, [`Rate::packet_octets`], into its [`Rate::data_octets`]: each packet without its sync
/// octet 0x47.
///
/// Refused: [`Refusal::Length`], [`Refusal::Sync`]; `data` is then as it was.
pub fn pack(rate: Rate, packets: &[u8], data: &mut [u8]) -> Result<(), Refusal> {
    answer(calls::pack(rate.number(), packets, data))
}

/// Unpacks data octets into packets, the sync octets put back; the lengths are those of [`pack`].
///
/// Refused: [`Refusal::Length`]; `packets` are then as they were.
pub fn unpack(rate: Rate, data: &[u8], packets: &mut [u8]) -> Result<(), Refusal> {
    answer(calls::unpack(rate.number(), data, packets))
}
