//! TLV packets in the data octets of slots.
use crate::bindings::S3_NO_BEGIN;
use crate::refusal::answer;
use crate::{calls, Rate, Refusal};

/// The report of a slot in which no packet and no filler begins.
pub const NO_BEGIN: u16 = S3_NO_BEGIN as u16;

/// How far filling has come; the default is the beginning.
#[derive(Clone, Copy, Debug, Default, PartialEq, Eq)]
pub struct TlvFilled {
    /// How many octets of the packets are in slots already.
    pub taken: usize,
    /// How many octets of a filler that the last slot cut are still to come, 0 to 3.
    pub owed: usize,
}

/// What reading gives beside the packets.
#[derive(Clone, Copy, Debug, PartialEq, Eq)]
pub struct TlvRead {
    /// How many octets of packets were written.
    pub written: usize,
    /// Where in the slots a last packet or null packet begins that runs past them, if one does.
    pub unfinished: Option<usize>,
}

/// Fills slots with TLV packets: `slots` are the data octets of one slot or more of a group, [`Rate::data_octets`] each, end
/// to end, and `begins` has a number for each of them.
///
/// A packet is 0x7F, a type octet (0x01, 0x02, 0x03, 0xFE or 0xFF), a length of two octets, high octet first, and a body of
/// that length; the body of a null packet, type 0xFF, is all 0xFF. `packets` are whole packets end to end, and `from` says how
/// many of their octets earlier slots took. They run on from slot to slot; where they run out, empty null packets
/// (7F FF 00 00) fill up, the last of them cut where the slots end. Each number of `begins` becomes the octet of its slot where
/// the first packet or filler begins, or [`NO_BEGIN`].
///
/// The answer says how far that came, and the next slots are filled from there on: with the same packets, or without those in
/// front that were taken whole, whose octets are then taken off `taken`. Further packets may stand behind them; where octets
/// of a filler are `owed`, all packets that were taken have to be left out for that.
///
/// Refused: [`Refusal::Length`] (also `from` a place behind the packets, more than 3 octets owed, or any owed inside the
/// packets), [`Refusal::Packet`]; `slots` and `begins` are then as they were.
///
/// ```
/// use s3frame::{fill_tlv, read_tlv, Rate, TlvFilled, TlvRead};
///
/// # fn main() -> Result<(), s3frame::Refusal> {
/// // Four packets of 904 octets, of which the third runs from the first slot of 1,870 octets into the second.
/// let packet = |octet| [&[0x7F, 0x01, 0x03, 0x84][..], &[octet; 900]].concat();
/// let sent = [1, 2, 3, 4].map(packet).concat();
/// let rate = Rate::R1_3;
/// let (mut slots, mut begins) = (vec![0; 2 * rate.data_octets()], [0; 2]);
/// let filled = fill_tlv(rate, &sent, TlvFilled::default(), &mut slots, &mut begins)?;
/// assert_eq!(filled, TlvFilled { taken: 3_616, owed: 0 });
/// assert_eq!(begins, [0, 842]);
///
/// // The first slot is lost, and with it all packets that have an octet there.
/// let mut back = vec![0; slots.len()];
/// let read = read_tlv(rate, &slots, &begins, &[true, false], None, &mut back)?;
/// assert_eq!(read, TlvRead { written: 904, unfinished: None });
/// assert_eq!(back[..904], packet(4)[..]);
/// # Ok(())
/// # }
/// ```
pub fn fill_tlv(
    rate: Rate,
    packets: &[u8],
    from: TlvFilled,
    slots: &mut [u8],
    begins: &mut [u16],
) -> Result<TlvFilled, Refusal> {
    let filled = calls::tlv_fill(rate.number(), packets, from.taken, from.owed, slots, begins);
    answer(filled.number).map(|()| TlvFilled { taken: filled.taken, owed: filled.owed })
}

/// Reads the packets of slots that [`fill_tlv`] filled, in their order, whole ones only and without empty null packets; the
/// packets' area has the length of the slots, and is left as it was behind the packets.
///
/// `begins` are the slots' reports, and `lost` says of each slot whether it was lost: nothing is read from such a slot.
/// Reading starts at octet `first` of the first slot; without it, or with [`NO_BEGIN`], at the first beginning that a slot
/// reports. A packet that meets a lost slot is dropped, and reading goes on at the next beginning that a slot behind reports.
/// A head that is wrong, or a null packet with another octet in its body, counts as losing the rest of the slot where that
/// head begins.
///
/// A last packet that runs past the slots is `unfinished`: lent again from the slot where it begins, with the slots that
/// follow and its place in that slot as `first`, it is read on. Where nothing is unfinished the slots that follow are read by
/// themselves, without `first`.
///
/// Refused: [`Refusal::Length`] (also a report or `first` past its slot that is not [`NO_BEGIN`]); `packets` are then as they
/// were.
pub fn read_tlv(
    rate: Rate,
    slots: &[u8],
    begins: &[u16],
    lost: &[bool],
    first: Option<u16>,
    packets: &mut [u8],
) -> Result<TlvRead, Refusal> {
    let lost: Vec<u8> = lost.iter().map(|lost| u8::from(*lost)).collect();
    let first = u32::from(first.unwrap_or(NO_BEGIN));
    let read = calls::tlv_read(rate.number(), slots, begins, &lost, first, packets);
    let unfinished = Some(read.unfinished).filter(|begin| *begin < slots.len());
    answer(read.number).map(|()| TlvRead { written: read.written, unfinished })
}
