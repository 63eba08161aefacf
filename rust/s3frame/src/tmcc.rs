//! TMCC blocks.
use crate::read_refusal::word_answer;
use crate::refusal::answer;
use crate::{calls, ReadRefusal, Refusal};

/// The settings of the 15-bit dispersal register of TMCC blocks.
#[derive(Clone, Copy, Debug, PartialEq, Eq, Hash)]
pub struct TmccSettings {
    /// The tap mask: it has the top weight 2^14 and nothing above.
    pub mask: u32,
    /// Where the register starts: not 0, and nothing above the top weight.
    pub start: u32,
}

/// Codes the 9,422 TMCC bits of [`TMCC_OCTETS`](crate::TMCC_OCTETS), whose last two bits are 0, into a block of
/// [`BLOCK_OCTETS`](crate::BLOCK_OCTETS), by a parity table of rate 1/2.
///
/// Refused: [`Refusal::Register`], [`Refusal::Length`], [`Refusal::Table`], [`Refusal::Tail`]; `block` is then as it was.
pub fn code_tmcc(settings: TmccSettings, table: &[u16], source: &[u8], block: &mut [u8]) -> Result<(), Refusal> {
    answer(calls::code_tmcc(settings.mask, settings.start, table, source, block))
}

/// Reads a block; the lengths are those of [`code_tmcc`].
///
/// Refused: [`Refusal::Register`], [`Refusal::Length`], [`Refusal::Table`], [`Refusal::Parity`], [`Refusal::Bch`]; `source` is
/// then as it was.
pub fn read_tmcc(settings: TmccSettings, table: &[u16], block: &[u8], source: &mut [u8]) -> Result<(), ReadRefusal> {
    word_answer(calls::read_tmcc(settings.mask, settings.start, table, block, source))
}
