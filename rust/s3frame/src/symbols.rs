//! Symbols as label numbers, one to an octet.
use crate::refusal::answer;
use crate::{calls, Modulation, Rate, Refusal};

/// The labels of a slot of [`SLOT_OCTETS`](crate::SLOT_OCTETS), [`Modulation::labels`] in number.
///
/// Refused: [`Refusal::Length`]; `labels` are then as they were.
pub fn labels(modulation: Modulation, rate: Rate, coded: &[u8], labels: &mut [u8]) -> Result<(), Refusal> {
    answer(calls::labels(modulation.number(), rate.number(), coded, labels))
}

/// The slot of labels; the lengths are those of [`labels()`].
///
/// Refused: [`Refusal::Length`], [`Refusal::Label`]; `coded` is then as it was.
pub fn slot_of_labels(modulation: Modulation, rate: Rate, labels: &[u8], coded: &mut [u8]) -> Result<(), Refusal> {
    answer(calls::slot_of_labels(modulation.number(), rate.number(), labels, coded))
}

/// The [`BLOCK_LABELS`](crate::BLOCK_LABELS) BPSK labels of a TMCC block of [`BLOCK_OCTETS`](crate::BLOCK_OCTETS).
///
/// Refused: [`Refusal::Length`]; `labels` are then as they were.
pub fn tmcc_labels(block: &[u8], labels: &mut [u8]) -> Result<(), Refusal> {
    answer(calls::tmcc_labels(block, labels))
}

/// The TMCC block of labels; the lengths are those of [`tmcc_labels`].
///
/// Refused: [`Refusal::Length`], [`Refusal::Label`]; `block` is then as it was.
pub fn tmcc_of_labels(labels: &[u8], block: &mut [u8]) -> Result<(), Refusal> {
    answer(calls::tmcc_of_labels(labels, block))
}
