//! A whole frame in one area.
use crate::read_refusal::read_answer;
use crate::refusal::answer;
use crate::{calls, Plan, ReadRefusal, Refusal, SlotSettings, StuffBits, SLOTS};
use std::array;

/// What became of a slot of a frame that was read.
#[derive(Clone, Copy, Debug, PartialEq, Eq, Hash)]
pub enum SlotAnswer {
    /// Its header and data are in their places; these are its stuff bits.
    Read(StuffBits),
    /// It is a dummy, and has no places.
    Dummy,
    /// [`Refusal::Parity`], with its position, or [`Refusal::Bch`]: its places are as they were.
    Refused(ReadRefusal),
}

impl SlotAnswer {
    fn of_numbers(number: u8, stuff: u8, position: u16) -> SlotAnswer {
        match read_answer(number, position) {
            Ok(()) => SlotAnswer::Read(StuffBits::of_number(stuff)),
            Err(ReadRefusal { refusal: Refusal::Dummy, .. }) => SlotAnswer::Dummy,
            Err(refused) => SlotAnswer::Refused(refused),
        }
    }
}

/// What reading a whole frame gives beside the source.
#[derive(Clone, Debug, PartialEq, Eq)]
#[non_exhaustive]
#[must_use]
pub struct FrameRead {
    /// The answers of the slots, slot 1 first.
    pub answers: [SlotAnswer; SLOTS],
}

/// Codes a whole frame of [`FRAME_OCTETS`](crate::FRAME_OCTETS), slot s from octet 5,610 (s - 1) on. The dummies' parts stay
/// as they are. `source` has [`Plan::source_octets`]; `tables` are the groups' parity tables in group order.
///
/// Refused: [`Refusal::Register`], [`Refusal::Length`], [`Refusal::Table`]; `frame` is then as it was.
pub fn code_frame(
    plan: &Plan,
    settings: SlotSettings,
    tables: &[u16],
    source: &[u8],
    frame: &mut [u8],
) -> Result<(), Refusal> {
    answer(calls::code_frame(plan.0, settings.mask, settings.start, tables, source, frame))
}

/// Reads a whole frame, and says what became of each slot. The lengths are those of [`code_frame`].
///
/// Refused: [`Refusal::Register`], [`Refusal::Length`], [`Refusal::Table`]; `source` is then as it was.
pub fn read_frame(
    plan: &Plan,
    settings: SlotSettings,
    tables: &[u16],
    frame: &[u8],
    source: &mut [u8],
) -> Result<FrameRead, Refusal> {
    let (mut answers, mut stuff, mut positions) = ([0; SLOTS], [0; SLOTS], [0; SLOTS]);
    let SlotSettings { mask, start } = settings;
    answer(calls::read_frame(plan.0, mask, start, tables, frame, source, &mut answers, &mut stuff, &mut positions))?;
    let told = |slot: usize| SlotAnswer::of_numbers(answers[slot], stuff[slot], positions[slot]);
    Ok(FrameRead { answers: array::from_fn(told) })
}
