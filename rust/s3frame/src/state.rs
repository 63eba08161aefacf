//! A frame slot by slot.
use crate::bindings::{s3_answer, s3_plan, s3_state};
use crate::read_refusal::{read_answer, word_answer};
use crate::refusal::answer;
use crate::{calls, Plan, Rate, ReadRefusal, Refusal, StuffBits};

/// The settings of the 25-bit dispersal register of slots.
#[derive(Clone, Copy, Debug, PartialEq, Eq, Hash)]
pub struct SlotSettings {
    /// The tap mask: it has the top weight 2^24 and nothing above.
    pub mask: u32,
    /// Where the register starts: not 0, and nothing above the top weight.
    pub start: u32,
}

/// A place in a frame: the plan, its settings, the next slot and the register there.
///
/// A call on a slot gives the state moved on and leaves the one it was called on as it is. It tests the state first, which is
/// refused [`Refusal::Plan`] (slot number 0), [`Refusal::Register`] or [`Refusal::Full`].
#[derive(Clone, Copy, Debug, PartialEq, Eq, Hash)]
pub struct FrameState(s3_state);

/// What reading a slot gives: the answer, and the state after the call in each case.
#[derive(Clone, Copy, Debug, PartialEq, Eq)]
#[non_exhaustive]
#[must_use]
pub struct SlotRead {
    /// The stuff bits of the slot that was read, or why it was not, and where its parity broke.
    pub answer: Result<StuffBits, ReadRefusal>,
    /// Moved on by one slot where the slot was read or refused [`Refusal::Parity`] or [`Refusal::Bch`]; as it was before any
    /// other refusal.
    pub state: FrameState,
}

impl FrameState {
    /// The state that a call answers, or its refusal.
    fn of_answer(told: s3_answer) -> Result<FrameState, Refusal> {
        answer(told.number).map(|()| FrameState(told.state))
    }

    /// Opens a frame: slot 1, and the register at its start.
    ///
    /// Refused: [`Refusal::Register`].
    pub fn open(plan: Plan, settings: SlotSettings) -> Result<FrameState, Refusal> {
        FrameState::of_answer(calls::open(plan.0, settings.mask, settings.start))
    }

    /// A state that was kept as numbers. Each call tests it anew, so that any numbers may be given here.
    pub fn at(plan: Plan, settings: SlotSettings, slot: u16, register: u32) -> FrameState {
        let Plan(s3_plan { count, modulation, rate, slots }) = plan;
        let SlotSettings { mask, start } = settings;
        FrameState(s3_state { count, modulation, rate, slots, mask, start, slot, register_: register })
    }

    /// The frame's plan.
    pub fn plan(&self) -> Plan {
        let s3_state { count, modulation, rate, slots, .. } = self.0;
        Plan(s3_plan { count, modulation, rate, slots })
    }

    /// The frame's settings.
    pub fn settings(&self) -> SlotSettings {
        SlotSettings { mask: self.0.mask, start: self.0.start }
    }

    /// The number of the next slot, from 1; 121 where the frame is full.
    pub fn slot(&self) -> u16 {
        self.0.slot
    }

    /// The dispersal register before the next slot.
    pub fn register(&self) -> u32 {
        self.0.register_
    }

    /// Passes a dummy.
    ///
    /// Refused: as its state is, then [`Refusal::Dummy`] (at a data slot).
    pub fn pass(self) -> Result<FrameState, Refusal> {
        FrameState::of_answer(calls::pass(self.0))
    }

    /// Codes the next slot: header and data, [`Rate::source_octets`] of the rate at its place, into
    /// [`SLOT_OCTETS`](crate::SLOT_OCTETS), by a parity table of that rate. [`pack`](crate::pack) makes data of packets.
    ///
    /// Refused: as its state is, then [`Refusal::Dummy`], [`Refusal::Length`], [`Refusal::Table`]; `coded` is then as it was.
    pub fn code_slot(self, table: &[u16], source: &[u8], coded: &mut [u8]) -> Result<FrameState, Refusal> {
        FrameState::of_answer(calls::code_slot(self.0, table, source, coded))
    }

    /// Reads the next slot; the lengths are those of coding it. [`unpack`](crate::unpack) makes packets of its data.
    ///
    /// Refused: as [`code_slot`](FrameState::code_slot) is, then [`Refusal::Parity`], [`Refusal::Bch`]; `source` is then as it
    /// was. Coding what was read gives the same slot only where its stuff bits are [`StuffBits::ONES`]; for others it gives the
    /// slot with ones there and its parity made anew.
    pub fn read_slot(self, table: &[u16], coded: &[u8], source: &mut [u8]) -> SlotRead {
        let told = calls::read_slot(self.0, table, coded, source);
        let answer = read_answer(told.number, told.position).map(|()| StuffBits::of_number(told.stuff));
        SlotRead { answer, state: FrameState(told.state) }
    }
}

/// Checks the parity of a slot of a rate, [`SLOT_OCTETS`](crate::SLOT_OCTETS), whatever its dispersal.
///
/// Refused: [`Refusal::Length`], [`Refusal::Table`], [`Refusal::Parity`].
pub fn check_parity(rate: Rate, table: &[u16], coded: &[u8]) -> Result<(), ReadRefusal> {
    word_answer(calls::check_parity(rate.number(), table, coded))
}
