//! Settings that a card keeps in blocks.
use crate::bindings::{s3_register, s3_registers};
use crate::refusal::answer;
use crate::{calls, Plan, Refusal, SlotSettings, TmccSettings};

/// A setting: what a unit needs beside its packets.
#[derive(Clone, Copy, Debug, PartialEq, Eq, Hash)]
pub struct Settings {
    /// The plan.
    pub plan: Plan,
    /// Those of the slots' register.
    pub slots: SlotSettings,
    /// Those of the TMCC blocks' register.
    pub tmcc: TmccSettings,
}

/// Reads a setting of a card by its number from 0. A card is 0 to [`MOST_SETTINGS`](crate::MOST_SETTINGS) blocks of
/// [`SETTING_OCTETS`](crate::SETTING_OCTETS), end to end.
///
/// Refused: [`Refusal::Length`], [`Refusal::Block`], then as [`Plan::new`] is for the plan that the block holds, then
/// [`Refusal::Register`].
///
/// ```
/// use s3frame::{read_settings, replace_settings, Settings};
/// use s3frame::{Group, Modulation, Plan, Rate, Refusal, SlotSettings, TmccSettings};
///
/// # fn main() -> Result<(), Refusal> {
/// let plan = Plan::new(&[Group { modulation: Modulation::Psk8, rate: Rate::R3_4, slots: 120 }])?;
/// let slots = SlotSettings { mask: 0x1234567, start: 1 };
/// let tmcc = TmccSettings { mask: 0x4001, start: 0x7FFF };
/// let kept = Settings { plan, slots, tmcc };
///
/// let mut card = vec![0; 2 * s3frame::SETTING_OCTETS];
/// replace_settings(&mut card, 1, &kept)?;
/// assert_eq!(read_settings(&card, 1), Ok(kept));
/// assert_eq!(read_settings(&card, 0), Err(Refusal::Block));
/// # Ok(())
/// # }
/// ```
pub fn read_settings(card: &[u8], number: usize) -> Result<Settings, Refusal> {
    let told = calls::read_settings(card, number);
    answer(told.number)?;
    let s3_registers { slots, tmcc } = told.registers;
    Ok(Settings {
        plan: Plan(told.plan),
        slots: SlotSettings { mask: slots.mask, start: slots.start },
        tmcc: TmccSettings { mask: tmcc.mask, start: tmcc.start },
    })
}

/// Replaces a setting of a card by its number from 0, whatever its block holds; the other blocks stay.
///
/// Refused: [`Refusal::Length`], [`Refusal::Block`] (the card has no such block), [`Refusal::Register`]; `card` is then as it
/// was.
pub fn replace_settings(card: &mut [u8], number: usize, settings: &Settings) -> Result<(), Refusal> {
    let Settings { plan, slots, tmcc } = settings;
    let registers = s3_registers {
        slots: s3_register { mask: slots.mask, start: slots.start },
        tmcc: s3_register { mask: tmcc.mask, start: tmcc.start },
    };
    answer(calls::replace_settings(card, number, plan.0, registers))
}
