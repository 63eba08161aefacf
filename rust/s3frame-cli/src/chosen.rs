//! The slots whose points are made: slots end to end, or the data slots of a plan's group in frames.
use crate::failure::Failure;
use crate::files::Files;
use crate::frames::{places, read_plan, PlanFile};
use crate::number::Number;
use crate::words::{PointWords, Slots};
use s3frame::{Modulation, Rate, Refusal, FRAME_OCTETS, SLOT_OCTETS};
use std::path::Path;

/// What the input is taken by.
#[derive(Clone, Copy)]
pub enum Unit {
    Slot,
    Frame,
}

impl Unit {
    pub fn name(self) -> &'static str {
        match self {
            Unit::Slot => "slot",
            Unit::Frame => "frame",
        }
    }

    pub fn octets(self) -> usize {
        match self {
            Unit::Slot => SLOT_OCTETS,
            Unit::Frame => FRAME_OCTETS,
        }
    }
}

/// Which slots points are made of: those at some places of each unit, from 0, all of one modulation and rate.
pub struct Chosen {
    pub unit: Unit,
    pub slots: Vec<usize>,
    pub modulation: Modulation,
    pub rate: Rate,
}

impl Chosen {
    /// The slots that the words name.
    pub fn open(files: &mut Files, words: &PointWords) -> Result<Chosen, Failure> {
        match words.slots()? {
            Slots::Alone { modulation, rate } => Chosen::alone(modulation, rate),
            Slots::InFrames { plan, group } => Chosen::in_frames(files, plan, group),
        }
    }

    /// Slots end to end.
    fn alone(modulation: &Number, rate: &Number) -> Result<Chosen, Failure> {
        let unknown = |name, number: &Number, last: usize| {
            Failure::refused(format!("{name} {number}"), Refusal::Plan, format!("{name}s are numbered 1 to {last}"))
        };
        let known = Modulation::from_number(modulation.value);
        let modulation = known.ok_or_else(|| unknown("modulation", modulation, Modulation::ALL.len()))?;
        let rate = Rate::from_number(rate.value).ok_or_else(|| unknown("rate", rate, Rate::ALL.len()))?;
        Ok(Chosen { unit: Unit::Slot, slots: vec![0], modulation, rate })
    }

    /// The data slots of a group, in frames.
    fn in_frames(files: &mut Files, plan: &Path, group: Option<&Number>) -> Result<Chosen, Failure> {
        let PlanFile { plan, name, .. } = read_plan(files, plan)?;
        let groups = plan.groups().count();
        let number = match group {
            Some(number) => number.value as usize,
            None if groups == 1 => 1,
            None => {
                let wrong = format!("has {groups} groups, but points belong to one: name it with --group");
                return Err(Failure::new(name, wrong));
            }
        };
        let group = number.checked_sub(1).and_then(|before| plan.groups().nth(before));
        let wrong = || format!("has no group {number}: groups are counted from 1, and the last is {groups}");
        let group = group.ok_or_else(|| Failure::new(name, wrong()))?;
        let slots = (0..).zip(places(&plan)).filter(|(_, place)| place.data && place.group + 1 == number);
        let slots = slots.map(|(slot, _)| slot).collect();
        Ok(Chosen { unit: Unit::Frame, slots, modulation: group.modulation, rate: group.rate })
    }

    /// What messages call a slot of a unit, both counted from 0.
    pub fn name_of(&self, unit: u64, slot: usize) -> String {
        match self.unit {
            Unit::Slot => format!("slot {}", unit + 1),
            Unit::Frame => format!("slot {} of frame {}", slot + 1, unit + 1),
        }
    }
}
