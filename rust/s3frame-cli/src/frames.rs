//! What coding and reading frames share: the plan's places, their tables, and the state at slot 1.
use crate::card::Card;
use crate::failure::Failure;
use crate::files::{Content, Files};
use crate::number::Number;
use crate::plan_text::{refused, MOST_OCTETS};
use crate::words::{Setting, SettingWords};
use s3frame::{FrameState, Place, Plan, Rate, Settings, SlotSettings, SLOTS};
use std::path::Path;

/// A plan's file: what messages call it, its text, and the plan that this says.
pub struct PlanFile {
    pub name: String,
    pub text: Vec<u8>,
    pub plan: Plan,
}

/// Reads a plan's file. One octet more than a text may have is asked for, so that a longer one is seen to be so.
pub fn read_plan(files: &mut Files, word: &Path) -> Result<PlanFile, Failure> {
    let mut input = files.open(Some(word), Content::Text)?;
    let mut text = vec![0; MOST_OCTETS + 1];
    let length = input.fill(&mut text)?;
    text.truncate(length);
    let plan = Plan::of_text(&text).map_err(|refusal| refused(input.name(), &text, refusal))?;
    Ok(PlanFile { name: input.name().to_string(), text, plan })
}

/// Opens a frame of a plan under mask and start.
pub fn open_frame(plan: Plan, mask: &Number, start: &Number) -> Result<FrameState, Failure> {
    let refused = |refusal| Failure::new(format!("mask {mask} and start {start}"), refusal);
    FrameState::open(plan, SlotSettings { mask: mask.value, start: start.value }).map_err(refused)
}

/// The places of a plan's slots, slot 1 first.
pub fn places(plan: &Plan) -> Vec<Place> {
    let place = |slot| plan.place(slot).expect("an accepted plan has a place for each slot");
    (1..=SLOTS as u16).map(place).collect()
}

/// How many packets the slots at these places carry.
pub fn packets(places: &[Place]) -> usize {
    places.iter().filter(|place| place.data).map(|place| place.rate.packets()).sum()
}

/// How every frame of a run is laid out. The first slot of a plan always carries data.
pub struct Layout {
    /// The state at slot 1.
    pub opened: FrameState,
    /// The slots, slot 1 first.
    pub places: Vec<Place>,
    tables: Vec<Vec<u16>>,
    plan_name: String,
}

impl Layout {
    /// The layout of a setting, said in words or kept on a card.
    pub fn open(files: &mut Files, words: &SettingWords) -> Result<Layout, Failure> {
        let (opened, plan_name) = match words.setting()? {
            Setting::Said { plan, mask, start } => {
                let PlanFile { plan, name, .. } = read_plan(files, plan)?;
                (open_frame(plan, mask, start)?, name)
            }
            Setting::Kept { card, block } => {
                let card = Card::open(files, card)?;
                let Settings { plan, slots, .. } = card.setting(block)?;
                let opened = FrameState::open(plan, slots).expect("an accepted block has an accepted register");
                (opened, card.name_of(block))
            }
        };
        let plan = opened.plan();
        let tables = plan.groups().map(|group| group.rate.published_table()).collect();
        Ok(Layout { places: places(&plan), opened, tables, plan_name })
    }

    /// The parity table of a place.
    pub fn table(&self, place: &Place) -> &[u16] {
        &self.tables[place.group]
    }

    /// The numbers of the data slots, from 1.
    pub fn data_slots(&self) -> Vec<usize> {
        self.places.iter().zip(1..).filter(|(place, _)| place.data).map(|(_, slot)| slot).collect()
    }

    /// The rate of all slots, for a stream that fills the data slots of one group.
    pub fn only_rate(&self) -> Result<Rate, Failure> {
        match self.tables.len() {
            1 => Ok(self.places[0].rate),
            groups => {
                let wrong = format!("has {groups} groups, but TLV packets fill the data slots of one group");
                Err(Failure::new(&self.plan_name, wrong))
            }
        }
    }

    /// An area for the packets of any slot.
    pub fn packet_area(&self) -> Vec<u8> {
        vec![0; self.places.iter().map(|place| place.rate.packet_octets()).max().unwrap_or(0)]
    }
}
