//! What the calls say of a plan and its slots.
use crate::bindings::s3_slot_place;
use crate::calls;
use crate::common::faults::{self, plan_choices};
use crate::common::plans::Handed;
use crate::common::{trials, Random};
use crate::states::raw;
use crate::{answered, kept, told};
use reference::plan::{source_octets, Group, Place};

#[test]
fn what_to_lend_for_a_plan() {
    let mut random = Random::new(66);
    for faults in plan_choices(&[], trials(40)) {
        let plan = random.plan();
        let mut plan = Handed::new(&mut random, &plan);
        faults::break_plan(&mut random, &faults, &mut plan);
        let expected = match (faults.first(), plan.twin()) {
            (0, groups) => {
                [source_octets(&groups), reference::tables::printed(groups.iter().map(|group| group.rate)).len()]
            }
            _ => [0, 0],
        };
        assert_eq!([calls::source_octets(raw(&plan)), calls::tables_entries(raw(&plan))], expected, "plan {plan:?}");
    }
}

#[test]
fn copying_the_published_tables() {
    let mut random = Random::new(67);
    for faults in plan_choices(&[4], trials(10)) {
        let plan = random.plan();
        let rates = plan.groups().map(|group| group.rate as usize);
        let mut area = random.numbers(reference::tables::printed(rates).len());
        let mut plan = Handed::new(&mut random, &plan);
        if faults.has(4) {
            faults::break_length(&mut random, &mut area);
        }
        faults::break_plan(&mut random, &faults, &mut plan);
        kept(
            faults.first(),
            &area,
            |area| calls::published_tables(raw(&plan), area),
            |area| reference::calls::published_tables(&plan.twin(), area),
        );
    }
}

/// A place as our calls give it.
fn raw_place(plan: &[Group], place: Place) -> s3_slot_place {
    let Group { modulation, rate, .. } = plan[place.group];
    s3_slot_place { group: place.group, modulation: modulation as u32, rate: rate as u32, carries: place.data }
}

/// 3: a slot number behind the last, also one that is a slot's in its low octets; a lone slot number has 32 bits.
fn past_slot(random: &mut Random, slot: u16) -> u32 {
    let slot = u32::from(slot);
    random.pick(&[121, 122, 255, 256, 256 + slot, 65_536, 65_536 + slot, 1 << 31 | slot, u32::MAX])
}

/// The place of a refusal is all zeros.
#[test]
fn places() {
    let mut random = Random::new(68);
    for faults in plan_choices(&[3], trials(20)) {
        let (plan, mut slot) = (random.plan(), 1 + random.below(120) as u16);
        let mut plan = Handed::new(&mut random, &plan);
        let past = past_slot(&mut random, slot);
        faults::break_plan_or_slot(&mut random, &faults, &mut plan, &mut slot);
        let slot = if faults.has(3) && slot != 0 { past } else { slot.into() };
        let (groups, placed) = (plan.twin(), calls::place(raw(&plan), slot));
        let expected = reference::calls::place(&groups, slot).map(|place| raw_place(&groups, place));
        answered(faults.first(), (placed.number, placed.place), told(expected, s3_slot_place::default()));
    }
}
