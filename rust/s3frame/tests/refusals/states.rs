//! Opening a frame and passing a dummy, and what every call at a place of a frame is handed.
use crate::bindings::{s3_answer, s3_plan, s3_state};
use crate::calls;
use crate::common::faults::{self, plan_choices, Faults};
use crate::common::plans::Handed;
use crate::common::{trials, Random};
use crate::{answered, told};
use reference::calls::State;
use reference::plan::{places, Group};
use s3frame::{Modulation, Rate, SlotSettings};

/// What a call at a place of a frame is handed.
pub struct Lent {
    pub plan: Handed,
    pub mask: u32,
    pub start: u32,
    pub slot: u16,
    pub register: u32,
}

/// A plan as our calls take it.
pub fn raw(plan: &Handed) -> s3_plan {
    let places = plan.places();
    let [modulation, rate, slots] = [0, 1, 2].map(|number| places.map(|three| three[number]));
    s3_plan { count: plan.count, modulation, rate, slots }
}

/// A number and the state that comes back with it.
pub fn parts(answer: s3_answer) -> (u8, s3_state) {
    (answer.number, answer.state)
}

impl Lent {
    /// A state at a slot that carries data, or at a dummy, of a plan that has both; and the slot's rate.
    pub fn new(random: &mut Random, data: bool) -> (Lent, Rate) {
        let (modulation, rate) = (random.pick(&Modulation::ALL[..4]), random.rate());
        let plan = random.plan_with(modulation, rate);
        let plan = Handed::new(random, &plan);
        let SlotSettings { mask, start } = random.slot_settings();
        let (slot, rate) = slot_at(random, &plan.twin(), data);
        let register = random.register(25);
        (Lent { plan, mask, start, slot, register }, rate)
    }

    /// The state as our calls take it.
    pub fn raw(&self) -> s3_state {
        let s3_plan { count, modulation, rate, slots } = raw(&self.plan);
        let &Lent { mask, start, slot, register, .. } = self;
        s3_state { count, modulation, rate, slots, mask, start, slot, register_: register }
    }

    /// The state as the second implementation takes it.
    pub fn twin<'a>(&self, plan: &'a [Group]) -> State<'a> {
        State { plan, mask: self.mask, start: self.start, slot: self.slot.into(), register: self.register }
    }

    /// The state that the second implementation gives, as our calls give it: what stands behind the groups is still there.
    pub fn after(&self, state: &State) -> s3_state {
        let State { mask, start, slot, register, .. } = *state;
        s3_state { mask, start, slot: slot as u16, register_: register, ..self.raw() }
    }

    /// Breaks plan and settings as asked, for a call that takes no more of a state.
    pub fn break_frame(&mut self, random: &mut Random, faults: &Faults) {
        if faults.has(6) {
            faults::break_settings(random, 25, &mut self.mask, &mut self.start);
        }
        faults::break_plan(random, faults, &mut self.plan);
    }

    /// Breaks the state as asked: what is tested last is broken first, so that it cannot undo another fault.
    pub fn break_state(&mut self, random: &mut Random, faults: &Faults, data: bool) {
        if faults.has(2) {
            (self.slot, _) = slot_at(random, &self.plan.twin(), !data);
        }
        if faults.has(3) {
            faults::past_slot(random, &mut self.slot);
        }
        if faults.has(6) {
            match random.below(3) {
                0 => faults::break_register(random, 25, &mut self.register),
                _ => faults::break_settings(random, 25, &mut self.mask, &mut self.start),
            }
        }
        faults::break_plan_or_slot(random, faults, &mut self.plan, &mut self.slot);
    }
}

/// A slot of a plan that carries data or is a dummy, and its rate.
fn slot_at(random: &mut Random, plan: &[Group], data: bool) -> (u16, Rate) {
    let places = places(plan);
    let slots: Vec<usize> = (1..=places.len()).filter(|slot| places[slot - 1].data == data).collect();
    let slot = random.pick(&slots);
    let rate = Rate::from_number(plan[places[slot - 1].group].rate as u32);
    (slot as u16, rate.expect("a known rate"))
}

/// The state of a refused opening is all zeros.
#[test]
fn opening() {
    let mut random = Random::new(51);
    for faults in plan_choices(&[6], trials(20)) {
        let (mut lent, _) = Lent::new(&mut random, true);
        lent.break_frame(&mut random, &faults);
        let (mask, start, plan) = (lent.mask, lent.start, lent.plan.twin());
        let opened = reference::calls::open(&plan, mask, start).map(|state| lent.after(&state));
        let expected = told(opened, s3_state::default());
        answered(faults.first(), parts(calls::open(raw(&lent.plan), mask, start)), expected);
    }
}

#[test]
fn passing() {
    let mut random = Random::new(52);
    for faults in plan_choices(&[6, 3, 2], trials(8)) {
        let (mut lent, _) = Lent::new(&mut random, false);
        lent.break_state(&mut random, &faults, false);
        let plan = lent.plan.twin();
        let passed = reference::calls::pass(&lent.twin(&plan)).map(|state| lent.after(&state));
        answered(faults.first(), parts(calls::pass(lent.raw())), told(passed, lent.raw()));
    }
}
