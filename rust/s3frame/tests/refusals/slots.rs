//! One slot of header and data, and the lone parity check.
use crate::bindings::s3_state;
use crate::calls;
use crate::common::faults::{self, plan_choices, Faults};
use crate::common::words::NO_POSITION;
use crate::common::{code, stuffed, trials, Random};
use crate::states::{parts, Lent};
use crate::ways::{alone_and_in_pairs, cut, with_choices, Way};
use crate::{answered, compared, told};
use reference::slot::{self, Refused, NO_STUFF};

#[test]
fn coding_a_slot() {
    let mut random = Random::new(53);
    for faults in plan_choices(&[6, 3, 2, 4, 5], trials(3)) {
        let (mut lent, rate) = Lent::new(&mut random, true);
        let (mut table, mut source) = (random.table(rate), random.source(rate.source_octets()));
        let mut coded = random.octets(slot::OCTETS);
        if faults.has(5) {
            faults::break_tables(&mut random, &[rate], &mut table);
        }
        if faults.has(4) {
            faults::break_one_length(&mut random, &mut [&mut source, &mut coded]);
        }
        lent.break_state(&mut random, &faults, true);
        let plan = lent.plan.twin();
        compared(
            faults.first(),
            &coded,
            |coded| parts(calls::code_slot(lent.raw(), &table, &source, coded)),
            |coded| {
                let state = reference::calls::code_slot(&lent.twin(&plan), &table, &source, coded);
                told(state.map(|state| lent.after(&state)), lent.raw())
            },
        );
    }
}

/// A slot with the faults asked for, and its failing position: 9 keeps the parity, and 8 comes last and breaks it.
fn received(random: &mut Random, faults: &Faults, code: &slot::Code, sound: &[u8]) -> (Vec<u8>, u16) {
    let asked = [9, 8].into_iter().filter(|&number| faults.has(number));
    asked.fold((sound.to_vec(), NO_POSITION), |(slot, _), number| random.damaged(code, &slot, number))
}

/// What comes back from reading with its number: the state after it, the stuff bits and the failing position.
type Back = (s3_state, u8, u16);

/// What reading a slot is lent, the source as found among it, and what it must give where it is accepted; and the failing
/// position where the parity is what it refuses.
struct Reading {
    lent: Lent,
    table: Vec<u16>,
    coded: Vec<u8>,
    found: Vec<u8>,
    source: Vec<u8>,
    stuff: u8,
    register: u32,
    failing: u16,
}

impl Reading {
    /// A slot with any stuff bits, and all that is lent with it, with the faults asked for.
    fn new(random: &mut Random, faults: &Faults, lengths: &[&Way<Reading>]) -> Reading {
        let (lent, rate) = Lent::new(random, true);
        let mut table = random.table(rate);
        let (code, stuff) = (code(rate, &table), random.stuff());
        let source = random.source(code.message_bits() / 8);
        let (sound, register) = slot::code_slot(&code, lent.mask, lent.register, &source);
        let (coded, failing) = received(random, faults, &code, &stuffed(&code, &sound, stuff));
        if faults.has(5) {
            faults::break_tables(random, &[rate], &mut table);
        }
        let found = random.octets(source.len());
        let mut reading = Reading { lent, table, coded, found, source, stuff, register, failing };
        lengths.iter().for_each(|way| (way.break_it)(&mut reading));
        reading.lent.break_state(random, faults, true);
        reading
    }

    /// What the call must give back where it answers this number: 8 and 9 move on, and no other refusal does.
    fn back(&self, number: u8) -> Back {
        let lent = self.lent.raw();
        let moved = s3_state { slot: lent.slot.wrapping_add(1), register_: self.register, ..lent };
        match number {
            0 => (moved, self.stuff, NO_POSITION),
            8 => (moved, NO_STUFF, self.failing),
            9 => (moved, NO_STUFF, NO_POSITION),
            _ => (lent, NO_STUFF, NO_POSITION),
        }
    }

    /// Reads the slot into a source.
    fn read(&self, source: &mut [u8]) -> (u8, Back) {
        let told = calls::read_slot(self.lent.raw(), &self.table, &self.coded, source);
        (told.number, (told.state, told.stuff, told.position))
    }

    /// The same by the second implementation.
    fn read_by_reference(&self, source: &mut [u8]) -> (u8, Back) {
        let plan = self.lent.plan.twin();
        let (read, state) = reference::calls::read_slot(&self.lent.twin(&plan), &self.table, &self.coded, source);
        let (number, position) = Refused::told(&read);
        (number, (self.lent.after(&state), read.unwrap_or(NO_STUFF), position))
    }
}

/// The ways to 4 in reading.
const READING: &[Way<Reading>] = &[
    Way { of: "coded", break_it: |lent| lent.coded.clear() },
    Way { of: "coded", break_it: |lent| cut(&mut lent.coded) },
    Way { of: "coded", break_it: |lent| lent.coded.push(0) },
    Way { of: "source", break_it: |lent| lent.found.clear() },
    Way { of: "source", break_it: |lent| cut(&mut lent.found) },
    Way { of: "source", break_it: |lent| lent.found.push(0) },
];

fn read(random: &mut Random, faults: &Faults, lengths: &[&Way<Reading>]) {
    let (reading, number) = (Reading::new(random, faults, lengths), faults.first());
    let (back, left) =
        compared(number, &reading.found, |source| reading.read(source), |source| reading.read_by_reference(source));
    assert_eq!(back, reading.back(number));
    assert!(number != 0 || left == reading.source, "the source comes back");
}

#[test]
fn reading_a_slot() {
    let numbers = [1, 13, 14, 15, 6, 3, 2, 4, 5, 8, 9];
    with_choices(&mut Random::new(54), &numbers, trials(1), &alone_and_in_pairs(READING), read);
}

/// What the lone parity check is lent.
struct Check {
    rate: u32,
    table: Vec<u16>,
    coded: Vec<u8>,
}

/// The ways to 4 in the lone parity check.
const CHECKING: &[Way<Check>] = &[
    Way { of: "coded", break_it: |lent| lent.coded.clear() },
    Way { of: "coded", break_it: |lent| cut(&mut lent.coded) },
    Way { of: "coded", break_it: |lent| lent.coded.push(0) },
];

/// Checks a slot of chance with the faults asked for. With 8 alone there is a position.
fn check(random: &mut Random, faults: &Faults, lengths: &[&Way<Check>]) {
    let rate = random.rate();
    let table = random.table(rate);
    let code = code(rate, &table);
    let sound = reference::vectors::with_parity_anew(&code, &random.octets(slot::OCTETS));
    let (coded, failing) = received(random, faults, &code, &sound);
    let mut lent = Check { rate: rate.number(), table, coded };
    if faults.has(5) {
        faults::break_tables(random, &[rate], &mut lent.table);
    }
    lengths.iter().for_each(|way| (way.break_it)(&mut lent));
    if faults.has(1) {
        faults::unknown(random, &mut lent.rate, 11);
    }
    let Check { rate, table, coded } = lent;
    let checked = calls::check_parity(rate, &table, &coded);
    let expected = Refused::told(&reference::calls::check_parity(rate as usize, &table, &coded));
    answered(faults.first(), (checked.number, checked.position), expected);
    assert_eq!(checked.position, if faults.first() == 8 { failing } else { NO_POSITION });
}

#[test]
fn checking_parity() {
    with_choices(&mut Random::new(55), &[1, 4, 5, 8], trials(20), &alone_and_in_pairs(CHECKING), check);
}
