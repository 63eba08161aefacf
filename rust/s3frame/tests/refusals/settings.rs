//! Settings on a card. Plan and registers of a refusal are all zeros.
use crate::bindings::{s3_plan, s3_register, s3_registers};
use crate::common::cards::{block, put_sum, registers, SUM};
use crate::common::faults::{self, choices, Faults};
use crate::common::plans::Handed;
use crate::common::{trials, Random};
use crate::ways::Way;
use crate::{answered, calls, kept, states, texts, told};
use reference::settings::{Registers, Setting};
use s3frame::{MOST_SETTINGS, SETTING_OCTETS};

/// The ways to 17.
const BLOCK_FAULTS: [&str; 6] = ["number", "mark", "edition", "sum", "zeros", "unused groups"];

/// A card, where on it, and what is kept there or shall be.
struct Lent {
    card: Vec<u8>,
    number: usize,
    plan: Handed,
    registers: Registers,
}

/// Registers as our calls take and give them.
fn raw([slot_mask, slot_start, tmcc_mask, tmcc_start]: Registers) -> s3_registers {
    let [slots, tmcc] = [(slot_mask, slot_start), (tmcc_mask, tmcc_start)];
    let register = |(mask, start)| s3_register { mask, start };
    s3_registers { slots: register(slots), tmcc: register(tmcc) }
}

impl Lent {
    fn new(random: &mut Random) -> Lent {
        let (kept, blocks) = (random.kept(), random.pick(&[1, 2, 3, 64]));
        let (card, number) = (random.card(blocks), random.below(blocks));
        Lent { card, number, plan: Handed::new(random, &kept.plan), registers: registers(&kept) }
    }

    fn blocks(&self) -> usize {
        self.card.len() / SETTING_OCTETS
    }

    /// 6: one of the four numbers.
    fn break_registers(&mut self, random: &mut Random) {
        let (slots, tmcc) = self.registers.split_at_mut(2);
        let (pair, width) = if random.chance(2) { (slots, 25) } else { (tmcc, 15) };
        match random.below(2) {
            0 => faults::break_mask(random, width, &mut pair[0]),
            _ => faults::break_register(random, width, &mut pair[1]),
        }
    }

    /// Puts the block on the card, with a wrong count or wrong in one of these ways where asked.
    fn put(&mut self, random: &mut Random, wrong_count: bool, wrong: Option<&str>) {
        let count = if wrong_count { random.pick(&[0, 9, 10, 128, 255]) } else { self.plan.count as u8 };
        // Behind a count of 0 all groups are unused, and zeros.
        let groups = if count == 0 { vec![] } else { self.plan.groups.concat() };
        let mut block = block(count, &groups, self.registers);
        let unused = 6 + 3 * usize::from(count);
        match wrong {
            Some("mark") => block[random.below(4)] ^= 1 << random.below(8),
            Some("edition") => block[4] = random.pick(&[0, 2, 3, 129, 255]),
            Some("unused groups") if unused < 30 => block[random.pick(&[unused, 29])] = 1 << random.below(8),
            Some("zeros" | "unused groups") => block[random.pick(&[46, 47, 300, 508, 509])] = 1 << random.below(8),
            _ => (),
        }
        put_sum(&mut block);
        if wrong == Some("sum") {
            block[random.pick(&[SUM, SUM + 1])] ^= 1 << random.below(8);
        }
        self.card[self.number * SETTING_OCTETS..][..SETTING_OCTETS].copy_from_slice(&block);
    }

    /// 17: a number past the card, also one that is a block's in its low bits, or times 512 in 32 or 64 bits.
    fn break_number(&mut self, random: &mut Random) {
        let (blocks, number) = (self.blocks(), self.number);
        let low = [256, 65_536, 1 << 23, 1 << 32, 1 << 55].map(|above| above + number);
        let past = [&[blocks, blocks + 1, 64, 1 << 31, usize::MAX][..], &low].concat();
        self.number = random.pick(&past);
    }
}

/// The ways to 4.
const CARDS: &[Way<Lent>] = &[
    Way { of: "card", break_it: |lent| lent.card.push(0) },
    Way { of: "card", break_it: |lent| lent.card.truncate(lent.card.len() - 1) },
    Way { of: "card", break_it: |lent| lent.card.truncate(1) },
    Way { of: "card", break_it: |lent| lent.card.resize(SETTING_OCTETS * MOST_SETTINGS + 1, 0) },
    Way { of: "card", break_it: |lent| lent.card.resize(SETTING_OCTETS * (MOST_SETTINGS + 1), 0) },
];

fn read_with(random: &mut Random, faults: &Faults, length: Option<&Way<Lent>>, wrong: Option<&str>) {
    let mut lent = Lent::new(random);
    if faults.has(6) {
        lent.break_registers(random);
    }
    break_octets(random, faults, &mut lent.plan);
    lent.put(random, faults.has(1), wrong);
    if wrong == Some("number") {
        lent.break_number(random);
    }
    length.into_iter().for_each(|way| (way.break_it)(&mut lent));
    let Lent { card, number, .. } = lent;
    let (answer, expected) = (calls::read_settings(&card, number), reference::settings::read(&card, number));
    let expected = expected.map(|Setting { plan, registers }| (texts::raw(&plan), raw(registers)));
    let none = (s3_plan::default(), s3_registers::default());
    answered(faults.first(), (answer.number, (answer.plan, answer.registers)), told(expected, none));
}

/// 13, 14 and 15 by numbers that an octet holds, as in a block.
fn break_octets(random: &mut Random, faults: &Faults, plan: &mut Handed) {
    let found = plan.clone();
    loop {
        faults::break_groups(random, faults, &mut plan.groups);
        if plan.groups.iter().flatten().all(|&number| number < 256) {
            break;
        }
        *plan = found.clone();
    }
    plan.count = plan.groups.len() as u16;
}

#[test]
fn reading() {
    let mut random = Random::new(73);
    for faults in (0..trials(2)).flat_map(|_| choices(&[4, 17, 1, 13, 14, 15, 6], 1)) {
        let lengths = if faults.has(4) { CARDS.iter().map(Some).collect() } else { vec![None; 10] };
        let wrong = if faults.has(17) { BLOCK_FAULTS.map(Some).to_vec() } else { vec![None] };
        for &length in &lengths {
            wrong.iter().for_each(|wrong| read_with(&mut random, &faults, length, *wrong));
        }
    }
}

fn replace_with(random: &mut Random, faults: &Faults, length: Option<&Way<Lent>>) {
    let mut lent = Lent::new(random);
    if faults.has(6) {
        lent.break_registers(random);
    }
    faults::break_plan(random, faults, &mut lent.plan);
    if faults.has(17) {
        lent.break_number(random);
    }
    length.into_iter().for_each(|way| (way.break_it)(&mut lent));
    let Lent { card, number, plan, registers } = lent;
    let setting = Setting { plan: plan.twin(), registers };
    kept(
        faults.first(),
        &card,
        |card| calls::replace_settings(card, number, states::raw(&plan), raw(registers)),
        |card| reference::settings::replace(card, number, &setting),
    );
}

#[test]
fn replacing() {
    let mut random = Random::new(74);
    for faults in (0..trials(2)).flat_map(|_| choices(&[4, 17, 1, 13, 14, 15, 6], 1)) {
        let lengths = if faults.has(4) { CARDS.iter().map(Some).collect() } else { vec![None; 20] };
        lengths.iter().for_each(|&length| replace_with(&mut random, &faults, length));
    }
}
