//! Whole frames with something wrong, and what reading tells of each slot of one that is accepted; accepted frames have a test
//! file of their own.
use crate::calls;
use crate::common::faults::{self, Faults};
use crate::common::plans::Handed;
use crate::common::{trials, Random, Told};
use crate::states::{raw, Lent};
use crate::ways::{alone_and_in_pairs, cut, with_choices, Way};
use crate::{compared, kept};
use reference::frame;
use reference::plan::source_octets;
use s3frame::{Modulation, Rate, SlotSettings, SLOTS};

/// What a reading call writes: what it reads, and three numbers for each slot.
#[derive(Clone, PartialEq)]
struct Areas {
    source: Vec<u8>,
    answers: Vec<u8>,
    stuff: Vec<u8>,
    positions: Vec<u16>,
}

impl Areas {
    /// Areas of chance for a source of so many octets.
    fn new(random: &mut Random, count: usize) -> Areas {
        let [source, answers, stuff] = [count, SLOTS, SLOTS].map(|count| random.octets(count));
        Areas { source, answers, stuff, positions: random.numbers(SLOTS) }
    }

    /// Reads a frame into them.
    fn read(&mut self, plan: &Handed, settings: SlotSettings, tables: &[u16], coded: &[u8]) -> u8 {
        let (Areas { source, answers, stuff, positions }, SlotSettings { mask, start }) = (self, settings);
        calls::read_frame(raw(plan), mask, start, tables, coded, source, answers, stuff, positions)
    }

    /// The same by the second implementation.
    fn read_by_reference(&mut self, plan: &Handed, settings: SlotSettings, tables: &[u16], coded: &[u8]) -> u8 {
        let (Areas { source, answers, stuff, positions }, SlotSettings { mask, start }) = (self, settings);
        frame::read(&plan.twin(), mask, start, tables, coded, source, answers, stuff, positions)
    }

    /// What they tell of each slot.
    fn told(&self) -> Vec<Told> {
        (0..SLOTS).map(|slot| (self.answers[slot], self.stuff[slot], self.positions[slot])).collect()
    }
}

/// What a whole frame's calls are lent: the coder the source alone of what the reader writes.
struct Frame {
    lent: Lent,
    tables: Vec<u16>,
    coded: Vec<u8>,
    areas: Areas,
}

impl Frame {
    /// Octets of chance, with the faults asked for.
    fn new(random: &mut Random, faults: &Faults, lengths: &[&Way<Frame>]) -> Frame {
        let (lent, _) = Lent::new(random, true);
        let groups = lent.plan.twin();
        let rates: Vec<Rate> = groups.iter().map(|group| Rate::ALL[group.rate - 1]).collect();
        let tables = rates.iter().flat_map(|&rate| random.table(rate)).collect();
        let (coded, areas) = (random.octets(frame::OCTETS), Areas::new(random, source_octets(&groups)));
        let mut frame = Frame { lent, tables, coded, areas };
        if faults.has(5) {
            faults::break_tables(random, &rates, &mut frame.tables);
        }
        lengths.iter().for_each(|way| (way.break_it)(&mut frame));
        frame.lent.break_frame(random, faults);
        frame
    }
}

/// The ways to 4 in both calls.
const BOTH: &[Way<Frame>] = &[
    Way { of: "source", break_it: |lent| lent.areas.source.clear() },
    Way { of: "source", break_it: |lent| cut(&mut lent.areas.source) },
    Way { of: "source", break_it: |lent| lent.areas.source.push(0) },
    Way { of: "frame", break_it: |lent| lent.coded.clear() },
    Way { of: "frame", break_it: |lent| cut(&mut lent.coded) },
    Way { of: "frame", break_it: |lent| lent.coded.push(0) },
];

/// The further ways in reading.
const READING: &[Way<Frame>] = &[
    Way { of: "answers", break_it: |lent| lent.areas.answers.clear() },
    Way { of: "answers", break_it: |lent| cut(&mut lent.areas.answers) },
    Way { of: "answers", break_it: |lent| lent.areas.answers.push(0) },
    Way { of: "stuff", break_it: |lent| lent.areas.stuff.clear() },
    Way { of: "stuff", break_it: |lent| cut(&mut lent.areas.stuff) },
    Way { of: "stuff", break_it: |lent| lent.areas.stuff.push(0) },
    Way { of: "positions", break_it: |lent| lent.areas.positions.clear() },
    Way { of: "positions", break_it: |lent| cut(&mut lent.areas.positions) },
    Way { of: "positions", break_it: |lent| lent.areas.positions.push(0) },
];

fn coded(random: &mut Random, faults: &Faults, lengths: &[&Way<Frame>]) {
    let Frame { lent: Lent { plan, mask, start, .. }, tables, coded, areas } = Frame::new(random, faults, lengths);
    kept(
        faults.first(),
        &coded,
        |coded| calls::code_frame(raw(&plan), mask, start, &tables, &areas.source, coded),
        |coded| frame::code(&plan.twin(), mask, start, &tables, &areas.source, coded),
    );
}

fn read(random: &mut Random, faults: &Faults, lengths: &[&Way<Frame>]) {
    let Frame { lent: Lent { plan, mask, start, .. }, tables, coded, areas } = Frame::new(random, faults, lengths);
    let settings = SlotSettings { mask, start };
    kept(
        faults.first(),
        &areas,
        |areas| areas.read(&plan, settings, &tables, &coded),
        |areas| areas.read_by_reference(&plan, settings, &tables, &coded),
    );
}

/// The numbers of both calls in their order.
const NUMBERS: [u8; 7] = [1, 13, 14, 15, 6, 4, 5];

#[test]
fn coding_a_frame() {
    with_choices(&mut Random::new(56), &NUMBERS, trials(3), &alone_and_in_pairs(BOTH), coded);
}

#[test]
fn reading_a_frame() {
    let lengths = alone_and_in_pairs(BOTH.iter().chain(READING));
    with_choices(&mut Random::new(57), &NUMBERS, trials(3), &lengths, read);
}

/// Slots with any stuff bits, damaged ones and dummies: the numbers that tell of each, and the only answers that there are.
#[test]
fn what_is_told_of_the_slots_of_a_frame() {
    let mut random = Random::new(75);
    for _ in 0..trials(3) {
        let (rate, settings) = (random.rate(), random.slot_settings());
        let plan = random.plan_with(Modulation::Qpsk, rate);
        let (lent, source) = (random.tables(&plan), random.source(plan.source_octets()));
        let (tables, mut coded) = (lent.concat(), random.octets(frame::OCTETS));
        let handed = Handed::new(&mut random, &plan);
        assert_eq!(frame::code(&handed.twin(), settings.mask, settings.start, &tables, &source, &mut coded), 0);
        let expected = random.receive_frame(&plan, &lent, &mut coded);
        let (_, areas) = compared(
            0,
            &Areas::new(&mut random, source.len()),
            |areas| (areas.read(&handed, settings, &tables, &coded), ()),
            |areas| (areas.read_by_reference(&handed, settings, &tables, &coded), ()),
        );
        assert!(areas.answers.iter().all(|answer| [0, 2, 8, 9].contains(answer)));
        assert_eq!(areas.told(), expected);
    }
}
