//! Whole frames beside the second implementation.
mod common;
use common::words::{turned, NO_POSITION};
use common::{codes, groups, number, trials, Random, Told, DUMMY};
use reference::frame;
use reference::slot::Code;
use reference::vectors::with_parity_anew;
use s3frame::{code_frame, read_frame, FrameState, Group, Modulation, Plan, Rate, Refusal, SlotAnswer, SlotSettings};
use s3frame::{FRAME_OCTETS, SLOTS, SLOT_OCTETS};

/// A frame's plan, settings and tables.
struct Frame {
    plan: Plan,
    settings: SlotSettings,
    tables: Vec<Vec<u16>>,
}

impl Frame {
    fn new(random: &mut Random, plan: Plan) -> Frame {
        let (tables, settings) = (random.tables(&plan), random.slot_settings());
        Frame { plan, settings, tables }
    }

    /// Codes a source both ways and compares; gives the frame.
    fn code(&self, random: &mut Random, source: &[u8]) -> Vec<u8> {
        let found = random.octets(FRAME_OCTETS);
        let [mut ours, mut theirs] = [found.clone(), found];
        let (tables, settings) = (self.tables.concat(), self.settings);
        let expected = frame::code(&groups(&self.plan), settings.mask, settings.start, &tables, source, &mut theirs);
        assert_eq!(number(code_frame(&self.plan, settings, &tables, source, &mut ours)), expected.into());
        assert_eq!(expected, 0);
        assert!(ours == theirs, "the frames differ");
        ours
    }

    /// Reads a frame both ways into areas as found and compares; gives the source, and what is told of each slot.
    fn read(&self, coded: &[u8], found: &[u8]) -> (Vec<u8>, Vec<Told>) {
        let [mut ours, mut theirs] = [found.to_vec(), found.to_vec()];
        let (tables, SlotSettings { mask, start }, groups) = (self.tables.concat(), self.settings, groups(&self.plan));
        let (mut answers, mut stuff, mut positions) = ([7; SLOTS], [7; SLOTS], [7; SLOTS]);
        let areas = (&mut theirs, &mut answers, &mut stuff, &mut positions);
        assert_eq!(frame::read(&groups, mask, start, &tables, coded, areas.0, areas.1, areas.2, areas.3), 0);
        let read = read_frame(&self.plan, self.settings, &tables, coded, &mut ours).expect("a frame that is read");
        let told = read.answers.map(told).to_vec();
        let expected: Vec<Told> = (0..SLOTS).map(|slot| (answers[slot], stuff[slot], positions[slot])).collect();
        assert_eq!(told, expected);
        assert!(ours == theirs, "what was read differs");
        (ours, told)
    }

    /// The octets of each slot in a source, none for a dummy.
    fn parts<'a>(&self, mut source: &'a [u8]) -> Vec<&'a [u8]> {
        let part = |slot| {
            let place = self.plan.place(slot).expect("a slot of the frame");
            let (part, behind) = source.split_at(if place.data { place.rate.source_octets() } else { 0 });
            source = behind;
            part
        };
        (1..=SLOTS as u16).map(part).collect()
    }
}

/// What the calls tell of a slot.
fn told(answer: SlotAnswer) -> Told {
    match answer {
        SlotAnswer::Read(stuff) => common::told(Ok(stuff)),
        SlotAnswer::Dummy => DUMMY,
        SlotAnswer::Refused(refused) => common::told(Err(refused)),
    }
}

/// Codes a frame, reads it as it was coded, and with any stuff bits and damaged slots.
fn frame_of(random: &mut Random, plan: Plan) {
    let frame = Frame::new(random, plan);
    let source = random.source(plan.source_octets());
    let mut coded = frame.code(random, &source);
    let found = random.octets(source.len());
    let (back, told) = frame.read(&coded, &found);
    assert!(back == source, "the frame read is not the one coded");
    assert!(told.iter().all(|slot| [(0, 63, NO_POSITION), DUMMY].contains(slot)));

    let expected = random.receive_frame(&plan, &frame.tables, &mut coded);
    let (back, told) = frame.read(&coded, &found);
    assert_eq!(told, expected);
    let [back, source, found] = [&back, &source, &found].map(|octets| frame.parts(octets));
    for slot in 0..SLOTS {
        let left = if told[slot].0 == 0 { source[slot] } else { found[slot] };
        assert!(back[slot] == left, "slot {} is read, or left as found", slot + 1);
    }
}

/// Every rate in a frame of its own, so that none is left to chance.
#[test]
fn every_rate() {
    let mut random = Random::new(11);
    for _ in 0..trials(1) {
        for rate in Rate::ALL {
            let modulation = random.modulation();
            let plan = random.plan_with(modulation, rate);
            frame_of(&mut random, plan);
        }
    }
    println!("counted {} frames coded", trials(11));
}

#[test]
fn plans_of_chance() {
    let mut random = Random::new(12);
    for _ in 0..trials(11) {
        let plan = random.plan();
        frame_of(&mut random, plan);
    }
    println!("counted {} frames coded", trials(11));
}

/// A frame of data slots alone, of three groups.
fn full_plan() -> Plan {
    let group = |rate| Group { modulation: Modulation::Apsk32, rate, slots: 40 };
    Plan::new(&[Rate::R9_10, Rate::R7_9, Rate::R1_3].map(group)).expect("a plan that keeps the rules")
}

/// Damaged slots of the full plan, neighbours among them, at the ends of the frame and of each group: the lowest failing
/// position of each, the last that there is too, or none where BCH bits are wrong.
const DAMAGED: [(usize, Option<u16>); 12] = [
    (1, Some(0)),
    (2, None),
    (39, Some(1)),
    (40, Some(4113)),
    (41, Some(10_097)),
    (42, Some(0)),
    (79, None),
    (80, Some(701)),
    (81, Some(700)),
    (82, None),
    (119, Some(29_544)),
    (120, Some(29_545)),
];

/// A slot where the parity bit of this position is wrong, and every thousandth behind it; or a bit before the parity, which is
/// made anew.
fn damaged(code: &Code, slot: &[u8], lowest: Option<u16>) -> Vec<u8> {
    match lowest {
        Some(position) => {
            let first = code.dispersed_bits() + usize::from(position);
            turned(slot, &(first..8 * SLOT_OCTETS).step_by(1000).collect::<Vec<_>>())
        }
        None => with_parity_anew(code, &turned(slot, &[0])),
    }
}

/// Each slot is told its own position, and none that of another; so also where slots are read one by one.
#[test]
fn each_slot_has_its_own_position() {
    let (mut random, plan) = (Random::new(14), full_plan());
    let frame = Frame::new(&mut random, plan);
    let source = random.source(plan.source_octets());
    let mut coded = frame.code(&mut random, &source);
    let (codes, mut expected) = (codes(&plan, &frame.tables), vec![(0, 63, NO_POSITION); SLOTS]);
    for (slot, lowest) in DAMAGED {
        let part = &mut coded[SLOT_OCTETS * (slot - 1)..SLOT_OCTETS * slot];
        part.copy_from_slice(&damaged(&codes[(slot - 1) / 40], part, lowest));
        expected[slot - 1] = lowest.map_or((9, 255, NO_POSITION), |position| (8, 255, position));
    }
    let (_, told) = frame.read(&coded, &random.octets(source.len()));
    assert_eq!(told, expected);
    assert_eq!(slot_by_slot(&frame, &coded), expected);
}

/// What the calls on lone slots tell of a frame without dummies.
fn slot_by_slot(frame: &Frame, coded: &[u8]) -> Vec<Told> {
    let mut state = FrameState::open(frame.plan, frame.settings).expect("settings that are allowed");
    let read = |slot: &[u8]| {
        let place = frame.plan.place(state.slot()).expect("a slot of the frame");
        let read = state.read_slot(&frame.tables[place.group], slot, &mut vec![0; place.rate.source_octets()]);
        state = read.state;
        common::told(read.answer)
    };
    coded.chunks(SLOT_OCTETS).map(read).collect()
}

/// Frames refused for each reason that the types leave; nothing is written.
#[test]
fn a_refused_frame_writes_nothing() {
    let mut random = Random::new(13);
    let (plan, settings) = (random.plan(), random.slot_settings());
    let (tables, source) = (random.tables(&plan).concat(), random.octets(plan.source_octets()));
    let stopped = SlotSettings { start: 0, ..settings };
    let cases = [
        (stopped, &tables[1..], &source[1..], Refusal::Register),
        (settings, &tables[1..], &source[1..], Refusal::Length),
        (settings, &tables[1..], &source[..], Refusal::Table),
    ];
    for (settings, tables, source, refusal) in cases {
        let found = random.octets(FRAME_OCTETS);
        let (mut frame, mut back) = (found.clone(), source.to_vec());
        assert_eq!(code_frame(&plan, settings, tables, source, &mut frame), Err(refusal));
        assert_eq!(read_frame(&plan, settings, tables, &found, &mut back), Err(refusal));
        assert!(frame == found && back == source);
    }
}
