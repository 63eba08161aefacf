//! Slots, one call at a time, beside the second implementation.
mod common;
use common::words::{Word, NO_POSITION};
use common::{code, groups, number_and_position, stuffed, told, trials, twin, Random, Told};
use reference::slot::{bits_of, octets_of, Code, Refused, NO_STUFF, WIDTH};
use reference::{calls, dispersal, ldpc, vectors};
use s3frame::{FrameState, Group, Modulation, Plan, Rate, Refusal, SlotSettings, SLOT_OCTETS};

/// Codes a slot both ways and compares; gives the slot and the state after it.
fn coded(random: &mut Random, state: FrameState, table: &[u16], source: &[u8]) -> (Vec<u8>, FrameState) {
    let found = random.octets(SLOT_OCTETS);
    let [mut ours, mut theirs] = [found.clone(), found];
    let groups = groups(&state.plan());
    let expected = calls::code_slot(&twin(&groups, &state), table, source, &mut theirs).expect("a slot that is coded");
    let after = state.code_slot(table, source, &mut ours).expect("a slot that is coded");
    assert_eq!(twin(&groups, &after), expected);
    assert!(ours == theirs, "the slots differ");
    (ours, after)
}

/// Reads a slot both ways and compares; gives what is told of it, the octets and the state after it.
fn read(
    random: &mut Random,
    state: FrameState,
    table: &[u16],
    slot: &[u8],
    count: usize,
) -> (Told, Vec<u8>, FrameState) {
    let found = random.octets(count);
    let [mut ours, mut theirs] = [found.clone(), found.clone()];
    let groups = groups(&state.plan());
    let (expected, after) = calls::read_slot(&twin(&groups, &state), table, slot, &mut theirs);
    let read = state.read_slot(table, slot, &mut ours);
    let told = told(read.answer);
    assert_eq!((told.0, told.2), Refused::told(&expected));
    assert_eq!(told.1, expected.unwrap_or(NO_STUFF));
    assert_eq!((read.state.plan(), twin(&groups, &read.state)), (state.plan(), after));
    assert!(ours == theirs, "what was read differs");
    assert!(expected.is_ok() || ours == found, "a refused slot writes nothing");
    (told, ours, read.state)
}

/// Checks a slot's parity both ways and compares; gives number and failing position.
fn checked(rate: Rate, table: &[u16], slot: &[u8]) -> (u8, u16) {
    let ours = number_and_position(s3frame::check_parity(rate, table, slot));
    assert_eq!(ours, Refused::told(&calls::check_parity(rate as usize, table, slot)));
    ours
}

/// Codes one slot, reads it whole, with other stuff bits and damaged in each way, and gives how many slot calls that made.
fn slot_of(random: &mut Random, modulation: Modulation, rate: Rate) -> usize {
    let state = random.state(modulation, rate);
    let (table, source) = (random.table(rate), random.source(rate.source_octets()));
    let (code, stuff) = (code(rate, &table), random.stuff());

    let (slot, after) = coded(random, state, &table, &source);
    for (slot, stuff) in [(stuffed(&code, &slot, stuff), stuff), (slot.clone(), 63)] {
        assert_eq!(checked(rate, &table, &slot), (0, NO_POSITION));
        let expected = ((0, stuff, NO_POSITION), source.clone(), after);
        assert_eq!(read(random, state, &table, &slot, source.len()), expected);
    }
    for damage in [8, 9] {
        let (slot, position) = random.damaged(&code, &slot, damage);
        let (told, _, moved) = read(random, state, &table, &slot, source.len());
        assert_eq!((told, moved), ((damage, 255, position), after), "the state after damage is that after a good slot");
        assert_eq!(checked(rate, &table, &slot), (if damage == 8 { 8 } else { 0 }, position));
    }
    5
}

#[test]
fn every_rate_and_modulation() {
    let mut random = Random::new(1);
    let mut calls = 0;
    for _ in 0..trials(8) {
        for modulation in Modulation::ALL {
            for rate in Rate::ALL {
                calls += slot_of(&mut random, modulation, rate);
            }
        }
    }
    println!("counted {calls} slot calls");
    assert!(calls >= 2_000);
}

/// The first bit of the header, of the BCH bits, of the stuff bits or of the last octet is damaged, and the parity is as sent
/// or made anew: in the first two slots of a frame of a rate, with the published table.
fn damaged_parts_of(random: &mut Random, rate: Rate) {
    let group = Group { modulation: Modulation::Apsk32, rate, slots: 120 };
    let plan = Plan::new(&[group]).expect("a plan that keeps the rules");
    let table = rate.published_table();
    let code = code(rate, &table);
    let word = Word::slot(&code);
    let mut state = FrameState::open(plan, random.slot_settings()).expect("settings that are allowed");
    for _ in 1..=2 {
        let source = random.source(rate.source_octets());
        let (slot, after) = coded(random, state, &table, &source);
        let bch = source.len();
        let parts = [(0, (9, 255)), (bch, (9, 255)), (bch + 24, (0, 31)), (SLOT_OCTETS - 1, (0, 63))];
        for (octet, (number, stuff)) in parts {
            let as_sent = vectors::damaged(&slot, octet);
            let anew = vectors::with_parity_anew(&code, &as_sent);
            let lowest = word.lowest_failing(&[8 * octet]).expect("a position that one bit breaks");
            let expected = [(as_sent, (8, 255, lowest), 8), (anew, (number, stuff, NO_POSITION), 0)];
            for (slot, expected, check) in expected {
                let (told, _, moved) = read(random, state, &table, &slot, bch);
                assert_eq!((told, moved), (expected, after));
                assert_eq!(checked(rate, &table, &slot), (check, told.2));
            }
        }
        state = after;
    }
}

#[test]
fn each_part_damaged() {
    let mut random = Random::new(4);
    for rate in Rate::ALL {
        damaged_parts_of(&mut random, rate);
    }
}

/// A slot with six ones for its stuff bits, all other bits before the parity as they are, dispersal taken off, and the parity
/// made anew.
fn with_ones(state: &FrameState, code: &Code, slot: &[u8]) -> Vec<u8> {
    let disperse = |bits: &mut [u8]| dispersal::disperse(WIDTH, state.settings().mask, state.register(), bits);
    let mut bits = bits_of(slot);
    bits.truncate(code.dispersed_bits());
    disperse(&mut bits);
    let stuff = bits.len() - 6;
    bits[stuff..].fill(1);
    disperse(&mut bits);
    bits.extend(ldpc::parity(&code.table, &bits));
    octets_of(&bits)
}

/// Reads a slot with each number of stuff bits, and codes what was read.
fn stuff_numbers_of(random: &mut Random, modulation: Modulation, rate: Rate) {
    let (state, table) = (random.state(modulation, rate), random.table(rate));
    let (code, source) = (code(rate, &table), random.source(rate.source_octets()));
    let (sent, after) = coded(random, state, &table, &source);
    for stuff in 0..64 {
        let slot = stuffed(&code, &sent, stuff);
        let (told, back, moved) = read(random, state, &table, &slot, source.len());
        assert_eq!((told, moved), ((0, stuff, NO_POSITION), after));
        assert!(back == source, "header and data come back, whatever the stuff bits");
        let (again, _) = coded(random, state, &table, &back);
        assert!(again == with_ones(&state, &code, &slot), "ones are coded, and their parity");
        assert_eq!(again == slot, stuff == 63);
    }
}

#[test]
fn every_number_of_stuff_bits() {
    let mut random = Random::new(5);
    for _ in 0..trials(1) {
        for (rate, modulation) in Rate::ALL.into_iter().zip(Modulation::ALL.into_iter().cycle()) {
            stuff_numbers_of(&mut random, modulation, rate);
        }
    }
}

/// The second implementation's frame, and the one made slot by slot, dummies passed; then both are read slot by slot, with any
/// stuff bits and some slots damaged. Gives how many slot calls that made.
fn frame_of(random: &mut Random) -> usize {
    let (plan, settings) = (random.plan(), random.slot_settings());
    let tables = random.tables(&plan);
    let source = random.source(plan.source_octets());
    let mut frame = random.octets(s3frame::FRAME_OCTETS);
    let lent = tables.concat();
    let untouched = frame.clone();
    assert_eq!(reference::frame::code(&groups(&plan), settings.mask, settings.start, &lent, &source, &mut frame), 0);

    let opened = FrameState::open(plan, settings).expect("settings that are allowed");
    let (mut coder, mut reader, mut from, mut calls) = (opened, opened, 0, 0);
    for (part, untouched) in frame.chunks(SLOT_OCTETS).zip(untouched.chunks(SLOT_OCTETS)) {
        let place = plan.place(coder.slot()).expect("a slot of the frame");
        if !place.data {
            assert_eq!(coder.code_slot(&[], &[], &mut []), Err(Refusal::Dummy));
            (coder, reader) = (coder.pass().expect("a dummy"), reader.pass().expect("a dummy"));
            assert!(part == untouched);
            continue;
        }
        let table = &tables[place.group];
        let to = from + place.rate.source_octets();
        let mut slot = vec![0; SLOT_OCTETS];
        coder = coder.code_slot(table, &source[from..to], &mut slot).expect("a slot that is coded");
        assert!(slot == part, "slot {} differs from the whole frame's", coder.slot() - 1);
        let (slot, expected) = random.received(&code(place.rate, table), &slot);
        let mut back = vec![0; to - from];
        let read = reader.read_slot(table, &slot, &mut back);
        assert_eq!(told(read.answer), expected);
        assert!(expected.0 != 0 || back == source[from..to]);
        (reader, from, calls) = (read.state, to, calls + 2);
        assert_eq!(reader, coder);
    }
    assert_eq!((coder.slot(), coder.pass()), (121, Err(Refusal::Full)));
    calls
}

#[test]
fn frames_slot_by_slot() {
    let mut random = Random::new(2);
    let calls: usize = (0..trials(3)).map(|_| frame_of(&mut random)).sum();
    println!("counted {calls} slot calls");
}

/// Slot calls refused for each reason that is tested before the slot itself; the state stays, and nothing is written.
#[test]
fn a_refused_state_stays() {
    let mut random = Random::new(3);
    let (rate, sound) = (Rate::R7_9, random.state(Modulation::Apsk16, Rate::R7_9));
    let (plan, settings, slot, register) = (sound.plan(), sound.settings(), sound.slot(), sound.register());
    let (table, source) = (random.table(rate), random.octets(rate.source_octets()));
    let state = |slot, register| FrameState::at(plan, settings, slot, register);
    let cases = [
        (state(0, 0), &table[..], &source[..], Refusal::Plan),
        (state(121, 0), &table[..], &source[..], Refusal::Register),
        (state(121, register), &table[..], &source[..], Refusal::Full),
        (state(slot, register), &table[1..], &source[1..], Refusal::Length),
        (state(slot, register), &table[1..], &source[..], Refusal::Table),
    ];
    for (state, table, source, refusal) in cases {
        let found = random.octets(SLOT_OCTETS);
        let (mut coded, mut back) = (found.clone(), source.to_vec());
        assert_eq!(state.code_slot(table, source, &mut coded), Err(refusal));
        let read = state.read_slot(table, &found, &mut back);
        assert_eq!((told(read.answer), read.state), ((refusal as u8, 255, NO_POSITION), state));
        assert!(coded == found && back == source);
    }
    assert_eq!(state(slot, register).pass(), Err(Refusal::Dummy));
    let wide = SlotSettings { mask: settings.mask, start: 1 << 25 };
    assert_eq!(FrameState::open(plan, wide), Err(Refusal::Register));
}
