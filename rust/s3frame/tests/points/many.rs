//! Points of many labels, as a modulator makes them a slot at a time.
use crate::common::points::Lists;
use crate::common::{trials, Counts, Random};
use crate::{point, points_of};
use s3frame::{labels, Modulation, Rate, Refusal, SLOT_OCTETS};

/// A symbol with a number of 32 bits that is turned as the one of this number, however large.
fn alike(number: u64) -> u32 {
    match u32::try_from(number) {
        Ok(symbol) => symbol,
        Err(_) => 2 + (number % 2) as u32,
    }
}

/// Makes points of labels and compares each with the lone call's under its own symbol number.
fn each_is_the_lone_one(random: &mut Random, lists: &Lists, symbol: u32, labels: &[u8]) {
    let [i_out, q_out] = points_of(random, lists, symbol, labels).expect("points");
    let points = i_out.bits().into_iter().zip(q_out.bits());
    for ((number, &label), (i, q)) in (u64::from(symbol)..).zip(labels).zip(points) {
        assert_eq!(point(lists, label, alike(number)), Ok([i, q]), "label {label} at symbol {number}");
    }
}

/// The labels of a slot that is coded with a source of chance.
fn slot_labels(random: &mut Random, modulation: Modulation, rate: Rate) -> Vec<u8> {
    let (state, table) = (random.state(modulation, rate), random.table(rate));
    let (source, mut slot) = (random.source(rate.source_octets()), vec![0; SLOT_OCTETS]);
    state.code_slot(&table, &source, &mut slot).expect("a slot that is coded");
    let mut found = vec![0; modulation.labels()];
    labels(modulation, rate, &slot, &mut found).expect("the labels of a slot");
    found
}

#[test]
fn points_of_a_coded_slot() {
    let mut random = Random::new(133);
    for (modulation, rate) in (0..trials(1)).flat_map(|_| Modulation::ALL).zip(Rate::ALL.into_iter().cycle()) {
        let labels = slot_labels(&mut random, modulation, rate);
        let lists = Lists::new(&mut random, modulation);
        let first = 1 + random.below(1 << 20) as u32;
        each_is_the_lone_one(&mut random, &lists, first, &labels);
        each_is_the_lone_one(&mut random, &lists, first + 1, &labels);
    }
}

#[test]
fn points_of_labels_from_any_symbol_on() {
    let mut random = Random::new(134);
    let mut kinds = Counts::default();
    for modulation in (0..trials(500)).flat_map(|_| Modulation::ALL) {
        let (lists, count) = (Lists::new(&mut random, modulation), random.below(100));
        let (labels, symbol) = (random.labels(modulation, count), random.symbol(modulation));
        each_is_the_lone_one(&mut random, &lists, symbol, &labels);
        kinds.add_if(count == 0, "no label");
        kinds.add_if(count == 1, "one label");
        kinds.add_if(modulation == Modulation::Bpsk && symbol % 2 == 0, "BPSK from an even symbol on");
        kinds.add_if(modulation == Modulation::Bpsk && symbol % 2 == 1, "BPSK from an odd symbol on");
    }
    kinds.are(&["no label", "one label", "BPSK from an even symbol on", "BPSK from an odd symbol on"]);
}

#[test]
fn symbol_numbers_go_on_past_32_bits() {
    let mut random = Random::new(135);
    for back in 0..40 {
        for modulation in Modulation::ALL {
            let (lists, labels) = (Lists::new(&mut random, modulation), random.labels(modulation, 50));
            each_is_the_lone_one(&mut random, &lists, u32::MAX - back, &labels);
        }
    }
}

/// Slot behind slot gives the points that all labels give at once.
#[test]
fn points_in_two_calls_are_points_at_once() {
    let mut random = Random::new(136);
    for modulation in (0..trials(100)).flat_map(|_| Modulation::ALL) {
        let (lists, labels) = (Lists::new(&mut random, modulation), random.labels(modulation, 60));
        let (symbol, before) = (random.symbol(modulation).min(u32::MAX - 60), random.below(61));
        let all = points_of(&mut random, &lists, symbol, &labels).expect("points");
        let first = points_of(&mut random, &lists, symbol, &labels[..before]).expect("points");
        let behind = points_of(&mut random, &lists, symbol + before as u32, &labels[before..]).expect("points");
        for (all, (first, behind)) in all.iter().zip(first.iter().zip(&behind)) {
            assert_eq!(all.bits(), [first.bits(), behind.bits()].concat());
        }
    }
}

/// One wrong label, and one label whose entries are not finite, each at the first, the last or another place.
#[test]
fn every_label_is_tested_for_12_before_any_for_18() {
    let mut random = Random::new(137);
    let mut refusals = Counts::default();
    for modulation in (0..trials(300)).flat_map(|_| Modulation::ALL) {
        let (mut lists, count) = (Lists::new(&mut random, modulation), 3 + random.below(30));
        let spoilt = random.below(modulation.points()) as u8;
        let mut labels = random.labels(modulation, count);
        labels.iter_mut().filter(|label| **label == spoilt).for_each(|label| *label = (spoilt + 1) % 2);
        lists.spoil(&mut random, spoilt);
        let symbol = random.symbol(modulation);
        assert!(points_of(&mut random, &lists, symbol, &labels).is_ok());

        let (with_spoilt, with_wrong) = (random.chance(2), random.chance(2));
        if with_spoilt {
            labels[random.pick(&[0, count - 1, count / 2])] = spoilt;
        }
        if with_wrong {
            let wrong = spoilt | random.pick(&[modulation.points() as u8, 0x80]);
            labels.insert(random.pick(&[0, count, count / 2]), wrong);
        }
        let expected = match (with_wrong, with_spoilt) {
            (true, _) => Some(Refusal::Label),
            (false, true) => Some(Refusal::Coordinate),
            _ => None,
        };
        let answer = points_of(&mut random, &lists, symbol, &labels).err();
        assert_eq!(answer, expected);
        refusals.add(answer.map_or("accepted", Refusal::word));
        refusals.add_if(with_wrong && with_spoilt, "both");
    }
    refusals.are(&["accepted", "label", "coordinate", "both"]);
}

#[test]
fn without_labels_no_entry_is_used() {
    let mut random = Random::new(138);
    for modulation in Modulation::ALL {
        let mut lists = Lists::new(&mut random, modulation);
        lists.labels().for_each(|label| lists.spoil(&mut random, label));
        for symbol in [1, 2, u32::MAX] {
            assert!(points_of(&mut random, &lists, symbol, &[]).is_ok());
            assert_eq!(points_of(&mut random, &lists, symbol, &[0]), Err(Refusal::Coordinate));
        }
        let without_symbol = points_of(&mut random, &lists, 0, &[]).map(drop);
        let expected = if modulation == Modulation::Bpsk { Err(Refusal::Length) } else { Ok(()) };
        assert_eq!(without_symbol, expected);
        lists.coordinates[1].0.push(0.0);
        assert_eq!(points_of(&mut random, &lists, 1, &[]), Err(Refusal::Length));
    }
}
