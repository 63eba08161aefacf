//! Labels of slots and of TMCC blocks.
use crate::calls;
use crate::common::faults::{self, choices};
use crate::common::{trials, Random};
use crate::kept;
use reference::{slot, symbols, tmcc};

/// Puts a label that a symbol of so many bits cannot have at one place.
fn break_label(random: &mut Random, modulation: u32, labels: &mut [u8]) {
    let place = random.pick(&[0, labels.len() - 1, labels.len() / 2]);
    labels[place] |= random.pick(&[1 << modulation, 0x80]);
}

#[test]
fn labels() {
    let mut random = Random::new(60);
    for faults in choices(&[1, 4, 12], trials(40)) {
        let (mut modulation, mut rate) = (random.modulation().number(), random.rate().number());
        let mut coded = random.octets(slot::OCTETS);
        let count = 44_880 / modulation as usize;
        let mut labels: Vec<u8> = (0..count).map(|_| random.below(1 << modulation) as u8).collect();
        if faults.has(12) {
            break_label(&mut random, modulation, &mut labels);
        }
        if faults.has(4) {
            faults::break_one_length(&mut random, &mut [&mut coded, &mut labels]);
        }
        if faults.has(1) {
            match random.below(2) {
                0 => faults::unknown(&mut random, &mut modulation, 5),
                _ => faults::unknown(&mut random, &mut rate, 11),
            }
        }
        let numbers = (modulation as usize, rate as usize);
        kept(
            faults.first(),
            &coded,
            |coded| calls::slot_of_labels(modulation, rate, &labels, coded),
            |coded| symbols::slot_of_labels(numbers.0, numbers.1, &labels, coded),
        );
        // Labels that are written may hold anything before.
        kept(
            if faults.first() == 12 { 0 } else { faults.first() },
            &labels,
            |labels| calls::labels(modulation, rate, &coded, labels),
            |labels| symbols::labels_of_slot(numbers.0, numbers.1, &coded, labels),
        );
    }
}

#[test]
fn block_labels() {
    let mut random = Random::new(61);
    for faults in choices(&[4, 12], trials(40)) {
        let mut block = random.octets(tmcc::OCTETS);
        let mut labels: Vec<u8> = (0..8 * tmcc::OCTETS).map(|_| random.below(2) as u8).collect();
        if faults.has(12) {
            break_label(&mut random, 1, &mut labels);
        }
        if faults.has(4) {
            faults::break_one_length(&mut random, &mut [&mut block, &mut labels]);
        }
        kept(
            faults.first(),
            &block,
            |block| calls::tmcc_of_labels(&labels, block),
            |block| symbols::block_of_labels(&labels, block),
        );
        kept(
            if faults.has(4) { 4 } else { 0 },
            &labels,
            |labels| calls::tmcc_labels(&block, labels),
            |labels| symbols::labels_of_block(&block, labels),
        );
    }
}
