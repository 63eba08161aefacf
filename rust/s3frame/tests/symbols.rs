//! Labels both ways beside the second implementation.
mod common;
use common::{number, trials, Random};
use reference::symbols;
use s3frame::{labels, slot_of_labels, tmcc_labels, tmcc_of_labels, Modulation, Rate};
use s3frame::{BLOCK_LABELS, BLOCK_OCTETS, SLOT_OCTETS};

/// Makes labels of octets both ways, compares, and goes back.
fn there_and_back(random: &mut Random, modulation: Modulation, rate: Rate) {
    let slot = random.source(SLOT_OCTETS);
    let found = random.octets(modulation.labels());
    let [mut ours, mut theirs] = [found.clone(), found];
    assert_eq!(symbols::labels_of_slot(modulation as usize, rate as usize, &slot, &mut theirs), 0);
    assert_eq!(labels(modulation, rate, &slot, &mut ours), Ok(()));
    assert!(ours == theirs, "the labels differ");
    let mut back = random.octets(SLOT_OCTETS);
    assert_eq!(slot_of_labels(modulation, rate, &ours, &mut back), Ok(()));
    assert!(back == slot, "the slot is not the one that the labels came from");
}

/// Makes a slot of labels both ways and compares, most often with labels that are all allowed.
fn back(random: &mut Random, modulation: Modulation, rate: Rate) -> u32 {
    let limit = 1 << modulation.number();
    let count = modulation.labels();
    let mut labels: Vec<u8> = (0..count).map(|_| random.below(limit) as u8).collect();
    if random.chance(3) {
        let at = random.pick(&[0, count - 1, count / 2]);
        labels[at] = random.pick(&[limit as u8, limit as u8 + 1, 0x80, 0xff]);
    }
    let found = random.octets(SLOT_OCTETS);
    let [mut ours, mut theirs] = [found.clone(), found];
    let expected = symbols::slot_of_labels(modulation as usize, rate as usize, &labels, &mut theirs);
    assert_eq!(number(slot_of_labels(modulation, rate, &labels, &mut ours)), expected.into());
    assert!(ours == theirs, "the slots differ");
    expected.into()
}

#[test]
fn labels_of_every_rate_and_modulation() {
    let mut random = Random::new(31);
    let mut numbers = Vec::new();
    for _ in 0..trials(6) {
        for modulation in Modulation::ALL {
            for rate in Rate::ALL {
                there_and_back(&mut random, modulation, rate);
                numbers.push(back(&mut random, modulation, rate));
            }
        }
    }
    assert!(numbers.contains(&0) && numbers.contains(&12));
    println!("counted {} slots made labels, and as many made of labels", numbers.len());
}

#[test]
fn labels_of_blocks() {
    let mut random = Random::new(32);
    for _ in 0..trials(50) {
        let block = random.source(BLOCK_OCTETS);
        let found = random.octets(BLOCK_LABELS);
        let [mut ours, mut theirs] = [found.clone(), found];
        assert_eq!(symbols::labels_of_block(&block, &mut theirs), 0);
        assert_eq!(tmcc_labels(&block, &mut ours), Ok(()));
        assert!(ours == theirs, "the labels differ");

        if random.chance(2) {
            ours[random.below(BLOCK_LABELS)] = random.pick(&[2, 3, 0x80, 0xff]);
        }
        let found = random.octets(BLOCK_OCTETS);
        let [mut back, mut expected] = [found.clone(), found];
        let answer = symbols::block_of_labels(&ours, &mut expected);
        assert_eq!(number(tmcc_of_labels(&ours, &mut back)), answer.into());
        assert!(back == expected && (answer != 0 || back == block));
    }
}
