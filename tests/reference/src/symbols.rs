//! Symbols as label numbers, document 01: the bit interleaver is an array that is written down its columns and read by
//! rows.
use crate::slot::{bits_of, octets_of, OCTETS, LABEL_WRONG, LENGTH_WRONG, PLAN_WRONG};
use crate::{ldpc, tmcc};

const BITS: usize = 8 * OCTETS;

fn known(modulation: usize, rate: usize) -> bool {
    (1..=5).contains(&modulation) && (1..=ldpc::ROWS.len()).contains(&rate)
}

/// Whether the rows are read from their last column to their first.
fn leftward(modulation: usize, rate: usize) -> bool {
    rate <= 2 || (modulation == 5 && rate == 7)
}

/// For each label its bits' numbers in the slot, the highest bit's first.
fn order(modulation: usize, rate: usize) -> Vec<Vec<usize>> {
    let rows = BITS / modulation;
    let label = |row: usize| match modulation {
        1 | 2 => (0..modulation).map(|place| row * modulation + place).collect(),
        _ if leftward(modulation, rate) => (0..modulation).rev().map(|column| column * rows + row).collect(),
        _ => (0..modulation).map(|column| column * rows + row).collect(),
    };
    (0..rows).map(label).collect()
}

/// The labels of a slot.
pub fn labels_of_slot(modulation: usize, rate: usize, coded: &[u8], labels: &mut [u8]) -> u8 {
    if !known(modulation, rate) {
        return PLAN_WRONG;
    }
    if coded.len() != OCTETS || labels.len() != BITS / modulation {
        return LENGTH_WRONG;
    }
    let bits = bits_of(coded);
    for (label, numbers) in labels.iter_mut().zip(order(modulation, rate)) {
        *label = numbers.iter().fold(0, |label, &number| label << 1 | bits[number]);
    }
    0
}

/// The slot of labels.
pub fn slot_of_labels(modulation: usize, rate: usize, labels: &[u8], coded: &mut [u8]) -> u8 {
    if !known(modulation, rate) {
        return PLAN_WRONG;
    }
    if coded.len() != OCTETS || labels.len() != BITS / modulation {
        return LENGTH_WRONG;
    }
    if labels.iter().any(|label| label >> modulation != 0) {
        return LABEL_WRONG;
    }
    let mut bits = vec![0; BITS];
    for (label, numbers) in labels.iter().zip(order(modulation, rate)) {
        for (weight, &number) in numbers.iter().rev().enumerate() {
            bits[number] = label >> weight & 1;
        }
    }
    coded.copy_from_slice(&octets_of(&bits));
    0
}

/// The BPSK labels of a TMCC block, one a bit.
pub fn labels_of_block(block: &[u8], labels: &mut [u8]) -> u8 {
    if block.len() != tmcc::OCTETS || labels.len() != 8 * tmcc::OCTETS {
        return LENGTH_WRONG;
    }
    labels.copy_from_slice(&bits_of(block));
    0
}

/// The TMCC block of BPSK labels.
pub fn block_of_labels(labels: &[u8], block: &mut [u8]) -> u8 {
    if block.len() != tmcc::OCTETS || labels.len() != 8 * tmcc::OCTETS {
        return LENGTH_WRONG;
    }
    if labels.iter().any(|&label| label > 1) {
        return LABEL_WRONG;
    }
    block.copy_from_slice(&octets_of(labels));
    0
}

#[cfg(test)]
mod tests {
    use super::*;
    use crate::samples::octets;

    #[test]
    fn the_labels_of_document_01() {
        assert_eq!(order(3, 5)[0], [0, 14960, 29920]);
        assert_eq!(order(3, 2)[0], [29920, 14960, 0]);
        assert_eq!(order(5, 5)[8975], [8975, 17951, 26927, 35903, 44879]);
        assert_eq!(order(5, 7)[8975], [44879, 35903, 26927, 17951, 8975]);
        assert_eq!(order(4, 7)[1], [1, 11221, 22441, 33661]);
        assert_eq!([&order(2, 1)[1], &order(2, 5)[1]], [&[2, 3], &[2, 3]]);
    }

    #[test]
    fn there_and_back() {
        for (modulation, rate) in [(1, 1), (2, 2), (3, 1), (4, 7), (5, 7), (5, 11)] {
            let (slot, mut labels, mut back) = (octets(1, OCTETS), vec![0; BITS / modulation], vec![0; OCTETS]);
            assert_eq!(labels_of_slot(modulation, rate, &slot, &mut labels), 0);
            assert_eq!(slot_of_labels(modulation, rate, &labels, &mut back), 0);
            assert_eq!(back, slot);
        }
    }

    #[test]
    fn a_label_8_is_none_of_8psk() {
        let (mut labels, mut slot) = (vec![7; BITS / 3], vec![0; OCTETS]);
        assert_eq!(slot_of_labels(3, 5, &labels, &mut slot), 0);
        labels[9] = 8;
        assert_eq!(slot_of_labels(3, 5, &labels, &mut slot), LABEL_WRONG);
    }
}
