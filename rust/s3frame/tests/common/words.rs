//! Where parity breaks, worked from the bits of a sound slot or TMCC block that are turned round, whatever these hold.
use super::Random;
use reference::ldpc::{self, GROUP};
use reference::slot::{bits_of, octets_of, Code};
use reference::tmcc;

/// What the calls say for a failing position where there is none.
pub const NO_POSITION: u16 = 65_535;

/// A slot or TMCC block as its parity sees it: the bits before the parity, behind zeros that aren't sent.
#[derive(Clone, Copy)]
pub struct Word<'a> {
    code: &'a Code,
    zeros: usize,
    pub before: usize,
}

impl Word<'_> {
    pub fn slot(code: &Code) -> Word<'_> {
        Word { code, zeros: 0, before: code.dispersed_bits() }
    }

    /// That of a block, whose code is rate 3's.
    pub fn block(code: &Code) -> Word<'_> {
        Word { code, zeros: 1870, before: tmcc::DISPERSED_BITS }
    }

    pub fn parity_bits(&self) -> usize {
        GROUP * (120 - self.code.table.len())
    }

    /// The positions whose sums a bit is part of. A bit before the parity is part of those that it reaches; a parity bit of its
    /// own sum and, since each parity bit adds the one before it, of the next.
    fn sums(&self, bit: usize) -> Vec<usize> {
        match bit.checked_sub(self.before) {
            Some(position) => (position..self.parity_bits()).take(2).collect(),
            None => {
                let (rows, bit) = (self.code.table.len(), self.zeros + bit);
                let reached = |&address| ldpc::position(rows, address, bit % GROUP);
                self.code.table[bit / GROUP].iter().map(reached).collect()
            }
        }
    }

    /// The lowest failing position of a sound word after these bits were turned round: the lowest that an odd number of them is
    /// part of.
    pub fn lowest_failing(&self, turned: &[usize]) -> Option<u16> {
        let mut odd = vec![false; self.parity_bits()];
        turned.iter().flat_map(|&bit| self.sums(bit)).for_each(|position| odd[position] = !odd[position]);
        odd.iter().position(|&odd| odd).map(|position| position as u16)
    }
}

/// Octets with these bits turned round.
pub fn turned(octets: &[u8], bits: &[usize]) -> Vec<u8> {
    let mut all = bits_of(octets);
    bits.iter().for_each(|&bit| all[bit] ^= 1);
    octets_of(&all)
}

impl Random {
    /// A bit of a word: at an end of it or of its parity, in its parity, or anywhere.
    fn bit_of(&mut self, word: &Word<'_>) -> usize {
        let bits = word.before + word.parity_bits();
        match self.below(8) {
            0 => self.pick(&[0, word.before - 1]),
            1 => self.pick(&[word.before, bits - 1]),
            2 | 3 => word.before + self.below(word.parity_bits()),
            _ => self.below(bits),
        }
    }

    /// A sound word with bits turned round that break its parity, mostly one; and the lowest position that fails then.
    pub fn with_broken_parity(&mut self, word: &Word<'_>, octets: &[u8]) -> (Vec<u8>, u16) {
        loop {
            let count = self.pick(&[1, 1, 1, 1, 2, 3, 30]);
            let bits: Vec<usize> = (0..count).map(|_| self.bit_of(word)).collect();
            // Bits may undo each other: then it is another sound word.
            if let Some(position) = word.lowest_failing(&bits) {
                return (turned(octets, &bits), position);
            }
        }
    }
}
