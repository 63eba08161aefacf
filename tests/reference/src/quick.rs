//! Coding and reading by straight loops, for the benchmark alone: one octet a bit, BCH an octet at a time by a table of 256
//! remainders, the register bit by bit, positions stepped by q, and areas that are lent and not made anew.
use crate::slot::{Code, BCH_WRONG, PARITY_WRONG, WIDTH};
use crate::{bch, ldpc::GROUP};

type Words = [u64; 3];

/// What a rate's slots need: rows, the table as one list of counts and addresses, the remainder of each octet.
pub struct Loops {
    rows: usize,
    table: Vec<u16>,
    remainders: Vec<Words>,
}

/// The areas that a slot is coded or read in.
pub struct Areas {
    bits: Vec<u8>,
    sums: Vec<u8>,
}

impl Areas {
    pub fn new() -> Areas {
        Areas { bits: vec![0; 44880], sums: vec![0; 44880] }
    }
}

fn word(bits: &[u8]) -> u64 {
    bits.iter().fold(0, |made, &bit| made * 2 + u64::from(bit))
}

fn spread(mut x: u64, bits: &mut [u8]) {
    for bit in bits.iter_mut().rev() {
        *bit = (x % 2) as u8;
        x /= 2;
    }
}

fn expand(octets: &[u8], bits: &mut [u8]) {
    for (octet, eight) in octets.iter().zip(bits.chunks_exact_mut(8)) {
        spread(u64::from(*octet), eight);
    }
}

fn collect(bits: &[u8], octets: &mut [u8]) {
    for (octet, eight) in octets.iter_mut().zip(bits.chunks_exact(8)) {
        *octet = word(eight) as u8;
    }
}

fn disperse(mask: u32, mut register: u32, bits: &mut [u8]) -> u32 {
    for bit in bits {
        *bit = (*bit + (register >> (WIDTH - 1)) as u8) % 2;
        register = ((register << 1) | ((register & mask).count_ones() % 2)) & ((1 << WIDTH) - 1);
    }
    register
}

impl Loops {
    pub fn new(code: &Code) -> Loops {
        let row = |row: &Vec<usize>| std::iter::once(row.len()).chain(row.clone()).collect::<Vec<_>>();
        let remainder = |octet: u8| {
            let mut message = [0; 8];
            spread(u64::from(octet), &mut message);
            let rest = bch::bch_bits(&code.generator, &message);
            [word(&rest[..64]), word(&rest[64..128]), word(&rest[128..])]
        };
        Loops {
            rows: code.table.len(),
            table: code.table.iter().flat_map(row).map(|number| number as u16).collect(),
            remainders: (0..=255).map(remainder).collect(),
        }
    }

    fn covered(&self) -> usize {
        GROUP * self.rows
    }

    fn message(&self) -> usize {
        self.covered() - 198
    }

    fn put_bch(&self, octets: impl Iterator<Item = u64>, bits: &mut [u8]) {
        let mut rest: Words = [0; 3];
        for octet in octets {
            let taken = self.remainders[((rest[0] >> 56) ^ octet) as usize];
            rest = [
                (rest[0] << 8 ^ rest[1] >> 56) ^ taken[0],
                (rest[1] << 8 ^ rest[2] >> 56) ^ taken[1],
                rest[2] << 8 ^ taken[2],
            ];
        }
        for (word, part) in rest.iter().zip(bits.chunks_exact_mut(64)) {
            spread(*word, part);
        }
    }

    /// Adds every bit through its row's addresses, and leaves the sums before they run on.
    fn add_rows(&self, bits: &[u8], sums: &mut [u8]) {
        let q = 120 - self.rows;
        let m = GROUP * q;
        sums[..m].fill(0);
        let mut from = 0;
        for row in bits.chunks_exact(GROUP) {
            let end = from + 1 + usize::from(self.table[from]);
            let mut offset = 0;
            for bit in row {
                for address in &self.table[from + 1..end] {
                    let p = usize::from(*address) + offset;
                    let p = if m <= p { p - m } else { p };
                    sums[p] = (sums[p] + bit) % 2;
                }
                offset += q;
            }
            from = end;
        }
    }

    pub fn code(&self, areas: &mut Areas, mask: u32, register: u32, source: &[u8], coded: &mut [u8]) -> u32 {
        let (message, covered) = (self.message(), self.covered());
        let Areas { bits, sums } = areas;
        expand(source, &mut bits[..message]);
        self.put_bch(source.iter().map(|octet| u64::from(*octet)), &mut bits[message..message + 192]);
        bits[message + 192..covered].fill(1);
        let after = disperse(mask, register, &mut bits[..covered]);
        self.add_rows(&bits[..covered], sums);
        let mut last = 0;
        for (sum, bit) in sums.iter().zip(&mut bits[covered..]) {
            last = (last + sum) % 2;
            *bit = last;
        }
        collect(bits, coded);
        after
    }

    /// Gives the stuff bits of a slot that is read, or the number of the first check that fails, and the register after it.
    pub fn read(
        &self,
        areas: &mut Areas,
        mask: u32,
        register: u32,
        coded: &[u8],
        source: &mut [u8],
    ) -> (Result<u64, u8>, u32) {
        let (message, covered) = (self.message(), self.covered());
        let Areas { bits, sums } = areas;
        expand(coded, bits);
        self.add_rows(&bits[..covered], sums);
        let mut last = 0;
        let right = sums.iter().zip(&bits[covered..]).all(|(sum, bit)| {
            last = (last + sum) % 2;
            last == *bit
        });
        let after = disperse(mask, register, &mut bits[..covered]);
        let mut expected = [0; 192];
        self.put_bch(bits[..message].chunks_exact(8).map(word), &mut expected);
        let read = if !right {
            Err(PARITY_WRONG)
        } else if bits[message..message + 192] != expected {
            Err(BCH_WRONG)
        } else {
            collect(&bits[..message], source);
            Ok(word(&bits[message + 192..covered]))
        };
        (read, after)
    }
}
