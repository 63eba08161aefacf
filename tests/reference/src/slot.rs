//! A slot of document 002, 2.2.1.2: header, data, BCH bits, stuff bits, and the parity of all these as dispersed.
use crate::{bch, dispersal, ldpc, tables::Table};

pub const OCTETS: usize = 5610;
pub const STUFF: [u8; 6] = [1; 6];
pub const WIDTH: u32 = 25;

/// What stands for the stuff bits of a slot that is refused.
pub const NO_STUFF: u8 = 255;

/// What stands for the failing position where parity is not what is refused.
pub const NO_POSITION: u16 = 65535;

/// Refusals of documents 01 and 02.
pub const PLAN_WRONG: u8 = 1;
pub const DUMMY: u8 = 2;
pub const FULL: u8 = 3;
pub const LENGTH_WRONG: u8 = 4;
pub const TABLE_WRONG: u8 = 5;
pub const REGISTER_WRONG: u8 = 6;
pub const SYNC_WRONG: u8 = 7;
pub const PARITY_WRONG: u8 = 8;
pub const BCH_WRONG: u8 = 9;
pub const TAIL_WRONG: u8 = 11;
pub const LABEL_WRONG: u8 = 12;
pub const VALUE_WRONG: u8 = 13;
pub const ORDER_WRONG: u8 = 14;
pub const TOTAL_WRONG: u8 = 15;
pub const PACKET_WRONG: u8 = 16;
pub const BLOCK_WRONG: u8 = 17;
pub const COORDINATE_WRONG: u8 = 18;

/// What a rate fixes: its table and the generator of the outer code.
pub struct Code {
    pub table: Table,
    pub generator: Vec<u8>,
}

impl Code {
    pub fn new(table: Table) -> Code {
        Code { table, generator: bch::generator() }
    }

    /// How many bits stand before the parity.
    pub fn dispersed_bits(&self) -> usize {
        ldpc::GROUP * self.table.len()
    }

    /// How many bits header and data have.
    pub fn message_bits(&self) -> usize {
        message_bits(self.table.len())
    }
}

/// How many bits header and data have at a rate of so many rows.
pub fn message_bits(rows: usize) -> usize {
    ldpc::GROUP * rows - bch::BITS - STUFF.len()
}

pub fn bits_of(octets: &[u8]) -> Vec<u8> {
    octets.iter().flat_map(|octet| (0..8).rev().map(move |k| octet >> k & 1)).collect()
}

/// Up to eight bits as a number, the first bit the highest.
fn number_of(bits: &[u8]) -> u8 {
    bits.iter().fold(0, |number, bit| number << 1 | bit)
}

pub fn octets_of(bits: &[u8]) -> Vec<u8> {
    bits.chunks(8).map(number_of).collect()
}

/// The slot of a header and its data, and the register after it.
pub fn code_slot(code: &Code, mask: u32, register: u32, source: &[u8]) -> (Vec<u8>, u32) {
    let mut bits = bits_of(source);
    assert_eq!(bits.len(), code.message_bits());
    bits.extend(bch::bch_bits(&code.generator, &bits));
    bits.extend(STUFF);
    let after = dispersal::disperse(WIDTH, mask, register, &mut bits);
    bits.extend(ldpc::parity(&code.table, &bits));
    (octets_of(&bits), after)
}

/// What is read of a slot: header and data, and the six stuff bits, which may be any, as a number.
#[derive(Debug, PartialEq)]
pub struct Read {
    pub source: Vec<u8>,
    pub stuff: u8,
}

/// Why something is refused: a number, and with that of parity the lowest failing position, else 65535.
#[derive(Clone, Copy, Debug, PartialEq)]
pub struct Refused {
    pub number: u8,
    pub position: u16,
}

impl Refused {
    /// The number and the position of an answer; 0 is the number of one that is accepted.
    pub fn told<T>(answer: &Result<T, Refused>) -> (u8, u16) {
        answer.as_ref().err().map_or((0, NO_POSITION), |refused| (refused.number, refused.position))
    }
}

/// A refusal other than that of parity.
impl From<u8> for Refused {
    fn from(number: u8) -> Refused {
        Refused { number, position: NO_POSITION }
    }
}

/// Parity bits that were received beside those that are made anew.
pub fn compare_parity(made: &[u8], received: &[u8]) -> Result<(), Refused> {
    let refused = |position| Refused { number: PARITY_WRONG, position };
    ldpc::lowest_failing(made, received).map_or(Ok(()), |position| Err(refused(position)))
}

/// The parity check of a slot, whatever its dispersal.
pub fn check_parity(code: &Code, coded: &[u8]) -> Result<(), Refused> {
    let bits = bits_of(coded);
    let (before, received) = bits.split_at(code.dispersed_bits());
    compare_parity(&ldpc::parity(&code.table, before), received)
}

/// What is read of a slot, or the first check that fails, and the register after it in each case.
pub fn read_slot(code: &Code, mask: u32, register: u32, coded: &[u8]) -> (Result<Read, Refused>, u32) {
    let mut bits = bits_of(coded);
    let parity = bits.split_off(code.dispersed_bits());
    let checked = compare_parity(&ldpc::parity(&code.table, &bits), &parity);
    let after = dispersal::disperse(WIDTH, mask, register, &mut bits);
    let (message, checks) = bits.split_at(code.message_bits());
    let (received, stuff) = checks.split_at(bch::BITS);
    let read = checked.and_then(|()| {
        if bch::bch_bits(&code.generator, message) != received {
            return Err(BCH_WRONG.into());
        }
        Ok(Read { source: octets_of(message), stuff: number_of(stuff) })
    });
    (read, after)
}

#[cfg(test)]
mod tests {
    use super::*;
    use crate::tables::tables;
    use crate::vectors::with_parity_anew;

    #[test]
    fn the_lengths_of_table_2_2_1_1() {
        let data = [14960, 17952, 22440, 26928, 29920, 32912, 34408, 35904, 37400, 38896, 40392];
        let parity = [29546, 26554, 22066, 17578, 14586, 11594, 10098, 8602, 7106, 5610, 4114];
        for (rate, table) in tables().into_iter().enumerate() {
            let code = Code::new(table);
            assert_eq!(code.message_bits() - 176, data[rate]);
            assert_eq!(8 * OCTETS - code.dispersed_bits(), parity[rate]);
        }
    }

    #[test]
    fn the_register_after_a_slot_of_rate_1() {
        let code = Code::new(tables().swap_remove(0));
        let (_, after) = code_slot(&code, 1 << 24, 1, &vec![0; code.message_bits() / 8]);
        assert_eq!(after, 512);
    }

    #[test]
    fn reading_gives_back_what_was_coded() {
        for table in tables() {
            let code = Code::new(table);
            let source: Vec<u8> = (0..code.message_bits() / 8).map(|k| (k * k % 251) as u8).collect();
            let (coded, after) = code_slot(&code, 1 << 24 | 1, 1, &source);
            assert_eq!(coded.len(), OCTETS);
            assert_eq!(read_slot(&code, 1 << 24 | 1, 1, &coded), (Ok(Read { source, stuff: 63 }), after));
        }
    }

    /// What reading a slot of zeros and these stuff bits gives, and whether coding that gives the slot.
    fn read_and_coded(stuff: [u8; 6]) -> (Result<Read, Refused>, bool) {
        let code = Code::new(tables().swap_remove(0));
        let (mask, register) = (1 << 24 | 1, 1);
        let mut bits = [&vec![0; code.message_bits() + bch::BITS][..], &stuff].concat();
        dispersal::disperse(WIDTH, mask, register, &mut bits);
        bits.extend(ldpc::parity(&code.table, &bits));
        let slot = octets_of(&bits);
        let (coded, after) = code_slot(&code, mask, register, &vec![0; code.message_bits() / 8]);
        let (read, moved) = read_slot(&code, mask, register, &slot);
        assert_eq!(moved, after);
        (read, coded == slot)
    }

    #[test]
    fn any_stuff_bits_are_read_and_ones_alone_are_coded() {
        let read = |stuff| Ok(Read { source: vec![0; 1892], stuff });
        assert_eq!(read_and_coded([0; 6]), (read(0), false));
        assert_eq!(read_and_coded([1, 0, 0, 0, 0, 0]), (read(32), false));
        assert_eq!(read_and_coded([0, 0, 0, 0, 0, 1]), (read(1), false));
        assert_eq!(read_and_coded([1; 6]), (read(63), true));
    }

    /// What reading a slot of a rate gives where these of its bits are the other ones; the lone parity check must agree.
    fn read_wrong(rate: usize, wrong: &[usize], parity_anew: bool) -> Result<Read, Refused> {
        let code = Code::new(tables().swap_remove(rate - 1));
        let (coded, after) = code_slot(&code, 1 << 24 | 1, 1, &vec![0x5a; code.message_bits() / 8]);
        let mut bits = bits_of(&coded);
        wrong.iter().for_each(|&bit| bits[bit] ^= 1);
        let mut slot = octets_of(&bits);
        if parity_anew {
            slot = with_parity_anew(&code, &slot);
        }
        let (read, moved) = read_slot(&code, 1 << 24 | 1, 1, &slot);
        assert_eq!(moved, after);
        let of_parity = read.as_ref().err().copied().filter(|refused| refused.number == 8);
        assert_eq!(check_parity(&code, &slot).err(), of_parity);
        read
    }

    #[test]
    fn a_wrong_parity_bit_is_counted_from_the_first() {
        for (rate, parity) in [(1, 29546), (3, 22066), (11, 4114)] {
            for position in [0, 1, parity / 2, parity - 1] {
                let read = read_wrong(rate, &[8 * OCTETS - parity + position], false);
                assert_eq!(read, Err(Refused { number: 8, position: position as u16 }));
            }
        }
    }

    /// At rate 5 bit 0 reaches 4958 first, and so turns every parity bit from there on to the next that it reaches.
    #[test]
    fn the_lowest_of_several_positions() {
        let (parity, at) = (ldpc::GROUP * 81, |position| Err(Refused { number: 8, position }));
        assert_eq!(read_wrong(5, &[8 * OCTETS - 1, parity + 900, parity + 17], false), at(17));
        assert_eq!(read_wrong(5, &[0], false), at(4958));
        assert_eq!(read_wrong(5, &[parity + 4957, 0], false), at(4957));
        assert_eq!(read_wrong(5, &[parity + 4958, 0], false), at(4959));
    }

    #[test]
    fn other_answers_have_no_position() {
        let bch_wrong = Err(Refused { number: 9, position: 65535 });
        let code = Code::new(tables().swap_remove(4));
        for wrong in [0, code.message_bits(), code.dispersed_bits() - 7] {
            assert_eq!(read_wrong(5, &[wrong], true), bch_wrong);
        }
        let read = read_wrong(5, &[code.dispersed_bits() - 1], true);
        assert_eq!((Refused::told(&read), read.map(|read| read.stuff)), ((0, 65535), Ok(62)));
    }
}
