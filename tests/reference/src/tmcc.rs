//! The TMCC block of document 002, 2.2.1.5: TMCC bits, their BCH bits, and the rate 3 parity of both as they lie, once
//! dispersed, between zeros that are not sent.
use crate::slot::{bits_of, compare_parity, octets_of, Code, Refused};
use crate::slot::{BCH_WRONG, LENGTH_WRONG, REGISTER_WRONG, TABLE_WRONG, TAIL_WRONG};
use crate::{bch, dispersal, ldpc, tables};

pub const RATE: usize = 3;
pub const OCTETS: usize = 3960;
pub const SOURCE_OCTETS: usize = 1178;
/// TMCC and BCH bits, which alone are dispersed.
pub const DISPERSED_BITS: usize = BITS + bch::BITS;
const BITS: usize = 9422;
pub const WIDTH: u32 = 15;
const ZEROS_BEFORE: usize = 1870;
const ZEROS_AFTER: usize = 11330;

/// The parity bits of the dispersed bits, with the zeros put in before and after them.
pub fn parity(table: &[Vec<usize>], dispersed: &[u8]) -> Vec<u8> {
    ldpc::parity(table, &[&[0; ZEROS_BEFORE], dispersed, &[0; ZEROS_AFTER]].concat())
}

/// The bits that are sent for TMCC bits, and the register after them.
fn code_bits(code: &Code, mask: u32, start: u32, tmcc: &[u8]) -> (Vec<u8>, u32) {
    let mut bits = tmcc.to_vec();
    bits.extend(bch::bch_bits(&code.generator, tmcc));
    let after = dispersal::disperse(WIDTH, mask, start, &mut bits);
    bits.extend(parity(&code.table, &bits));
    (bits, after)
}

/// The code of rate 3, or the first refusal that coding and reading share.
fn accept(mask: u32, start: u32, table: &[u16], lengths_hold: bool) -> Result<Code, u8> {
    if !dispersal::allowed(WIDTH, mask, start) {
        Err(REGISTER_WRONG)
    } else if !lengths_hold {
        Err(LENGTH_WRONG)
    } else {
        let tables = tables::taken(&[ldpc::ROWS[RATE - 1]], table).ok_or(TABLE_WRONG)?;
        Ok(tables.into_iter().map(Code::new).next().expect("one table"))
    }
}

/// Codes the block of the source's 9,422 bits, after which the source has two zeros.
pub fn code(mask: u32, start: u32, table: &[u16], source: &[u8], block: &mut [u8]) -> u8 {
    let code = match accept(mask, start, table, source.len() == SOURCE_OCTETS && block.len() == OCTETS) {
        Ok(code) => code,
        Err(number) => return number,
    };
    let bits = bits_of(source);
    let (tmcc, tail) = bits.split_at(BITS);
    if tail != [0, 0] {
        return TAIL_WRONG;
    }
    let (sent, _) = code_bits(&code, mask, start, tmcc);
    block.copy_from_slice(&octets_of(&sent));
    0
}

/// The TMCC bits of a block whose checks hold.
fn read_bits(code: &Code, mask: u32, start: u32, block: &[u8]) -> Result<Vec<u8>, Refused> {
    let mut bits = bits_of(block);
    let received = bits.split_off(DISPERSED_BITS);
    compare_parity(&parity(&code.table, &bits), &received)?;
    dispersal::disperse(WIDTH, mask, start, &mut bits);
    let checks = bits.split_off(BITS);
    if bch::bch_bits(&code.generator, &bits) != checks {
        return Err(BCH_WRONG.into());
    }
    Ok(bits)
}

/// Reads a block whose checks hold into the source, its last two bits zeros. A failing position is one among the 22,066 parity
/// bits.
pub fn read(mask: u32, start: u32, table: &[u16], block: &[u8], source: &mut [u8]) -> Result<(), Refused> {
    let code = accept(mask, start, table, source.len() == SOURCE_OCTETS && block.len() == OCTETS)?;
    let tmcc = read_bits(&code, mask, start, block)?;
    source.copy_from_slice(&octets_of(&[&tmcc, &[0, 0][..]].concat()));
    Ok(())
}

#[cfg(test)]
mod tests {
    use super::*;
    use crate::samples::octets;
    use crate::tables::{printed, tables};

    const MASK: u32 = 1 << 14 | 1;
    const START: u32 = 12345;

    fn sample() -> Vec<u8> {
        let mut source = octets(1, SOURCE_OCTETS);
        source[SOURCE_OCTETS - 1] &= 0xfc;
        source
    }

    fn coded() -> Vec<u8> {
        let mut block = vec![0; OCTETS];
        assert_eq!(code(MASK, START, &printed([RATE]), &sample(), &mut block), 0);
        block
    }

    #[test]
    fn the_lengths_of_2_2_1_5() {
        assert_eq!(ZEROS_BEFORE + DISPERSED_BITS + ZEROS_AFTER, ldpc::GROUP * 61);
        assert_eq!(DISPERSED_BITS + 22066, 8 * OCTETS);
        assert_eq!(BITS + 2, 8 * SOURCE_OCTETS);
    }

    #[test]
    fn the_register_after_a_block() {
        let code = Code::new(tables().swap_remove(RATE - 1));
        let (sent, after) = code_bits(&code, 1 << 14, 1, &[0; BITS]);
        assert_eq!(after, 16384);
        let every_15th = |k: usize| sent[k] == u8::from(k % 15 == 14);
        assert!((0..DISPERSED_BITS).all(every_15th), "zeros have zero BCH bits, and show the register");
    }

    #[test]
    fn reading_gives_back_what_was_coded() {
        let mut found = vec![0xff; SOURCE_OCTETS];
        assert_eq!(read(MASK, START, &printed([RATE]), &coded(), &mut found), Ok(()));
        assert_eq!(found, sample());
    }

    #[test]
    fn a_block_is_a_rate_3_word_with_its_zeros_put_back() {
        let bits = bits_of(&coded());
        let (dispersed, sent_parity) = bits.split_at(DISPERSED_BITS);
        let mut word = vec![0; ldpc::GROUP * 61];
        word[1870..11484].copy_from_slice(dispersed);
        assert_eq!(ldpc::parity(&tables()[2], &word), sent_parity);
    }

    /// The number and position of reading a block, which may leave no source.
    fn refused(block: &[u8]) -> (u8, u16) {
        let mut found = octets(9, SOURCE_OCTETS);
        let answer = read(MASK, START, &printed([RATE]), block, &mut found);
        assert_eq!(found, octets(9, SOURCE_OCTETS));
        Refused::told(&answer)
    }

    /// The same of a block where these bits are the other ones.
    fn refused_with(wrong: &[usize]) -> (u8, u16) {
        let mut bits = bits_of(&coded());
        wrong.iter().for_each(|&bit| bits[bit] ^= 1);
        refused(&octets_of(&bits))
    }

    #[test]
    fn a_wrong_parity_bit_is_counted_from_the_first() {
        for position in [0, 1, 11033, 22065] {
            assert_eq!(refused_with(&[DISPERSED_BITS + position]), (8, position as u16));
        }
        assert_eq!(refused_with(&[8 * OCTETS - 1, DISPERSED_BITS + 700, DISPERSED_BITS + 40]), (8, 40));
    }

    /// The first bit sent stands behind 1,870 zeros, five rows of the table: it is the first of the sixth row.
    #[test]
    fn a_wrong_bit_shows_at_the_lowest_position_that_it_reaches() {
        let reached = |row: usize, m: usize| {
            let of_address = |&address: &usize| ldpc::position(61, address, m);
            tables()[RATE - 1][row].iter().map(of_address).min().expect("a row has addresses") as u16
        };
        assert_eq!(refused_with(&[0]), (8, reached(5, 0)));
        assert_eq!(refused_with(&[1]), (8, reached(5, 1)));
        assert_eq!(refused_with(&[BITS - 1]), (8, reached(30, 71)));
        assert_eq!(refused_with(&[DISPERSED_BITS - 1]), (8, reached(30, 263)));
    }

    #[test]
    fn wrong_bch_bits_have_no_position() {
        for bit in [0, BITS - 1, BITS, DISPERSED_BITS - 1] {
            let mut bits = bits_of(&coded());
            bits.truncate(DISPERSED_BITS);
            bits[bit] ^= 1;
            bits.extend(parity(&tables()[RATE - 1], &bits));
            assert_eq!(refused(&octets_of(&bits)), (9, 65535));
        }
    }

    /// The numbers of both calls whose source and block are longer than their lengths by so much; 8 alone has a position.
    fn numbers(mask: u32, start: u32, table: &[u16], longer: [usize; 2]) -> [u8; 2] {
        let [source, block] = [octets(1, SOURCE_OCTETS + longer[0]), octets(2, OCTETS + longer[1])];
        let [mut found, mut made] = [source.clone(), block.clone()];
        let coding = code(mask, start, table, &source, &mut made);
        let (reading, position) = Refused::told(&read(mask, start, table, &block, &mut found));
        assert_eq!(position == 65535, reading != 8);
        assert!(found == source && made == block);
        [coding, reading]
    }

    #[test]
    fn refusals_in_their_order() {
        let table = printed([RATE]);
        assert_ne!(octets(1, SOURCE_OCTETS)[SOURCE_OCTETS - 1] % 4, 0, "a tail that is refused");
        assert_eq!(numbers(1 << 15, START, &table[1..], [1, 1]), [6, 6]);
        assert_eq!(numbers(MASK, 1 << 15, &table[1..], [1, 1]), [6, 6]);
        assert_eq!(numbers(MASK, START, &table[1..], [1, 0]), [4, 4]);
        assert_eq!(numbers(MASK, START, &table[1..], [0, 1]), [4, 4]);
        assert_eq!(numbers(MASK, START, &table[1..], [0, 0]), [5, 5]);
        assert_eq!(numbers(MASK, START, &table, [0, 0]), [11, 8]);
    }

    #[test]
    fn each_bit_of_the_tail_is_refused() {
        for tail in [1, 2, 3] {
            let (mut source, mut block) = (sample(), octets(7, OCTETS));
            source[SOURCE_OCTETS - 1] |= tail;
            assert_eq!(code(MASK, START, &printed([RATE]), &source, &mut block), TAIL_WRONG);
            assert_eq!(block, octets(7, OCTETS));
        }
    }
}
