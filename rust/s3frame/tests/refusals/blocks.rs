//! TMCC blocks.
use crate::calls;
use crate::common::faults::{self, Faults};
use crate::common::words::{turned, Word, NO_POSITION};
use crate::common::{code, trials, Random};
use crate::ways::{alone_and_in_pairs, cut, with_choices, Way};
use crate::{compared, kept};
use reference::slot::{self, Refused};
use reference::tmcc;
use s3frame::{Rate, TmccSettings};

/// What both calls on a TMCC block are lent.
struct Block {
    mask: u32,
    start: u32,
    table: Vec<u16>,
    source: Vec<u8>,
    block: Vec<u8>,
}

impl Block {
    /// A source, and the block of it.
    fn new(random: &mut Random) -> Block {
        let TmccSettings { mask, start } = random.tmcc_settings();
        let table = random.table(Rate::R1_2);
        let (mut source, mut block) = (random.source(tmcc::SOURCE_OCTETS), vec![0; tmcc::OCTETS]);
        source[tmcc::SOURCE_OCTETS - 1] &= 0xfc;
        assert_eq!(tmcc::code(mask, start, &table, &source, &mut block), 0);
        Block { mask, start, table, source, block }
    }

    fn break_all(&mut self, random: &mut Random, faults: &Faults, lengths: &[&Way<Block>]) {
        if faults.has(5) {
            faults::break_tables(random, &[Rate::R1_2], &mut self.table);
        }
        lengths.iter().for_each(|way| (way.break_it)(self));
        if faults.has(6) {
            faults::break_settings(random, 15, &mut self.mask, &mut self.start);
        }
    }
}

/// The ways to 4.
const LENGTHS: &[Way<Block>] = &[
    Way { of: "source", break_it: |lent| lent.source.clear() },
    Way { of: "source", break_it: |lent| cut(&mut lent.source) },
    Way { of: "source", break_it: |lent| lent.source.push(0) },
    Way { of: "block", break_it: |lent| lent.block.clear() },
    Way { of: "block", break_it: |lent| cut(&mut lent.block) },
    Way { of: "block", break_it: |lent| lent.block.push(0) },
];

fn coded(random: &mut Random, faults: &Faults, lengths: &[&Way<Block>]) {
    let mut lent = Block::new(random);
    lent.block = random.octets(tmcc::OCTETS);
    if faults.has(11) {
        lent.source[tmcc::SOURCE_OCTETS - 1] |= random.pick(&[1, 2, 3]);
    }
    lent.break_all(random, faults, lengths);
    let Block { mask, start, table, source, block } = lent;
    kept(
        faults.first(),
        &block,
        |block| calls::code_tmcc(mask, start, &table, &source, block),
        |block| tmcc::code(mask, start, &table, &source, block),
    );
}

#[test]
fn coding_a_block() {
    with_choices(&mut Random::new(58), &[6, 4, 5, 11], trials(10), &alone_and_in_pairs(LENGTHS), coded);
}

/// Turns one of a block's dispersed bits round and makes the parity anew.
fn break_bch(random: &mut Random, code: &slot::Code, block: &[u8]) -> Vec<u8> {
    let mut bits = slot::bits_of(&turned(block, &[random.below(tmcc::DISPERSED_BITS)]));
    bits.truncate(tmcc::DISPERSED_BITS);
    bits.extend(tmcc::parity(&code.table, &bits));
    slot::octets_of(&bits)
}

/// With 8 alone there is a position.
fn read(random: &mut Random, faults: &Faults, lengths: &[&Way<Block>]) {
    let (mut lent, mut failing) = (Block::new(random), NO_POSITION);
    let code = code(Rate::R1_2, &lent.table);
    lent.source = random.octets(tmcc::SOURCE_OCTETS);
    if faults.has(9) {
        lent.block = break_bch(random, &code, &lent.block);
    }
    if faults.has(8) {
        (lent.block, failing) = random.with_broken_parity(&Word::block(&code), &lent.block);
    }
    lent.break_all(random, faults, lengths);
    let Block { mask, start, table, source, block } = lent;
    let (position, _) = compared(
        faults.first(),
        &source,
        |source| {
            let told = calls::read_tmcc(mask, start, &table, &block, source);
            (told.number, told.position)
        },
        |source| Refused::told(&tmcc::read(mask, start, &table, &block, source)),
    );
    assert_eq!(position, if faults.first() == 8 { failing } else { NO_POSITION });
}

#[test]
fn reading_a_block() {
    with_choices(&mut Random::new(59), &[6, 4, 5, 8, 9], trials(5), &alone_and_in_pairs(LENGTHS), read);
}
