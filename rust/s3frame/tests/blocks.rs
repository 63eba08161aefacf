//! TMCC blocks beside the second implementation.
mod common;
use common::words::{turned, Word, NO_POSITION};
use common::{code, number, number_and_position, trials, Random};
use reference::slot::{bits_of, octets_of, Code, Refused};
use reference::tmcc;
use s3frame::{code_tmcc, read_tmcc, Rate, TmccSettings, BLOCK_OCTETS, TMCC_OCTETS};

/// The rate whose parity table a block uses.
const RATE: Rate = Rate::R1_2;

/// Codes a block both ways and compares; gives the number and the area.
fn coded(random: &mut Random, settings: TmccSettings, table: &[u16], source: &[u8]) -> (u32, Vec<u8>) {
    let found = random.octets(BLOCK_OCTETS);
    let [mut ours, mut theirs] = [found.clone(), found.clone()];
    let expected = tmcc::code(settings.mask, settings.start, table, source, &mut theirs);
    assert_eq!(number(code_tmcc(settings, table, source, &mut ours)), expected.into());
    assert!(ours == theirs, "the blocks differ");
    assert!(expected == 0 || ours == found, "a refusal writes nothing");
    (expected.into(), ours)
}

/// Reads a block both ways and compares; gives the number and the failing position, and the area.
fn read(random: &mut Random, settings: TmccSettings, table: &[u16], block: &[u8]) -> ((u8, u16), Vec<u8>) {
    let found = random.octets(TMCC_OCTETS);
    let [mut ours, mut theirs] = [found.clone(), found.clone()];
    let expected = tmcc::read(settings.mask, settings.start, table, block, &mut theirs);
    let told = number_and_position(read_tmcc(settings, table, block, &mut ours));
    assert_eq!(told, Refused::told(&expected));
    assert!(ours == theirs, "what was read differs");
    assert!(expected.is_ok() || ours == found, "a refusal writes nothing");
    (told, ours)
}

/// A block with one bit before the parity the other way, and the parity made anew.
fn with_wrong_bit(code: &Code, block: &[u8], bit: usize) -> Vec<u8> {
    let mut bits = bits_of(&turned(block, &[bit]));
    bits.truncate(tmcc::DISPERSED_BITS);
    bits.extend(tmcc::parity(&code.table, &bits));
    octets_of(&bits)
}

/// The octets of chance of a source, and its block.
fn block_of(random: &mut Random, settings: TmccSettings, table: &[u16]) -> (Vec<u8>, Vec<u8>) {
    let mut source = random.source(TMCC_OCTETS);
    source[TMCC_OCTETS - 1] &= 0xfc;
    let (number, block) = coded(random, settings, table, &source);
    assert_eq!(number, 0);
    (source, block)
}

/// Codes a block with a table, reads it whole and damaged in each way, and codes it with a wrong tail.
fn there_and_back(random: &mut Random, table: &[u16]) {
    let (settings, code) = (random.tmcc_settings(), code(RATE, table));
    let (mut source, block) = block_of(random, settings, table);
    assert_eq!(read(random, settings, table, &block), ((0, NO_POSITION), source.clone()));
    let (wrong, position) = random.with_broken_parity(&Word::block(&code), &block);
    assert_eq!(read(random, settings, table, &wrong).0, (8, position));
    let wrong = with_wrong_bit(&code, &block, random.below(tmcc::DISPERSED_BITS));
    assert_eq!(read(random, settings, table, &wrong).0, (9, NO_POSITION));
    source[TMCC_OCTETS - 1] |= random.pick(&[1, 2, 3]);
    assert_eq!(coded(random, settings, table, &source).0, 11);
}

#[test]
fn blocks_of_chance() {
    let mut random = Random::new(21);
    for _ in 0..trials(100) {
        let table = random.table(RATE);
        there_and_back(&mut random, &table);
    }
    println!("counted {} blocks", trials(100));
}

#[test]
fn a_block_with_the_published_table() {
    there_and_back(&mut Random::new(22), &RATE.published_table());
}

/// Bits at the ends of the TMCC bits, of the BCH bits and of rows of the parity table, behind five rows of zeros; and parity
/// bits at their ends. With one more parity bit that is wrong the lowest counts.
#[test]
fn where_a_block_broke() {
    let (mut random, table) = (Random::new(23), RATE.published_table());
    let (settings, code) = (random.tmcc_settings(), code(RATE, &table));
    let (word, (_, block)) = (Word::block(&code), block_of(&mut random, settings, &table));
    let parity = [0, 1, 11_032, 22_064, 22_065].map(|position| tmcc::DISPERSED_BITS + position);
    for bit in [0, 1, 373, 374, 375, 9421, 9422, 9612, 9613].into_iter().chain(parity) {
        let alone = word.lowest_failing(&[bit]).expect("a position that one bit breaks");
        assert_eq!(bit.checked_sub(tmcc::DISPERSED_BITS).unwrap_or(alone.into()), alone.into());
        assert_eq!(read(&mut random, settings, &table, &turned(&block, &[bit])).0, (8, alone));
        let other = random.below(22_066);
        if let Some(lowest) = word.lowest_failing(&[bit, tmcc::DISPERSED_BITS + other]) {
            let broken = turned(&block, &[bit, tmcc::DISPERSED_BITS + other]);
            assert_eq!(read(&mut random, settings, &table, &broken).0, (8, lowest));
        }
    }
}

/// What is refused before the block is looked at has no position.
#[test]
fn a_refused_block_writes_nothing() {
    let (mut random, table) = (Random::new(24), RATE.published_table());
    let settings = random.tmcc_settings();
    let (_, block) = block_of(&mut random, settings, &table);
    let broken = turned(&block, &[0]);
    let stopped = TmccSettings { start: 0, ..settings };
    let mut refused = |settings, table: &[u16], block: &[u8]| read(&mut random, settings, table, block).0;
    assert_eq!(refused(stopped, &table[1..], &broken[1..]), (6, NO_POSITION));
    assert_eq!(refused(settings, &table[1..], &broken[1..]), (4, NO_POSITION));
    assert_eq!(refused(settings, &table[1..], &broken), (5, NO_POSITION));
}
