//! Settings on a card worked by hand, sentence by sentence.
use super::*;

/// Document 01's plan, and settings that the registers of 25 and of 15 bits allow.
const PLAN: [(usize, usize, usize); 2] = [(4, 7, 115), (2, 3, 5)];
const NUMBERS: Registers = [0x0123_4567, 0x0089_abcd, 0x4321, 0x7fff];

/// What areas hold before a call.
const FOUND: u8 = 0xa5;

/// The block of that plan and those settings. The octets of its mark add to 290, edition and count to 3, the groups to 136,
/// the four numbers to 208, 513, 100 and 382: 1632 in all, which is 0660.
fn worked() -> Vec<u8> {
    let mut block = vec![0x53, 0x33, 0x50, 0x4c, 1, 2, 4, 7, 115, 2, 3, 5];
    block.resize(30, 0);
    block.extend([0x01, 0x23, 0x45, 0x67, 0x00, 0x89, 0xab, 0xcd, 0, 0, 0x43, 0x21, 0, 0, 0x7f, 0xff]);
    block.resize(510, 0);
    block.extend([0x06, 0x60]);
    block
}

fn setting() -> Setting {
    Setting { plan: plan::plan(&PLAN), registers: NUMBERS }
}

/// The number of a reading.
fn number_at(card: &[u8], number: usize) -> u8 {
    read(card, number).err().unwrap_or(0)
}

/// The number of reading the worked block with other octets from a place on, and its sum put right.
fn with(place: usize, octets: &[u8]) -> u8 {
    let mut block = worked();
    block[place..place + octets.len()].copy_from_slice(octets);
    let right = sum(&block[..510]);
    block[510..].copy_from_slice(&right);
    number_at(&block, 0)
}

#[test]
fn the_octets_of_a_block() {
    let mut card = [FOUND; 512];
    assert_eq!(replace(&mut card, 0, &setting()), 0);
    assert!(card[..] == worked());
    assert_eq!(read(&card, 0), Ok(setting()));
}

#[test]
fn the_other_blocks_keep_their_octets() {
    for number in 0..3 {
        let mut card = [FOUND; 3 * 512];
        assert_eq!(replace(&mut card, number, &setting()), 0);
        for (block, octets) in (0..).zip(card.chunks(512)) {
            let expected = if block == number { worked() } else { vec![FOUND; 512] };
            assert!(octets == expected);
            assert_eq!(number_at(&card, block), if block == number { 0 } else { 17 });
        }
    }
}

#[test]
fn a_card_has_whole_blocks_64_at_most() {
    let numbers = |octets: usize, number: usize| {
        let mut card = worked().repeat(66);
        card.truncate(octets);
        let found = card.clone();
        let refusals = [number_at(&card, number), replace(&mut card, number, &setting())];
        assert!(card == found);
        refusals
    };
    assert_eq!([0, 1, usize::MAX].map(|number| numbers(0, number)), [[17; 2]; 3]);
    assert_eq!([0, 1, 1 << 23].map(|number| numbers(512, number)), [[0; 2], [17; 2], [17; 2]]);
    assert_eq!([63, 64, 255, usize::MAX].map(|number| numbers(64 * 512, number)), [[0; 2], [17; 2], [17; 2], [17; 2]]);
    for octets in [1, 511, 513, 64 * 512 - 1, 64 * 512 + 1, 65 * 512, 66 * 512] {
        assert_eq!([0, 64, usize::MAX].map(|number| numbers(octets, number)), [[4; 2]; 3]);
    }
}

#[test]
fn mark_edition_sum_and_fillers() {
    for (place, octet) in [(0, 0x52), (1, 0x73), (3, 0), (4, 0), (4, 2), (12, 1), (29, 5), (46, 1), (300, 128), (509, 255)] {
        assert_eq!(with(place, &[octet]), 17);
    }
    for (place, octet) in [(510, 5), (511, 0x61), (30, 0), (6, 5), (8, 110)] {
        let mut block = worked();
        block[place] = octet;
        assert_eq!(number_at(&block, 0), 17);
    }
    assert_eq!(number_at(&[0; 512], 0), 17);
    assert_eq!(sum(&[255; 510]), (130050u32 - 65536).to_be_bytes()[2..]);
}

#[test]
fn counts_that_leave_other_groups_unused() {
    // A count of 1 leaves the second group a filler that is not zero, one of 3 adds a group of zeros.
    assert_eq!([1, 3, 8].map(|count| with(5, &[count])), [17, 13, 13]);
    assert_eq!([9, 128, 255].map(|count| with(5, &[count])), [1; 3]);
    assert_eq!(with(5, &[0]), 17);
    assert_eq!(with(5, &[0; 7]), 1);
    // No group is unused behind a count above 8, but the octets behind the numbers are fillers all the same.
    let mut from_count = worked()[5..47].to_vec();
    from_count[0] = 9;
    from_count[1..25].fill(0xff);
    assert_eq!(with(5, &from_count), 1);
    from_count[41] = 1;
    assert_eq!(with(5, &from_count), 17);
}

#[test]
fn plan_and_registers_come_behind_the_block() {
    assert_eq!([with(7, &[12]), with(9, &[4, 8]), with(8, &[110])], [13, 14, 15]);
    assert_eq!([with(30, &[0x02]), with(30, &[0; 4]), with(34, &[0; 4]), with(34, &[2])], [6; 4]);
    assert_eq!([with(38, &[0, 0, 0x80]), with(38, &[0; 4]), with(42, &[0; 4]), with(42, &[0, 1])], [6; 4]);
    let mut wrong = worked()[5..46].to_vec();
    wrong[25..].fill(0);
    assert_eq!(with(5, &wrong), 6);
    wrong[3] = 110;
    assert_eq!(with(5, &wrong), 15);
    wrong[0] = 1;
    assert_eq!(with(5, &wrong), 17);
}

#[test]
fn replacing_has_the_same_order() {
    let number = |octets: usize, number, groups: &[(usize, usize, usize)], registers| {
        let mut card = vec![FOUND; octets];
        let refusal = replace(&mut card, number, &Setting { plan: plan::plan(groups), registers });
        assert!(refusal == 0 || card == vec![FOUND; octets]);
        refusal
    };
    let swapped = [0x4321, 0x7fff, 0x0123_4567, 0x0089_abcd];
    assert_eq!([number(511, 1, &[], [0; 4]), number(512, 1, &[], [0; 4])], [4, 17]);
    assert_eq!([&[][..], &[(0, 0, 0); 9]].map(|groups| number(512, 0, groups, [0; 4])), [1; 2]);
    let wrong = [[(4, 7, 116), (2, 3, 4)], [(2, 3, 5), (4, 7, 115)], [(4, 7, 115), (2, 3, 10)]];
    assert_eq!(wrong.map(|groups| number(512, 0, &groups, [0; 4])), [13, 14, 15]);
    // Numbers that an octet would cut to right ones.
    assert_eq!([(260, 7, 120), (4, 263, 120), (4, 7, 376)].map(|group| number(512, 0, &[group], NUMBERS)), [13; 3]);
    assert_eq!([number(512, 0, &PLAN, [0; 4]), number(512, 0, &PLAN, swapped)], [6; 2]);
    assert_eq!(number(512, 0, &PLAN, NUMBERS), 0);
}
