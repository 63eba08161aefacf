//! Whole cards: what is replaced and read, the other blocks, and how many blocks there are.
use crate::common::cards::{block_of, registers};
use crate::common::faults::break_settings;
use crate::common::{trials, Random};
use crate::{read, replace};
use s3frame::{Refusal, Settings, SlotSettings, TmccSettings, MOST_SETTINGS, SETTING_OCTETS};

/// The octets of a block on a card.
fn at(card: &[u8], number: usize) -> &[u8] {
    &card[number * SETTING_OCTETS..][..SETTING_OCTETS]
}

/// How many blocks a card has, and one of them: the first, the last or another.
fn any_place(random: &mut Random) -> (usize, usize) {
    let blocks = random.pick(&[1, 2, 3, 5, 63, 64]);
    let number = [0, blocks - 1, random.below(blocks)];
    (blocks, random.pick(&number))
}

#[test]
fn what_is_replaced_reads_back_and_the_other_blocks_stay() {
    let mut random = Random::new(111);
    for _ in 0..trials(1_000) {
        let (blocks, number) = any_place(&mut random);
        let (kept, found) = (random.kept(), random.card(blocks));
        let mut card = found.clone();
        assert_eq!(replace(&mut card, number, &kept), Ok(()));
        assert!(at(&card, number) == block_of(&kept), "setting {kept:?}");
        assert_eq!(read(&card, number), Ok(kept));
        for other in (0..blocks).filter(|&other| other != number) {
            assert!(at(&card, other) == at(&found, other), "block {other} of {blocks}, where {number} is replaced");
        }
    }
}

#[test]
fn replacing_does_not_look_at_the_old_block() {
    let mut random = Random::new(112);
    for _ in 0..trials(100) {
        let kept = random.kept();
        let right = block_of(&random.kept());
        let mut wrong = right.clone();
        wrong[random.below(SETTING_OCTETS)] ^= 1 << random.below(8);
        let old = [random.card(1), vec![0; SETTING_OCTETS], vec![0xff; SETTING_OCTETS], block_of(&kept), right, wrong];
        for mut card in old {
            assert_eq!(replace(&mut card, 0, &kept), Ok(()));
            assert!(card == block_of(&kept));
        }
    }
}

#[test]
fn what_is_read_and_replaced_gives_the_octets_of_the_card() {
    let mut random = Random::new(113);
    for _ in 0..trials(20) {
        let kept: Vec<Settings> = (0..MOST_SETTINGS).map(|_| random.kept()).collect();
        let full: Vec<u8> = kept.iter().flat_map(block_of).collect();
        let mut card = full.clone();
        for (number, kept) in (0..).zip(kept) {
            assert_eq!(read(&card, number), Ok(kept));
            assert_eq!(replace(&mut card, number, &kept), Ok(()));
            assert!(card == full, "block {number}");
        }
    }
}

/// What both calls must answer for a card of right blocks.
fn expected(octets: usize, number: usize) -> Result<(), Refusal> {
    if octets % SETTING_OCTETS != 0 || octets > MOST_SETTINGS * SETTING_OCTETS {
        Err(Refusal::Length)
    } else if number >= octets / SETTING_OCTETS {
        Err(Refusal::Block)
    } else {
        Ok(())
    }
}

#[test]
fn cards_of_every_length() {
    let kept = Random::new(114).kept();
    let mut card = block_of(&kept).repeat(66);
    // 2^23 blocks are 2^32 octets, which 32 bits do not hold, and 2^55 blocks are 2^64.
    let numbers =
        [0, 1, 2, 3, 62, 63, 64, 65, 255, 256, 65_536, 1 << 23, 1 << 23 | 1, 1 << 32, 1 << 55, 1 << 55 | 1, usize::MAX];
    let around = (1..=66).flat_map(|blocks| (blocks * SETTING_OCTETS).saturating_sub(1)..=blocks * SETTING_OCTETS + 1);
    for octets in (0..=3 * SETTING_OCTETS).chain(around).filter(|&octets| octets <= 66 * SETTING_OCTETS) {
        for number in numbers {
            let card = &mut card[..octets];
            let answers = [read(card, number).map(drop), replace(card, number, &kept)];
            assert_eq!(answers, [expected(octets, number); 2], "block {number} of {octets} octets");
        }
    }
}

/// A setting like another, with one mask or start that its register doesn't allow.
fn with_wrong_register(random: &mut Random, kept: &Settings) -> Settings {
    let mut wrong = *kept;
    let (slots, tmcc) = (&mut wrong.slots, &mut wrong.tmcc);
    match random.below(4) {
        0 => break_settings(random, 25, &mut slots.mask, &mut slots.start),
        1 => break_settings(random, 15, &mut tmcc.mask, &mut tmcc.start),
        // A mask of the slots is too wide for TMCC blocks, and one of theirs lacks the top weight of the slots.
        2 => tmcc.mask = slots.mask,
        _ => slots.mask = tmcc.mask,
    }
    wrong
}

#[test]
fn registers_that_are_not_allowed() {
    let mut random = Random::new(115);
    for _ in 0..trials(1_000) {
        let (blocks, number) = any_place(&mut random);
        let kept = random.kept();
        let wrong = with_wrong_register(&mut random, &kept);
        let mut card = random.card(blocks);
        card[number * SETTING_OCTETS..][..SETTING_OCTETS].copy_from_slice(&block_of(&wrong));
        let answers = [read(&card, number).map(drop), replace(&mut card, number, &wrong)];
        assert_eq!(answers, [Err(Refusal::Register); 2], "registers {:?}", registers(&wrong));
    }
}

#[test]
fn the_least_and_the_greatest_registers() {
    let mut random = Random::new(116);
    let (top, all) = (1 << 24, (1 << 25) - 1);
    let (tmcc_top, tmcc_all) = (1 << 14, (1 << 15) - 1);
    for (mask, start) in [(top, 1), (top, all), (all, 1), (all, all)] {
        for (tmcc_mask, tmcc_start) in [(tmcc_top, 1), (tmcc_top, tmcc_all), (tmcc_all, 1), (tmcc_all, tmcc_all)] {
            let (slots, tmcc) = (SlotSettings { mask, start }, TmccSettings { mask: tmcc_mask, start: tmcc_start });
            let (kept, mut card) = (Settings { slots, tmcc, ..random.kept() }, random.card(2));
            assert_eq!(replace(&mut card, 1, &kept), Ok(()));
            assert_eq!(read(&card, 1), Ok(kept));
        }
    }
}
