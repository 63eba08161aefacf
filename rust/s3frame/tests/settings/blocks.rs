//! Blocks with other octets: what is refused as a block, and what the others say.
use crate::common::cards::{block_of, put_sum, SUM};
use crate::common::{trials, Counts, Random};
use crate::{read, replace};
use s3frame::{Plan, Refusal, Settings, SlotSettings, TmccSettings, SETTING_OCTETS};

/// The octet behind the last number, the first that is zero in every block.
const ZEROS: usize = 46;

/// Whether a register of so many bits allows mask and start.
fn allowed(width: u32, mask: u32, start: u32) -> bool {
    (1 << (width - 1)..1 << width).contains(&mask) && (1..1 << width).contains(&start)
}

/// The plan of three octets for each group.
fn plan_of(octets: &[u8]) -> Result<Plan, Refusal> {
    let line = |three: &[u8]| format!("{} {} {}\n", three[0], three[1], three[2]);
    Plan::of_text(octets.chunks(3).map(line).collect::<String>().as_bytes())
}

/// What the octets of a block say, whatever its sum.
fn said(block: &[u8]) -> Result<Settings, Refusal> {
    let end = 6 + 3 * usize::from(block[5]);
    let mut fillers = block[end.min(30)..30].iter().chain(&block[ZEROS..SUM]);
    if &block[..5] != b"S3PL\x01" || fillers.any(|&octet| octet != 0) {
        return Err(Refusal::Block);
    }
    let plan = if end > 30 { Err(Refusal::Plan) } else { plan_of(&block[6..end]) }?;
    let number = |place: usize| block[place..place + 4].iter().fold(0, |number, &octet| number << 8 | u32::from(octet));
    let slots = SlotSettings { mask: number(30), start: number(34) };
    let tmcc = TmccSettings { mask: number(38), start: number(42) };
    if allowed(25, slots.mask, slots.start) && allowed(15, tmcc.mask, tmcc.start) {
        Ok(Settings { plan, slots, tmcc })
    } else {
        Err(Refusal::Register)
    }
}

/// Reads a block between others, and gives the word of the answer. A block must say what its octets say; one that is accepted
/// must be the one that a replacement writes.
fn word_of(random: &mut Random, block: &[u8]) -> &'static str {
    let mut card = random.card(3);
    let middle = SETTING_OCTETS..2 * SETTING_OCTETS;
    card[middle.clone()].copy_from_slice(block);
    let answer = read(&card, 1);
    assert_eq!(answer, said(block), "block {:?}", &block[..ZEROS]);
    match answer {
        Err(refusal) => refusal.word(),
        Ok(kept) => {
            card[middle.clone()].fill(0xff);
            assert_eq!(replace(&mut card, 1, &kept), Ok(()));
            assert!(card[middle] == *block, "a block is accepted that no replacement writes");
            "accepted"
        }
    }
}

/// Whether every block of as many groups has the same octet there: mark, edition and fillers.
fn fixed(kept: &Settings, octet: usize) -> bool {
    octet < 5 || (6 + 3 * kept.plan.groups().count()..30).contains(&octet) || octet >= ZEROS
}

#[test]
fn every_bit_of_a_block_counts() {
    let mut random = Random::new(117);
    let mut words = Counts::default();
    for groups in (0..trials(2)).flat_map(|_| 1..=8) {
        let kept = random.kept_of(groups);
        for (octet, bit) in (0..SETTING_OCTETS).flat_map(|octet| (0..8).map(move |bit| (octet, bit))) {
            let mut block = block_of(&kept);
            block[octet] ^= 1 << bit;
            assert_eq!(read(&block, 0), Err(Refusal::Block), "bit {bit} of octet {octet}");
            if octet < SUM {
                put_sum(&mut block);
                let word = word_of(&mut random, &block);
                assert!(word == "block" || !fixed(&kept, octet), "bit {bit} of octet {octet}: {word}");
                words.add(word);
            }
        }
    }
    // One bit more or less in a group's slots leaves no multiple of 5, so that no total is wrong alone.
    words.are(&["accepted", "block", "plan", "value", "order", "register"]);
}

#[test]
fn blocks_with_several_other_octets() {
    let mut random = Random::new(118);
    let mut words = Counts::default();
    for _ in 0..trials(10_000) {
        let mut block = block_of(&random.kept());
        for _ in 0..=random.below(4) {
            let octet = if random.chance(8) { random.below(SUM) } else { 5 + random.below(ZEROS - 5) };
            let value = [0, 1, 5, random.below(16), random.below(256)];
            block[octet] = random.pick(&value) as u8;
        }
        put_sum(&mut block);
        words.add(word_of(&mut random, &block));
    }
    words.are(&["accepted", "block", "plan", "value", "order", "total", "register"]);
}

/// The word of a block whose count is another one than that of its groups, with fillers that are not zero where asked.
fn with_count(random: &mut Random, kept: &Settings, count: u8, filler: Option<usize>) -> &'static str {
    let mut block = block_of(kept);
    block[5] = count;
    if let Some(octet) = filler {
        block[octet] = 1 + random.below(255) as u8;
    }
    put_sum(&mut block);
    word_of(random, &block)
}

#[test]
fn counts_of_groups() {
    let mut random = Random::new(119);
    for (groups, count) in (1..=8).flat_map(|groups| (0..=255).map(move |count| (groups, count))) {
        let kept = random.kept_of(groups.into());
        // Groups behind the count are fillers, which here are zeros only behind all groups; a group of zeros is a wrong value.
        let expected = match count {
            9..=255 => "plan",
            _ if count < groups => "block",
            _ if count > groups => "value",
            _ => "accepted",
        };
        assert_eq!(with_count(&mut random, &kept, count, None), expected, "count {count} of {groups}");
        for filler in [ZEROS, ZEROS + random.below(SUM - ZEROS), SUM - 1] {
            assert_eq!(with_count(&mut random, &kept, count, Some(filler)), "block", "count {count} of {groups}");
        }
    }
}

#[test]
fn fillers_behind_each_count() {
    let mut random = Random::new(120);
    for count in 0..=255 {
        let end = 6 + 3 * usize::from(count);
        let kept = random.kept();
        for octet in 6..30 {
            let mut block = block_of(&kept);
            block[5] = count;
            block[6..30].fill(0);
            block[octet] = 1 + random.below(255) as u8;
            put_sum(&mut block);
            let expected = match count {
                9..=255 => "plan",
                _ if octet >= end => "block",
                _ => "value",
            };
            assert_eq!(word_of(&mut random, &block), expected, "count {count} and octet {octet}");
        }
        let mut block = block_of(&kept);
        block[5] = count;
        block[6..30].fill(0);
        put_sum(&mut block);
        assert_eq!(word_of(&mut random, &block), if (1..=8).contains(&count) { "value" } else { "plan" });
    }
}
