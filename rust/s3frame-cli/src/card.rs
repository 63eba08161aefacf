//! Cards: the settings of a unit, kept in blocks.
use crate::failure::Failure;
use crate::files::{Content, Files};
use crate::inputs::Input;
use s3frame::{read_settings, replace_settings, Refusal, Settings, MOST_SETTINGS, SETTING_OCTETS};
use std::path::Path;

const MOST_OCTETS: usize = MOST_SETTINGS * SETTING_OCTETS;

/// What a block of a card is.
pub enum Block {
    Accepted(Settings),
    /// All zeros, as a new card is: refused as any block without the mark, but nothing is broken.
    Empty,
    Refused(Refusal),
}

/// The octets of a card, and what messages call its file.
pub struct Card {
    name: String,
    octets: Vec<u8>,
}

impl Card {
    /// Opens a card to look at it.
    pub fn open(files: &mut Files, word: &Path) -> Result<Card, Failure> {
        Card::read(&mut files.open(Some(word), Content::Binary)?)
    }

    /// Reads a card. One octet more than it may have is asked for, so that a longer file is seen to be so. The library is
    /// asked whether the length is a card's: it looks at that before anything else.
    pub fn read(input: &mut Input) -> Result<Card, Failure> {
        let mut octets = vec![0; MOST_OCTETS + 1];
        let length = input.fill(&mut octets)?;
        octets.truncate(length);
        match read_settings(&octets, 0) {
            Err(Refusal::Length) => Err(no_card(input, length)),
            _ => Ok(Card { name: input.name().to_string(), octets }),
        }
    }

    pub fn octets(&self) -> &[u8] {
        &self.octets
    }

    /// What messages call a block.
    pub fn name_of(&self, number: usize) -> String {
        format!("{}: block {number}", self.name)
    }

    /// What each block is, block 0 first.
    pub fn blocks(&self) -> impl Iterator<Item = Block> + '_ {
        (0..).zip(self.octets.chunks(SETTING_OCTETS)).map(|(number, octets)| {
            match read_settings(&self.octets, number) {
                Ok(settings) => Block::Accepted(settings),
                Err(_) if is_empty(octets) => Block::Empty,
                Err(refusal) => Block::Refused(refusal),
            }
        })
    }

    /// The setting that a block keeps.
    pub fn setting(&self, number: usize) -> Result<Settings, Failure> {
        read_settings(&self.octets, number).map_err(|refusal| self.refused(number, refusal))
    }

    /// Puts a setting into a block, whatever stands there.
    pub fn replace(&mut self, number: usize, settings: &Settings) -> Result<(), Refusal> {
        replace_settings(&mut self.octets, number, settings)
    }

    /// The line about a block that is refused.
    pub fn refused(&self, number: usize, refusal: Refusal) -> Failure {
        match refusal {
            Refusal::Block => Failure::refused(self.name_of(number), refusal, self.fault(number)),
            _ => Failure::new(self.name_of(number), refusal),
        }
    }

    /// Which of the reasons of [`Refusal::Block`] a block has, as far as a user has to tell them apart.
    fn fault(&self, number: usize) -> String {
        match (self.octets.chunks(SETTING_OCTETS).nth(number), self.octets.len() / SETTING_OCTETS) {
            (Some(octets), _) if is_empty(octets) => "it is empty: all its octets are zeros".to_string(),
            (Some(_), _) => "its mark, edition or sum is wrong, or an octet that has to be zero is not".to_string(),
            (None, 0) => "the card has no blocks".to_string(),
            (None, 1) => "the card has 1 block, number 0".to_string(),
            (None, blocks) => format!("the card has {blocks} blocks, 0 to {}", blocks - 1),
        }
    }
}

fn is_empty(block: &[u8]) -> bool {
    block.iter().all(|octet| *octet == 0)
}

/// The line about a file whose length, as far as it was read, is no card's.
fn no_card(input: &Input, read: usize) -> Failure {
    let octets = match input.octets() {
        Some(octets) => octets.to_string(),
        None if read > MOST_OCTETS => format!("more than {MOST_OCTETS}"),
        None => read.to_string(),
    };
    let wrong =
        format!("a card is 0 to {MOST_SETTINGS} blocks of {SETTING_OCTETS} octets, and this has {octets} octets");
    Failure::refused(input.name(), Refusal::Length, wrong)
}

#[cfg(test)]
mod tests {
    use super::*;
    use s3frame::{Plan, SlotSettings, TmccSettings};

    fn card(blocks: usize) -> Card {
        Card { name: "card".to_string(), octets: vec![0; SETTING_OCTETS * blocks] }
    }

    fn settings() -> Settings {
        let plan = Plan::of_text(b"4 7 115\n2 3 5\n").expect("a plan of document 01");
        let slots = SlotSettings { mask: 0x1234567, start: 1 };
        Settings { plan, slots, tmcc: TmccSettings { mask: 0x4001, start: 0x7FFF } }
    }

    #[test]
    fn blocks_are_accepted_empty_or_refused() {
        let mut card = card(3);
        card.replace(1, &settings()).expect("a block of the card");
        card.octets[2 * SETTING_OCTETS] = 1;
        let blocks: Vec<Block> = card.blocks().collect();
        assert!(matches!(blocks[..], [Block::Empty, Block::Accepted(_), Block::Refused(Refusal::Block)]));
        assert_eq!(card.setting(1).ok(), Some(settings()));
    }

    #[test]
    fn a_refused_block_is_told_by_its_fault() {
        let said = |card: &Card, number| card.setting(number).expect_err("a refused block").to_string();
        for (blocks, number, fault) in [
            (0, 0, "the card has no blocks"),
            (1, 1, "the card has 1 block, number 0"),
            (64, usize::MAX, "the card has 64 blocks, 0 to 63"),
            (2, 1, "it is empty: all its octets are zeros"),
        ] {
            assert_eq!(said(&card(blocks), number), format!("card: block {number}: refused 17 block: {fault}"));
        }
        let mut card = card(1);
        card.replace(0, &settings()).expect("a block of the card");
        // A group's slots and the sum, which stays a sum.
        card.octets[8] += 1;
        assert!(said(&card, 0).starts_with("card: block 0: refused 17 block: its mark, edition or sum is wrong"));
        card.octets[SETTING_OCTETS - 1] += 1;
        assert!(said(&card, 0).starts_with("card: block 0: refused 13 value: "));
    }
}
