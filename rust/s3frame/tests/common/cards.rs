//! Cards of settings, their blocks octet for octet as document 02, N4, lays them out.
use super::plans::threes;
use super::Random;
use s3frame::{Settings, SETTING_OCTETS};

/// The first octet of a block's sum.
pub const SUM: usize = 510;

/// The numbers of both registers, in the order of a block.
pub fn registers(kept: &Settings) -> [u32; 4] {
    [kept.slots.mask, kept.slots.start, kept.tmcc.mask, kept.tmcc.start]
}

/// Puts the sum of a block right.
pub fn put_sum(block: &mut [u8]) {
    let sum = block[..SUM].iter().fold(0u16, |sum, &octet| sum.wrapping_add(octet.into()));
    block[SUM..].copy_from_slice(&sum.to_be_bytes());
}

/// The block of these numbers, with its mark, edition and sum, and with zeros everywhere else.
pub fn block(count: u8, groups: &[u16], registers: [u32; 4]) -> Vec<u8> {
    let mut block = vec![0; SETTING_OCTETS];
    block[..5].copy_from_slice(b"S3PL\x01");
    block[5] = count;
    block[6..].iter_mut().zip(groups).for_each(|(octet, &number)| *octet = number as u8);
    for (place, number) in block[30..46].chunks_mut(4).zip(registers) {
        place.copy_from_slice(&number.to_be_bytes());
    }
    put_sum(&mut block);
    block
}

/// The block that a replacement must write.
pub fn block_of(kept: &Settings) -> Vec<u8> {
    let groups = threes(&kept.plan).concat();
    block((groups.len() / 3) as u8, &groups, registers(kept))
}

impl Random {
    pub fn kept(&mut self) -> Settings {
        Settings { plan: self.plan(), slots: self.slot_settings(), tmcc: self.tmcc_settings() }
    }

    /// A setting whose plan has so many groups.
    pub fn kept_of(&mut self, groups: usize) -> Settings {
        loop {
            let kept = self.kept();
            if kept.plan.groups().count() == groups {
                return kept;
            }
        }
    }

    /// A card of so many blocks, with octets of chance.
    pub fn card(&mut self, blocks: usize) -> Vec<u8> {
        self.octets(blocks * SETTING_OCTETS)
    }
}
