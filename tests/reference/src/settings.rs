//! Settings on a card, document 02, N4: each is a block of 512 octets that keeps a plan and the settings of both dispersal
//! registers, that of the slots and that of the TMCC blocks.
use crate::dispersal::allowed;
use crate::plan::{self, Group};
use crate::slot::{BLOCK_WRONG, LENGTH_WRONG, PLAN_WRONG, REGISTER_WRONG};
use crate::{slot, tmcc};

const OCTETS: usize = 512;
const MOST_BLOCKS: usize = 64;
const MARK: &[u8] = b"S3PL";
const EDITION: u8 = 1;

/// Mask and start of the slots' register, then those of the TMCC blocks'.
pub type Registers = [u32; 4];
const PLAN_OCTETS: usize = 24;
const SUM_OCTETS: usize = 2;

/// The octets of a block's fields in their order: mark, edition, group count, groups, four numbers, zeros, sum.
const WIDTHS: [usize; 10] = [4, 1, 1, PLAN_OCTETS, 4, 4, 4, 4, 464, SUM_OCTETS];

/// What a block keeps: a plan, and the registers' numbers.
#[derive(Clone, Debug, PartialEq)]
pub struct Setting {
    pub plan: Vec<Group>,
    pub registers: Registers,
}

/// The sum of octets as a block ends with it.
fn sum(octets: &[u8]) -> [u8; SUM_OCTETS] {
    let sum = octets.iter().map(|&octet| u32::from(octet)).sum::<u32>() % 65536;
    (sum as u16).to_be_bytes()
}

fn all_zero(octets: &[u8]) -> bool {
    octets.iter().all(|&octet| octet == 0)
}

/// The plan of so many groups of three octets each, or the refusal where there is no room for so many.
fn plan_of(count: u8, groups: &[u8]) -> Result<Vec<Group>, u8> {
    let octets = groups.get(..3 * usize::from(count)).ok_or(PLAN_WRONG)?;
    let group = |three: &[u8]| (three[0].into(), three[1].into(), three[2].into());
    Ok(plan::plan(&octets.chunks(3).map(group).collect::<Vec<_>>()))
}

impl Setting {
    /// What a block says, or the refusal where it is no block of this edition or has no room for its groups.
    fn of_block(block: &[u8]) -> Result<Setting, u8> {
        let mut rest = block;
        let [mark, edition, count, groups, slot_mask, slot_start, tmcc_mask, tmcc_start, zeros, end] =
            WIDTHS.map(|width| {
                let (field, behind) = rest.split_at(width);
                rest = behind;
                field
            });
        let count = count[0];
        let whole = mark == MARK && edition == [EDITION] && end == sum(&block[..OCTETS - SUM_OCTETS]);
        if !whole || !all_zero(zeros) || !groups.chunks(3).skip(count.into()).all(all_zero) {
            return Err(BLOCK_WRONG);
        }
        let number = |field: &[u8]| field.iter().fold(0, |number, &octet| number << 8 | u32::from(octet));
        let registers = [slot_mask, slot_start, tmcc_mask, tmcc_start].map(number);
        Ok(Setting { plan: plan_of(count, groups)?, registers })
    }

    /// The block of an accepted setting, whose numbers have room in their octets.
    fn block(&self) -> Vec<u8> {
        let mut groups = [0; PLAN_OCTETS];
        for (place, group) in groups.chunks_mut(3).zip(&self.plan) {
            place.copy_from_slice(&[group.modulation, group.rate, group.slots].map(|number| number as u8));
        }
        let mut block = [MARK, &[EDITION, self.plan.len() as u8], &groups].concat();
        block.extend(self.registers.iter().flat_map(|number| number.to_be_bytes()));
        block.resize(OCTETS - SUM_OCTETS, 0);
        block.extend(sum(&block));
        block
    }

    /// The first refusal of plan and registers, which both calls test alike and last.
    fn accept(&self) -> Result<(), u8> {
        let [slot_mask, slot_start, tmcc_mask, tmcc_start] = self.registers;
        plan::accept(&self.plan)?;
        if allowed(slot::WIDTH, slot_mask, slot_start) && allowed(tmcc::WIDTH, tmcc_mask, tmcc_start) {
            Ok(())
        } else {
            Err(REGISTER_WRONG)
        }
    }
}

/// Whether a card has whole blocks, none among them, and not too many.
fn card_fits(card: &[u8]) -> bool {
    card.len() % OCTETS == 0 && card.len() / OCTETS <= MOST_BLOCKS
}

/// Reads a block by its number from 0.
pub fn read(card: &[u8], number: usize) -> Result<Setting, u8> {
    if !card_fits(card) {
        return Err(LENGTH_WRONG);
    }
    let setting = card.chunks(OCTETS).nth(number).ok_or(BLOCK_WRONG).and_then(Setting::of_block)?;
    setting.accept()?;
    Ok(setting)
}

/// Replaces a block by its number from 0, whatever it holds.
pub fn replace(card: &mut [u8], number: usize, setting: &Setting) -> u8 {
    if !card_fits(card) {
        return LENGTH_WRONG;
    }
    let block = match card.chunks_mut(OCTETS).nth(number) {
        Some(block) => block,
        None => return BLOCK_WRONG,
    };
    match setting.accept() {
        Err(refusal) => refusal,
        Ok(()) => {
            block.copy_from_slice(&setting.block());
            0
        }
    }
}

#[cfg(test)]
mod tests;
