//! A whole frame in one area, document 01: each slot in its own part, the register going on from data slot to data slot
//! and standing still over parity and dummies (document 002, 2.2.1.6 (1)).
use crate::plan::{self, Group, SLOTS};
use crate::slot::{self, code_slot, read_slot, Code, Refused, WIDTH};
use crate::slot::{DUMMY, LENGTH_WRONG, NO_POSITION, NO_STUFF, REGISTER_WRONG, TABLE_WRONG};
use crate::{dispersal, tables};

pub const OCTETS: usize = SLOTS * slot::OCTETS;

/// What a rate fixes, for each group.
fn codes(plan: &[Group], tables: &[u16]) -> Option<Vec<Code>> {
    let rows: Vec<usize> = plan.iter().map(Group::rows).collect();
    Some(tables::taken(&rows, tables)?.into_iter().map(Code::new).collect())
}

/// The groups' codes, or the first refusal that holds. Lengths are asked of an accepted plan alone, which fixes them.
fn accept(
    plan: &[Group],
    mask: u32,
    start: u32,
    tables: &[u16],
    lengths_hold: impl Fn() -> bool,
) -> Result<Vec<Code>, u8> {
    plan::accept(plan)?;
    if !dispersal::allowed(WIDTH, mask, start) {
        Err(REGISTER_WRONG)
    } else if !lengths_hold() {
        Err(LENGTH_WRONG)
    } else {
        codes(plan, tables).ok_or(TABLE_WRONG)
    }
}

/// Codes the data slots, whose headers and data lie end to end in the source, and leaves the dummies' parts as found.
pub fn code(plan: &[Group], mask: u32, start: u32, tables: &[u16], source: &[u8], frame: &mut [u8]) -> u8 {
    let lengths_hold = || source.len() == plan::source_octets(plan) && frame.len() == OCTETS;
    let codes = match accept(plan, mask, start, tables, lengths_hold) {
        Ok(codes) => codes,
        Err(number) => return number,
    };
    let (mut register, mut from) = (start, 0);
    for (place, part) in plan::places(plan).into_iter().zip(frame.chunks_mut(slot::OCTETS)) {
        if place.data {
            let code = &codes[place.group];
            let to = from + code.message_bits() / 8;
            let (coded, after) = code_slot(code, mask, register, &source[from..to]);
            part.copy_from_slice(&coded);
            (register, from) = (after, to);
        }
    }
    0
}

/// Reads the data slots into the source's places, and writes for each slot an answer, the stuff bits, 255 where the answer
/// isn't 0, and the lowest failing parity position, 65535 where the answer isn't 8. The places of a slot that fails a
/// check stay untouched; the register goes on after it all the same, so that the slots behind it can be read.
#[allow(clippy::too_many_arguments)] // those of the call
pub fn read(
    plan: &[Group],
    mask: u32,
    start: u32,
    tables: &[u16],
    frame: &[u8],
    source: &mut [u8],
    answers: &mut [u8],
    stuff: &mut [u8],
    positions: &mut [u16],
) -> u8 {
    let lengths_hold = || {
        let lengths = [source.len(), frame.len(), answers.len(), stuff.len(), positions.len()];
        lengths == [plan::source_octets(plan), OCTETS, SLOTS, SLOTS, SLOTS]
    };
    let codes = match accept(plan, mask, start, tables, lengths_hold) {
        Ok(codes) => codes,
        Err(number) => return number,
    };
    let (mut register, mut from) = (start, 0);
    answers.fill(DUMMY);
    stuff.fill(NO_STUFF);
    positions.fill(NO_POSITION);
    for (k, (place, part)) in plan::places(plan).into_iter().zip(frame.chunks(slot::OCTETS)).enumerate() {
        if place.data {
            let code = &codes[place.group];
            let to = from + code.message_bits() / 8;
            let (read, after) = read_slot(code, mask, register, part);
            (answers[k], positions[k]) = Refused::told(&read);
            if let Ok(read) = read {
                source[from..to].copy_from_slice(&read.source);
                stuff[k] = read.stuff;
            }
            (register, from) = (after, to);
        }
    }
    0
}

#[cfg(test)]
mod tests {
    use super::*;
    use crate::samples::{octets, MASK, START};
    use crate::slot::{BCH_WRONG, PARITY_WRONG};
    use crate::tables::{printed, tables};
    use crate::vectors::{damaged, with_parity_anew};

    /// A plan of few data slots, so that the tests are short: 1 to 4, 6 and 7, 11 to 32.
    fn small_plan() -> Vec<Group> {
        plan::plan(&[(4, 7, 5), (2, 3, 5), (1, 1, 110)])
    }

    fn lent_tables(plan: &[Group]) -> Vec<u16> {
        printed(plan.iter().map(|group| group.rate))
    }

    fn of_rate(rate: usize) -> Code {
        Code::new(tables().swap_remove(rate - 1))
    }

    fn coded(plan: &[Group], mask: u32, start: u32, source: &[u8]) -> Vec<u8> {
        let mut frame = octets(7, OCTETS);
        assert_eq!(code(plan, mask, start, &lent_tables(plan), source, &mut frame), 0);
        frame
    }

    /// The same frame by lone slots, found by the data slots' numbers.
    fn slot_by_slot(source: &[u8]) -> Vec<u8> {
        let (mut frame, mut register, mut from) = (octets(7, OCTETS), START, 0);
        for (rate, first, last) in [(7, 1, 4), (3, 6, 7), (1, 11, 32)] {
            let code = of_rate(rate);
            let count = code.message_bits() / 8;
            for number in first..=last {
                let (slot, after) = code_slot(&code, MASK, register, &source[from..from + count]);
                frame.splice(5610 * (number - 1)..5610 * number, slot);
                (register, from) = (after, from + count);
            }
        }
        assert_eq!(from, source.len());
        frame
    }

    #[test]
    fn a_frame_is_its_slots() {
        let plan = small_plan();
        let source = octets(1, plan::source_octets(&plan));
        assert!(coded(&plan, MASK, START, &source) == slot_by_slot(&source));
    }

    #[test]
    fn the_second_slot_of_rate_1_goes_on_from_512() {
        let plan = plan::plan(&[(1, 1, 120)]);
        let source = octets(1, plan::source_octets(&plan));
        let frame = coded(&plan, 1 << 24, 1, &source);
        let (second, _) = code_slot(&of_rate(1), 1 << 24, 512, &source[1892..2 * 1892]);
        assert!(frame[5610..2 * 5610] == second);
    }

    /// Damages an octet of a slot and makes its parity anew.
    fn damage(frame: &mut [u8], number: usize, rate: usize, octet: usize) {
        let part = &mut frame[5610 * (number - 1)..5610 * number];
        part.copy_from_slice(&with_parity_anew(&of_rate(rate), &damaged(part, octet)));
    }

    #[test]
    fn a_damaged_slot_is_left_out_and_the_others_are_read() {
        let plan = small_plan();
        let source = octets(1, plan::source_octets(&plan));
        let mut frame = coded(&plan, MASK, START, &source);
        frame = damaged(&damaged(&frame, 0), 5610 * 32 - 1);
        damage(&mut frame, 7, 3, 0);
        damage(&mut frame, 11, 1, 1892 + 24);

        let (mut found, tables, mut positions) = (octets(9, source.len()), lent_tables(&plan), vec![13; SLOTS]);
        let [mut answers, mut stuff] = [octets(11, SLOTS), octets(12, SLOTS)];
        let number = read(&plan, MASK, START, &tables, &frame, &mut found, &mut answers, &mut stuff, &mut positions);
        assert_eq!(number, 0);
        let first = [PARITY_WRONG, 0, 0, 0, DUMMY, 0, BCH_WRONG, DUMMY, DUMMY, DUMMY];
        assert_eq!(answers, [first.as_slice(), &[0; 21], &[PARITY_WRONG], &[DUMMY; 88]].concat());
        // At rate 7 the lowest address of bit 0 is 521; the first bit of the last octet is the last but seven.
        let lowest = [[521].as_slice(), &[NO_POSITION; 30], &[29545 - 7], &[NO_POSITION; 88]].concat();
        assert_eq!(positions, lowest);
        let first = [NO_STUFF, 63, 63, 63, NO_STUFF, 63, NO_STUFF, NO_STUFF, NO_STUFF, NO_STUFF, 31];
        assert_eq!(stuff, [first.as_slice(), &[63; 20], &[NO_STUFF; 89]].concat());

        let (of_7, of_3) = (22 + 23 * 187, 22 + 15 * 187);
        let mut expected = octets(9, source.len());
        let (slots_2_to_6, slots_11_to_31) = (of_7..4 * of_7 + of_3, 4 * of_7 + 2 * of_3..source.len() - 1892);
        for read in [slots_2_to_6, slots_11_to_31] {
            expected[read.clone()].copy_from_slice(&source[read]);
        }
        assert!(found == expected);
    }

    /// The numbers of both calls whose source, frame, answers, stuff bits and positions are longer than their lengths by so
    /// much; a refusal changes none of them.
    fn refused(plan: &[Group], mask: u32, start: u32, tables: &[u16], longer: [usize; 5]) -> [u8; 2] {
        let lengths = [plan::source_octets(&small_plan()), OCTETS, SLOTS, SLOTS];
        let [source, frame, answers, stuff] = [0, 1, 2, 3].map(|k| octets(k as u64, lengths[k] + longer[k]));
        let [mut found, mut made, mut told, mut bits] = [source.clone(), frame.clone(), answers.clone(), stuff.clone()];
        let mut positions = vec![7; SLOTS + longer[4]];
        let coding = code(plan, mask, start, tables, &source, &mut made);
        let reading = read(plan, mask, start, tables, &frame, &mut found, &mut told, &mut bits, &mut positions);
        assert!(coding == 0 || made == frame);
        assert!(reading == 0 || [found, told, bits] == [source, answers, stuff]);
        assert!(reading == 0 || positions.iter().all(|&position| position == 7));
        [coding, reading]
    }

    #[test]
    fn refusals_in_their_order() {
        let (good, bad) = (small_plan(), plan::plan(&[(4, 7, 115)]));
        let tables = lent_tables(&good);
        let (short, above) = (&tables[1..], 1 << 25);
        assert_eq!(refused(&bad, above, 0, short, [1; 5]), [15, 15]);
        assert_eq!(refused(&good, above, START, short, [1; 5]), [6, 6]);
        assert_eq!(refused(&good, MASK, 0, short, [1; 5]), [6, 6]);
        assert_eq!(refused(&good, MASK, START, short, [1, 0, 0, 0, 0]), [4, 4]);
        assert_eq!(refused(&good, MASK, START, short, [0, 1, 0, 0, 0]), [4, 4]);
        assert_eq!(refused(&good, MASK, START, short, [0, 0, 1, 0, 0]), [5, 4]);
        assert_eq!(refused(&good, MASK, START, short, [0, 0, 0, 1, 0]), [5, 4]);
        assert_eq!(refused(&good, MASK, START, short, [0, 0, 0, 0, 1]), [5, 4]);
        assert_eq!(refused(&good, MASK, START, short, [0; 5]), [5, 5]);
        assert_eq!(refused(&good, MASK, START, &[&tables[..], &[1]].concat(), [0; 5]), [5, 5]);
        assert_eq!(refused(&good, MASK, START, &tables, [0; 5]), [0, 0]);
    }
}
