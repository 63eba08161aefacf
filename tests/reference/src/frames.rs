//! Lines of whole frames to compare: coded, read back, and read when damaged.
use crate::frame;
use crate::plan::{self, Group, SLOTS};
use crate::samples::{digest, octets, MASK, START};
use crate::slot;
use crate::tables::printed;
use crate::vectors::damaged;

/// Each rate in a frame without dummies; document 01's worked plan; eight groups of all modulations; and most dummies.
fn plans() -> Vec<Vec<Group>> {
    let mut plans: Vec<_> = (1..=11).map(|rate| plan::plan(&[(5, rate, 120)])).collect();
    plans.push(plan::plan(&[(4, 7, 115), (2, 3, 5)]));
    let eight = [(5, 11, 20), (5, 7, 10), (4, 7, 30), (3, 5, 20), (3, 1, 15), (2, 3, 10), (1, 9, 10), (1, 1, 5)];
    plans.push(plan::plan(&eight));
    plans.push(plan::plan(&[(1, 3, 120)]));
    plans
}

fn lent_tables(plan: &[Group]) -> Vec<u16> {
    printed(plan.iter().map(|group| group.rate))
}

/// The number of coding a source, and the frame's area after it, which is filled before so that dummies show.
fn coded_frame(plan: &[Group], source: &[u8]) -> (u8, Vec<u8>) {
    let mut area = octets(7, frame::OCTETS);
    let number = frame::code(plan, MASK, START, &lent_tables(plan), source, &mut area);
    (number, area)
}

/// The number of reading a frame, and the areas of answers, stuff bits and source after it, and that of positions, all filled
/// before.
fn read_frame(plan: &[Group], coded: &[u8]) -> (u8, [Vec<u8>; 3], Vec<u16>) {
    let (tables, mut positions) = (lent_tables(plan), vec![11; SLOTS]);
    let (mut answers, mut stuff, mut source) = (vec![11; SLOTS], vec![11; SLOTS], octets(9, plan::source_octets(plan)));
    let number = frame::read(plan, MASK, START, &tables, coded, &mut source, &mut answers, &mut stuff, &mut positions);
    (number, [answers, stuff, source], positions)
}

/// The slots that are damaged, be they data slots or dummies.
const DAMAGED: [usize; 3] = [1, 50, 120];

/// A frame with their first bits turned round.
fn damaged_frame(coded: &[u8]) -> Vec<u8> {
    DAMAGED.iter().fold(coded.to_vec(), |frame, number| damaged(&frame, slot::OCTETS * (number - 1)))
}

fn print_read(title: &str, plan: &[Group], coded: &[u8]) {
    let (number, areas, positions) = read_frame(plan, coded);
    let [answers, stuff, source] = areas.map(|octets| digest(&octets));
    let [first, middle, last] = DAMAGED.map(|number| positions[number - 1]);
    println!("{title} read {number} answers {answers} stuff {stuff} positions {first} {middle} {last} digest {source}");
}

fn print_frame(number: u64, plan: &[Group]) {
    let title = format!("frame {number}");
    let source = octets(1000 + number, plan::source_octets(plan));
    let (number, coded) = coded_frame(plan, &source);
    println!("{title} coded {number} digest {}", digest(&coded));
    print_read(&title, plan, &coded);
    print_read(&format!("{title} damaged"), plan, &damaged_frame(&coded));
}

pub fn print() {
    for (number, plan) in (1..).zip(plans()) {
        print_frame(number, &plan);
    }
}

#[cfg(test)]
mod tests {
    use super::*;
    use crate::ldpc;
    use crate::slot::{DUMMY, NO_POSITION, NO_STUFF, PARITY_WRONG};
    use crate::tables::tables;

    #[test]
    fn the_plans_are_accepted() {
        let plans = plans();
        assert_eq!(plans.len(), 14);
        assert!(plans.iter().all(|plan| plan::accept(plan).is_ok()));
    }

    /// The lowest position that bit 0 of a slot of a rate reaches.
    fn reached_by_bit_0(rate: usize) -> u16 {
        let table = &tables()[rate - 1];
        let positions = table[0].iter().map(|&address| ldpc::position(table.len(), address, 0));
        positions.min().expect("a row has addresses") as u16
    }

    /// The answers and the source read of a frame whose slots were sent with six ones; of a damaged one bit 0 alone is wrong.
    fn answers_and_source(plan: &[Group], coded: &[u8]) -> (Vec<u8>, Vec<u8>) {
        let (number, [answers, stuff, source], positions) = read_frame(plan, coded);
        assert_eq!(number, 0);
        let ones = |answer: &u8| if *answer == 0 { 63 } else { NO_STUFF };
        assert_eq!(stuff, answers.iter().map(ones).collect::<Vec<_>>());
        let lowest = reached_by_bit_0(plan[0].rate);
        let position = |answer: &u8| if *answer == PARITY_WRONG { lowest } else { NO_POSITION };
        assert_eq!(positions, answers.iter().map(position).collect::<Vec<_>>());
        (answers, source)
    }

    /// The answers of a frame as coded, whose source must come back, and of the damaged one.
    fn answers(plan: &[Group]) -> [Vec<u8>; 2] {
        let source = octets(1, plan::source_octets(plan));
        let (number, coded) = coded_frame(plan, &source);
        assert_eq!(number, 0);
        let (answers, found) = answers_and_source(plan, &coded);
        assert!(found == source);
        let (when_damaged, found) = answers_and_source(plan, &damaged_frame(&coded));
        assert!(found != source);
        [answers, when_damaged]
    }

    /// One rate is run, so that the test is short; that no slot is a dummy holds of all.
    #[test]
    fn a_32apsk_frame_has_no_dummies_and_shows_each_damage() {
        assert!(plans()[..11].iter().all(|plan| plan::places(plan).iter().all(|place| place.data)));
        let [whole, damaged] = answers(&plans()[0]);
        assert_eq!(whole, [0; SLOTS]);
        let wrong: Vec<usize> = (1..=SLOTS).filter(|number| damaged[number - 1] == PARITY_WRONG).collect();
        assert_eq!(wrong, [1, 50, 120]);
        assert_eq!(damaged.iter().filter(|&&answer| answer == 0).count(), 117);
    }

    #[test]
    fn a_bpsk_frame_shows_no_damage_of_its_dummies() {
        let [whole, damaged] = answers(&plans()[13]);
        assert_eq!(whole, [[0; 24].as_slice(), &[DUMMY; 96]].concat());
        assert_eq!(damaged, [[PARITY_WRONG].as_slice(), &[0; 23], &[DUMMY; 96]].concat());
    }
}
