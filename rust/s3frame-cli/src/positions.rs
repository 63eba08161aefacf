//! What the picture of read frames shows of parity: how many slots failed first in each stretch of positions, whatever the
//! number of frames.
use s3frame::Place;

/// How many positions a stretch has: half of 374, which every rate's number of parity bits is a multiple of, so that no stretch
/// is shorter than another. The longest parity has 158 of them, which are six pixels wide each. All plans have the same, so
/// that their pictures can be compared.
pub const STRETCH: usize = 187;

/// Slots refused for their parity, counted by slot and by the stretch of the lowest failing position.
pub struct Positions {
    slots: Vec<Vec<u64>>,
}

impl Positions {
    /// None yet, of slots at these places. A dummy has no parity.
    pub fn new(places: &[Place]) -> Positions {
        let bits = |place: &Place| if place.data { place.rate.parity_bits() } else { 0 };
        Positions { slots: places.iter().map(|place| vec![0; bits(place) / STRETCH]).collect() }
    }

    /// Counts a slot, numbered from 1.
    pub fn add(&mut self, slot: usize, position: u16) {
        self.slots[slot - 1][usize::from(position) / STRETCH] += 1;
    }

    /// The counts of each slot, slot 1 first, by the stretches that its parity has.
    pub fn slots(&self) -> &[Vec<u64>] {
        &self.slots
    }

    /// The counts of all slots together, by the stretches of the longest parity.
    pub fn sums(&self) -> Vec<u64> {
        let longest = self.slots.iter().map(Vec::len).max().unwrap_or(0);
        (0..longest).map(|stretch| self.slots.iter().filter_map(|counts| counts.get(stretch)).sum()).collect()
    }
}

#[cfg(test)]
mod tests {
    use super::*;
    use crate::frames::places;
    use s3frame::{Plan, Rate};

    /// No positions yet, of slots 1 to 23 of rate 9/10 and slot 116 of rate 1/3; the others are dummies.
    fn positions() -> Positions {
        Positions::new(&places(&Plan::of_text(b"1 11 115\n1 1 5\n").expect("groups that fall")))
    }

    #[test]
    fn stretches_fill_the_parity_of_every_rate() {
        let stretches: Vec<usize> = Rate::ALL.iter().map(|rate| rate.parity_bits() / STRETCH).collect();
        assert_eq!(stretches, [158, 142, 118, 94, 78, 62, 54, 46, 38, 30, 22]);
        assert!(Rate::ALL.iter().all(|rate| rate.parity_bits() % STRETCH == 0));
    }

    #[test]
    fn a_slot_has_the_stretches_of_its_rate() {
        let positions = positions();
        let stretches = |slot: usize| positions.slots()[slot - 1].len();
        assert_eq!([1, 23, 24, 115, 116, 117, 120].map(stretches), [22, 22, 0, 0, 158, 0, 0]);
        assert_eq!(positions.sums(), [0; 158]);
    }

    #[test]
    fn slots_are_counted_by_stretch() {
        let mut positions = positions();
        for (slot, position) in [(1, 0), (1, 186), (1, 187), (2, 373), (23, 4_113), (116, 0), (116, 29_545)] {
            positions.add(slot, position);
        }
        let counted = |slot: usize| {
            let counts = positions.slots()[slot - 1].iter().enumerate().filter(|(_, count)| **count > 0);
            counts.map(|(stretch, count)| (stretch, *count)).collect::<Vec<(usize, u64)>>()
        };
        assert_eq!([1, 2].map(counted), [vec![(0, 2), (1, 1)], vec![(1, 1)]]);
        assert_eq!([23, 116].map(counted), [vec![(21, 1)], vec![(0, 1), (157, 1)]]);
        let sums = positions.sums();
        assert_eq!((&sums[..3], sums[21], sums[157], sums.iter().sum()), (&[3, 2, 0][..], 1, 1, 7u64));
    }
}
