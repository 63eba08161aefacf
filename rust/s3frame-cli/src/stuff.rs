//! Accepted slots whose six stuff bits are not all ones, as generators of other makers send them.
use crate::runs::runs;
use serde::Serialize;
use std::fmt::{self, Display};

/// Stuff bits as a number from 0 to 63, the first bit the highest, and the slots of a frame that have them, from 1.
#[derive(Debug, PartialEq, Eq, Serialize)]
pub struct StuffSlots {
    stuff: u8,
    slots: Vec<usize>,
}

impl StuffSlots {
    /// Adds a slot to those with its stuff bits, in a list that goes up by their numbers.
    pub fn add(list: &mut Vec<StuffSlots>, stuff: u8, slot: usize) {
        let place = list.binary_search_by_key(&stuff, |of| of.stuff).unwrap_or_else(|place| {
            list.insert(place, StuffSlots { stuff, slots: Vec::new() });
            place
        });
        list[place].slots.push(slot);
    }
}

/// As `stuff 62 slots 5,7-9`.
impl Display for StuffSlots {
    fn fmt(&self, to: &mut fmt::Formatter) -> fmt::Result {
        let run = |(first, last)| if first == last { format!("{first}") } else { format!("{first}-{last}") };
        let runs: Vec<String> = runs(&self.slots).into_iter().map(run).collect();
        write!(to, "stuff {} slots {}", self.stuff, runs.join(","))
    }
}

#[cfg(test)]
mod tests {
    use super::*;

    /// The list of slots with their stuff bits.
    fn list(found: &[(usize, u8)]) -> Vec<StuffSlots> {
        let mut list = Vec::new();
        found.iter().for_each(|(slot, stuff)| StuffSlots::add(&mut list, *stuff, *slot));
        list
    }

    #[test]
    fn a_line_for_each_number_in_their_order() {
        let list = list(&[(2, 62), (3, 0), (5, 62), (6, 31), (7, 62), (8, 62), (9, 62), (119, 0), (120, 0)]);
        let lines: Vec<String> = list.iter().map(StuffSlots::to_string).collect();
        assert_eq!(lines, ["stuff 0 slots 3,119-120", "stuff 31 slots 6", "stuff 62 slots 2,5,7-9"]);
    }

    #[test]
    fn programs_get_every_slot() {
        let text = |list: &[StuffSlots]| serde_json::to_string(list).expect("numbers can be written");
        assert_eq!(text(&list(&[(5, 62), (7, 62), (8, 62)])), r#"[{"stuff":62,"slots":[5,7,8]}]"#);
        assert_eq!(text(&[]), "[]");
    }
}
