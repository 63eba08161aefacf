//! The slot plan of document 002, 2.2.1.2 (1): which modulation and rate each of the 120 slots of a frame has, and which
//! slots carry data.
use crate::ldpc::ROWS;
use crate::slot::{message_bits, ORDER_WRONG, PLAN_WRONG, TOTAL_WRONG, VALUE_WRONG};

pub const SLOTS: usize = 120;

/// The slots given to a modulation, numbered by its bits in a symbol, and a rate, numbered from 1, dummies included.
#[derive(Clone, Copy, Debug, PartialEq)]
pub struct Group {
    pub modulation: usize,
    pub rate: usize,
    pub slots: usize,
}

impl Group {
    /// How many rows the group's parity table has.
    pub fn rows(&self) -> usize {
        ROWS[self.rate - 1]
    }

    /// How many octets header and data of one of its slots have.
    pub fn source_octets(&self) -> usize {
        message_bits(self.rows()) / 8
    }

    /// Table 2.2.1-2: of five slots as many carry data as a symbol has bits.
    fn data_slots(&self) -> usize {
        self.slots * self.modulation / 5
    }

    fn known(&self) -> bool {
        (1..=5).contains(&self.modulation) && (1..=11).contains(&self.rate)
    }

    fn whole_fives(&self) -> bool {
        self.slots > 0 && self.slots % 5 == 0
    }
}

/// What a slot is: one of the plan's groups, counted from 0, and whether it carries data or is a dummy.
#[derive(Clone, Copy, Debug, PartialEq)]
pub struct Place {
    pub group: usize,
    pub data: bool,
}

/// A plan of groups given as modulation, rate and slots.
pub fn plan(groups: &[(usize, usize, usize)]) -> Vec<Group> {
    groups.iter().map(|&(modulation, rate, slots)| Group { modulation, rate, slots }).collect()
}

/// Whether the groups stand in the order of 2.2.1.2 (1): higher modulation first, then higher rate, and no two alike.
fn falls(plan: &[Group]) -> bool {
    plan.windows(2).all(|two| (two[0].modulation, two[0].rate) > (two[1].modulation, two[1].rate))
}

/// The refusal of the first rule that is broken somewhere in the plan (document 02, N1).
pub fn accept(plan: &[Group]) -> Result<(), u8> {
    if !(1..=8).contains(&plan.len()) {
        Err(PLAN_WRONG)
    } else if !plan.iter().all(|group| group.known() && group.whole_fives()) {
        Err(VALUE_WRONG)
    } else if !falls(plan) {
        Err(ORDER_WRONG)
    } else if plan.iter().map(|group| group.slots).sum::<usize>() != SLOTS {
        Err(TOTAL_WRONG)
    } else {
        Ok(())
    }
}

/// The places of an accepted plan's slots, slot 1 first: in each group data comes before dummies.
pub fn places(plan: &[Group]) -> Vec<Place> {
    let of_group = |(group, has): (usize, &Group)| {
        let (slots, data_slots) = (has.slots, has.data_slots());
        (0..slots).map(move |slot| Place { group, data: slot < data_slots })
    };
    plan.iter().enumerate().flat_map(of_group).collect()
}

/// How many octets the headers and data of an accepted plan's data slots have.
pub fn source_octets(plan: &[Group]) -> usize {
    plan.iter().map(|group| group.data_slots() * group.source_octets()).sum()
}

/// The octets that a plan's text has at most.
const TEXT_OCTETS: usize = 128;

/// A number of 1 to 3 digits, without a leading zero but in 0 itself.
fn number_of(word: &str) -> Option<usize> {
    let digits = (1..=3).contains(&word.len()) && word.bytes().all(|octet| octet.is_ascii_digit());
    if digits && (word == "0" || !word.starts_with('0')) { word.parse().ok() } else { None }
}

/// The group of a line, one space between its numbers.
fn group_of(line: &str) -> Option<Group> {
    match line.split(' ').map(number_of).collect::<Option<Vec<usize>>>()?[..] {
        [modulation, rate, slots] => Some(Group { modulation, rate, slots }),
        _ => None,
    }
}

/// The groups of a text, with a line feed after each line.
fn groups_of(text: &[u8]) -> Option<Vec<Group>> {
    let text = std::str::from_utf8(text).ok().filter(|text| text.len() <= TEXT_OCTETS)?;
    text.strip_suffix('\n')?.split('\n').map(group_of).collect()
}

/// The plan that a text says.
pub fn of_text(text: &[u8]) -> Result<Vec<Group>, u8> {
    let groups = groups_of(text).ok_or(PLAN_WRONG)?;
    accept(&groups)?;
    Ok(groups)
}

/// What program plan-list prints for a text.
pub fn list(text: &[u8]) -> String {
    let plan = match of_text(text) {
        Ok(plan) => plan,
        Err(number) => return format!("refused {number}\n"),
    };
    let (mut list, mut before) = ("first last mod rate kind\n".to_string(), 0);
    for group in &plan {
        let (data, Group { modulation, rate, slots }) = (group.data_slots(), group);
        for (count, kind) in [(data, "data"), (slots - data, "dummy")].into_iter().filter(|run| run.0 > 0) {
            list += &format!("{} {} {modulation} {rate} {kind}\n", before + 1, before + count);
            before += count;
        }
    }
    let data: usize = plan.iter().map(Group::data_slots).sum();
    list + &format!("total {data} data {} dummy\n", SLOTS - data)
}

#[cfg(test)]
mod tests {
    use super::*;

    fn number(groups: &[(usize, usize, usize)]) -> u8 {
        accept(&plan(groups)).err().unwrap_or(0)
    }

    #[test]
    fn counts_are_fives_that_add_to_120() {
        assert_eq!(number(&[(4, 7, 115), (2, 3, 5)]), 0);
        assert_eq!(number(&[(4, 7, 115)]), 15);
        assert_eq!(number(&[(4, 7, 116), (2, 3, 4)]), 13);
        assert_eq!(number(&[(4, 7, 120), (2, 3, 0)]), 13);
        assert_eq!(number(&[(4, 7, 120), (2, 3, 5)]), 15);
        assert_eq!([number(&[(4, 7, 995)]), number(&[(4, 7, 996)])], [15, 13]);
    }

    #[test]
    fn texts_of_the_form_of_document_01() {
        assert_eq!(of_text(b"4 7 115\n2 3 5\n"), Ok(plan(&[(4, 7, 115), (2, 3, 5)])));
        let number = |text: &str| of_text(text.as_bytes()).err().unwrap_or(0);
        assert_eq!(["", "\n", "4 7 115", "4 7 115\n\n", "4 7\n", "4 7 115 \n", "4  7 115\n"].map(number), [1; 7]);
        assert_eq!(["04 7 120\n", "4 7 0115\n", "4 7 1000\n", "4 7 +20\n", "4 7 120\r\n"].map(number), [1; 5]);
        assert_eq!(["0 0 0\n", "4 7 999\n", "4 7 115\n"].map(number), [13, 13, 15]);
        assert_eq!([9, 16, 17].map(|lines| number(&"4 7 115\n".repeat(lines))), [1; 3]);
        assert_eq!(number(&"4 7 115\n".repeat(8)), 14);
        assert_eq!(of_text(b"4 7 \xff\n"), Err(1));
    }

    #[test]
    fn the_list_of_document_01() {
        let listed = "first last mod rate kind\n1 92 4 7 data\n93 115 4 7 dummy\n116 117 2 3 data\n118 120 2 3 dummy\n";
        assert_eq!(list(b"4 7 115\n2 3 5\n"), format!("{listed}total 94 data 26 dummy\n"));
        assert_eq!(list(b"5 1 120\n"), "first last mod rate kind\n1 120 5 1 data\ntotal 120 data 0 dummy\n");
        assert_eq!([list(b""), list(b"4 7 115\n")], ["refused 1\n", "refused 15\n"]);
    }

    #[test]
    fn from_one_group_to_eight() {
        let groups: Vec<_> = (1..=9).rev().map(|rate| (1, rate, 10)).collect();
        assert_eq!(number(&[&groups[..7], &[(1, 1, 50)]].concat()), 0);
        assert_eq!(number(&[&groups[..8], &[(1, 1, 40)]].concat()), 1);
        assert_eq!(number(&[]), 1);
    }

    #[test]
    fn modulation_and_rate_are_known() {
        assert_eq!([number(&[(1, 1, 120)]), number(&[(5, 11, 120)])], [0, 0]);
        assert_eq!([number(&[(0, 1, 120)]), number(&[(6, 1, 120)])], [13, 13]);
        assert_eq!([number(&[(1, 0, 120)]), number(&[(1, 12, 120)])], [13, 13]);
        assert_eq!(number(&[(5, 11, 60), (4, 1, 55), (3, 12, 5)]), 13);
    }

    #[test]
    fn groups_fall_strictly() {
        assert_eq!(number(&[(2, 3, 5), (4, 7, 115)]), 14);
        assert_eq!(number(&[(4, 3, 5), (4, 7, 115)]), 14);
        assert_eq!(number(&[(4, 7, 5), (4, 7, 115)]), 14);
        assert_eq!(number(&[(5, 1, 60), (2, 3, 5), (4, 7, 55)]), 14);
        assert_eq!(number(&[(4, 7, 5), (4, 3, 115)]), 0);
        assert_eq!(number(&[(4, 3, 5), (2, 7, 115)]), 0);
    }

    #[test]
    fn the_first_rule_that_is_broken() {
        let nine = |rate: fn(usize) -> usize, last| {
            let eight = (0..8).map(|k| (1, rate(k), 10));
            number(&eight.chain([(1, rate(8), last)]).collect::<Vec<_>>())
        };
        assert_eq!(nine(|k| 12 - k, 40), 1, "nine groups, and rate 12");
        assert_eq!(nine(|k| 1 + k, 40), 1, "nine groups that rise");
        assert_eq!(nine(|k| 11 - k, 45), 1, "nine groups, and a total of 125");
        assert_eq!(number(&[(2, 3, 4), (4, 7, 116)]), 13, "values, and groups that rise");
        assert_eq!(number(&[(4, 12, 115)]), 13, "values, and a total of 115");
        assert_eq!(number(&[(2, 3, 5), (4, 7, 110)]), 14, "groups that rise, and a total of 115");
    }

    #[test]
    fn the_dummies_of_document_01() {
        let places = places(&plan(&[(4, 7, 115), (2, 3, 5)]));
        let run = |first: usize, last: usize, group, data| {
            assert!(places[first - 1..last].iter().all(|place| *place == Place { group, data }));
        };
        assert_eq!(places.len(), SLOTS);
        run(1, 92, 0, true);
        run(93, 115, 0, false);
        run(116, 117, 1, true);
        run(118, 120, 1, false);
    }

    #[test]
    fn headers_and_data_lie_end_to_end() {
        assert_eq!(source_octets(&plan(&[(4, 7, 115), (2, 3, 5)])), 92 * (22 + 23 * 187) + 2 * (22 + 15 * 187));
        assert_eq!(source_octets(&plan(&[(5, 11, 120)])), 120 * (22 + 27 * 187));
    }
}
