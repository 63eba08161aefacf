//! The slot plan of a frame.
use crate::bindings::s3_plan;
use crate::lengths::LIST_OCTETS;
use crate::refusal::answer;
use crate::{calls, Modulation, Rate, Refusal};

/// Slots of a frame for one modulation and rate, dummies included.
#[derive(Clone, Copy, Debug, PartialEq, Eq, Hash)]
pub struct Group {
    /// The modulation of its slots.
    pub modulation: Modulation,
    /// The rate of its slots.
    pub rate: Rate,
    /// A positive multiple of 5.
    pub slots: u16,
}

/// What a slot of a plan is.
#[derive(Clone, Copy, Debug, PartialEq, Eq, Hash)]
pub struct Place {
    /// Which of the plan's groups it belongs to, from 0.
    pub group: usize,
    /// The modulation of the group.
    pub modulation: Modulation,
    /// The rate of the group.
    pub rate: Rate,
    /// Whether it carries data; else it is a dummy.
    pub data: bool,
}

/// An accepted plan: 1 to 8 groups, higher modulation first, then higher rate, whose slots add to 120.
///
/// What stands behind the groups in use is zeros, so that plans are equal where their groups are.
#[derive(Clone, Copy, Debug, PartialEq, Eq, Hash)]
pub struct Plan(pub(crate) s3_plan);

impl Plan {
    /// The plan of these groups.
    ///
    /// Refused, by the first rule that is broken: [`Refusal::Plan`] (no groups, or more than 8), [`Refusal::Value`],
    /// [`Refusal::Order`], [`Refusal::Total`].
    pub fn new(groups: &[Group]) -> Result<Plan, Refusal> {
        // Any count above 8 is refused as such.
        let mut plan = s3_plan { count: groups.len().try_into().unwrap_or(u16::MAX), ..s3_plan::default() };
        for (place, group) in (0..plan.slots.len()).zip(groups) {
            plan.modulation[place] = group.modulation as u16;
            plan.rate[place] = group.rate as u16;
            plan.slots[place] = group.slots;
        }
        // Every accepted plan has a slot 1, so that asking for its place asks of the plan alone.
        answer(calls::place(plan, 1).number).map(|()| Plan(plan))
    }

    /// The plan that a text says: for each group a line of modulation, rate and slots, 1 to 3 digits each without a leading
    /// zero, one space between them and a line feed behind them; 128 octets at most.
    ///
    /// Refused as [`Plan::new`] is; a text of another form is [`Refusal::Plan`].
    ///
    /// ```
    /// use s3frame::{Group, Modulation, Plan, Rate, Refusal};
    ///
    /// let groups = [
    ///     Group { modulation: Modulation::Apsk16, rate: Rate::R7_9, slots: 115 },
    ///     Group { modulation: Modulation::Qpsk, rate: Rate::R1_2, slots: 5 },
    /// ];
    /// assert_eq!(Plan::of_text(b"4 7 115\n2 3 5\n"), Plan::new(&groups));
    /// assert_eq!(Plan::of_text(b"4 7 115\n"), Err(Refusal::Total));
    /// ```
    pub fn of_text(text: &[u8]) -> Result<Plan, Refusal> {
        let read = calls::plan_of_text(text);
        answer(read.number).map(|()| Plan(read.plan))
    }

    /// The groups in their order.
    pub fn groups(&self) -> impl Iterator<Item = Group> {
        let s3_plan { count, modulation: modulations, rate: rates, slots } = self.0;
        (0..count.into()).map(move |group: usize| Group {
            modulation: modulation(modulations[group].into()),
            rate: rate(rates[group].into()),
            slots: slots[group],
        })
    }

    /// What a slot, counted from 1, is.
    ///
    /// Refused: [`Refusal::Plan`] (slot number 0), [`Refusal::Full`] (above 120).
    pub fn place(&self, slot: u16) -> Result<Place, Refusal> {
        let placed = calls::place(self.0, slot.into());
        answer(placed.number)?;
        let place = placed.place;
        let (modulation, rate) = (modulation(place.modulation), rate(place.rate));
        Ok(Place { group: place.group, modulation, rate, data: place.carries })
    }

    /// The octets of header and data of all data slots, which lie end to end in the source of a whole frame.
    pub fn source_octets(&self) -> usize {
        calls::source_octets(self.0)
    }

    /// The entries of the groups' published parity tables.
    pub fn tables_entries(&self) -> usize {
        calls::tables_entries(self.0)
    }

    /// The published parity tables of the groups, in group order, as whole-frame calls take them.
    pub fn published_tables(&self) -> Vec<u16> {
        let mut tables = vec![0; self.tables_entries()];
        answer(calls::published_tables(self.0, &mut tables)).expect("an accepted plan, and an area of its tables");
        tables
    }
}

/// The list of the plan that a text says, as octets: a line of column names; for each run of data slots and of dummies its
/// first and last slot, modulation, rate and kind; and the sums. Where [`Plan::of_text`] refuses the text, it is the line
/// `refused` with the refusal's number, alone.
pub fn plan_list(text: &[u8]) -> Vec<u8> {
    let mut list = [0; LIST_OCTETS];
    let written = calls::plan_list(text, &mut list);
    list[..written].to_vec()
}

fn modulation(number: u32) -> Modulation {
    Modulation::from_number(number).expect("an accepted plan has known modulations")
}

fn rate(number: u32) -> Rate {
    Rate::from_number(number).expect("an accepted plan has known rates")
}

#[cfg(test)]
mod tests {
    use super::*;

    const WORKED: [Group; 2] = [
        Group { modulation: Modulation::Apsk16, rate: Rate::R7_9, slots: 115 },
        Group { modulation: Modulation::Qpsk, rate: Rate::R1_2, slots: 5 },
    ];

    #[test]
    fn a_plan_keeps_its_groups() {
        let plan = Plan::new(&WORKED).expect("a plan of document 01");
        assert_eq!(Plan::of_text(b"4 7 115\n2 3 5\n"), Ok(plan));
        assert!(plan.groups().eq(WORKED));
        assert_eq!(plan.source_octets(), 92 * (22 + 23 * 187) + 2 * (22 + 15 * 187));
        assert_eq!([plan.tables_entries(), plan.published_tables().len()], [471 + 356; 2]);
    }

    #[test]
    fn plans_that_break_a_rule_are_refused() {
        let group = |rate: &Rate| Group { modulation: Modulation::Bpsk, rate: *rate, slots: 10 };
        let nine: Vec<Group> = Rate::ALL[..9].iter().rev().map(group).collect();
        let rising = [WORKED[1], WORKED[0]];
        let no_fives = [Group { slots: 116, ..WORKED[0] }, Group { slots: 4, ..WORKED[1] }];
        for (groups, refusal) in [
            (&[][..], Refusal::Plan),
            (&nine, Refusal::Plan),
            (&no_fives, Refusal::Value),
            (&rising, Refusal::Order),
            (&WORKED[..1], Refusal::Total),
            (&nine[..8], Refusal::Total),
        ] {
            assert_eq!(Plan::new(groups), Err(refusal));
        }
        assert_eq!(Plan::new(&vec![WORKED[0]; 65_536 + 1]), Err(Refusal::Plan));
        for text in ["", "5 11\n", "5 11 120", "5 11 0120\n", "5 11 120\n\n"] {
            assert_eq!(Plan::of_text(text.as_bytes()), Err(Refusal::Plan), "{text:?}");
        }
        for text in ["6 11 120\n", "5 12 120\n", "0 0 0\n"] {
            assert_eq!(Plan::of_text(text.as_bytes()), Err(Refusal::Value), "{text:?}");
        }
    }

    #[test]
    fn the_list_of_document_01() {
        let lines = [
            "first last mod rate kind",
            "1 92 4 7 data",
            "93 115 4 7 dummy",
            "116 117 2 3 data",
            "118 120 2 3 dummy",
            "total 94 data 26 dummy",
        ];
        assert_eq!(plan_list(b"4 7 115\n2 3 5\n"), format!("{}\n", lines.join("\n")).as_bytes());
        assert_eq!(plan_list(b"4 7 115\n"), b"refused 15\n");
        assert_eq!(plan_list(b""), b"refused 1\n");
    }

    #[test]
    fn places_of_document_01() {
        let plan = Plan::new(&WORKED).expect("a plan of document 01");
        let place = |group: usize, data| {
            let Group { modulation, rate, .. } = WORKED[group];
            Ok(Place { group, modulation, rate, data })
        };
        let expected = |group| [place(group, true), place(group, true), place(group, false), place(group, false)];
        assert_eq!([1, 92, 93, 115].map(|slot| plan.place(slot)), expected(0));
        assert_eq!([116, 117, 118, 120].map(|slot| plan.place(slot)), expected(1));
        assert_eq!([0, 121].map(|slot| plan.place(slot)), [Err(Refusal::Plan), Err(Refusal::Full)]);
    }
}
