//! What rates and plans fix, beside the second implementation.
mod common;
use common::plans::{threes, Three};
use common::{faults, groups, rows, trials, Random};
use reference::packets::packets_of;
use reference::plan::{places, source_octets};
use reference::slot::message_bits;
use reference::tables::printed;
use s3frame::{Place, Plan, Rate, Refusal, SLOTS};

#[test]
fn every_rate_has_its_lengths_and_its_printed_table() {
    for rate in Rate::ALL {
        assert_eq!(Some(rate.packets()), packets_of(rate as usize));
        assert_eq!(rate.source_octets(), message_bits(rows(rate)) / 8);
        let table = printed([rate as usize]);
        assert_eq!((rate.table_entries(), rate.published_table()), (table.len(), table));
    }
}

/// Every slot's place is the second implementation's, and there is none before or behind them.
fn compare_places(plan: &Plan) {
    let groups: Vec<_> = plan.groups().collect();
    let expected = places(&common::groups(plan));
    assert_eq!(expected.len(), SLOTS);
    for (slot, theirs) in (1..).zip(expected) {
        let of = groups[theirs.group];
        let place = Place { group: theirs.group, modulation: of.modulation, rate: of.rate, data: theirs.data };
        assert_eq!(plan.place(slot), Ok(place));
    }
    assert_eq!([0, 121, 256, u16::MAX].map(|slot| plan.place(slot).err().map(Refusal::number)), [1, 3, 3, 3].map(Some));
}

#[test]
fn plans_of_chance() {
    let mut random = Random::new(71);
    for _ in 0..trials(200) {
        let plan = random.plan();
        assert_eq!(Plan::of_text(text_of(&threes(&plan)).as_bytes()), Ok(plan));
        assert_eq!(plan.source_octets(), source_octets(&groups(&plan)));
        let tables = printed(groups(&plan).iter().map(|group| group.rate));
        assert_eq!((plan.tables_entries(), plan.published_tables()), (tables.len(), tables));
        compare_places(&plan);
    }
}

/// The lines of groups.
fn text_of(groups: &[Three]) -> String {
    groups.iter().map(|[modulation, rate, slots]| format!("{modulation} {rate} {slots}\n")).collect()
}

/// The rules behind the number of groups that these break, by their refusals.
fn broken(groups: &[Three]) -> Vec<u8> {
    let wrong = |group: &Three| {
        !(1..=5).contains(&group[0]) || !(1..=11).contains(&group[1]) || group[2] == 0 || group[2] % 5 != 0
    };
    let value = groups.iter().any(wrong);
    let order = groups.windows(2).any(|two| two[0][..2] <= two[1][..2]);
    let total = groups.iter().map(|group| u32::from(group[2])).sum::<u32>() != 120;
    [(13, value), (14, order), (15, total)].into_iter().filter(|rule| rule.1).map(|rule| rule.0).collect()
}

/// Whether a text has room for these numbers.
fn fits_a_text(groups: &[Three]) -> bool {
    groups.iter().flatten().all(|&number| number < 1_000)
}

#[test]
fn broken_plans_are_refused_by_the_first_rule() {
    let mut random = Random::new(72);
    for faults in faults::choices(&[13, 14, 15], trials(120)) {
        let mut groups = threes(&random.plan());
        faults::break_groups(&mut random, &faults, &mut groups);
        let asked = [13, 14, 15].into_iter().filter(|&number| faults.has(number));
        assert!(asked.eq(broken(&groups)), "plan {groups:?} breaks the rules asked for, and no others");
        let number = Plan::of_text(text_of(&groups).as_bytes()).err().map_or(0, Refusal::number);
        let expected = if fits_a_text(&groups) { faults.first() } else { 1 };
        assert_eq!(number, u32::from(expected), "plan {groups:?}");
    }
}
