//! A plan's text: the plan that it says, and the list of it.
use crate::bindings::s3_plan;
use crate::common::plans::{threes, Three};
use crate::common::{trials, Counts, Random};
use crate::{answered, calls, compared, told};
use reference::plan::{self, Group};
use s3frame::Refusal;

/// A plan as our calls give it, zeros behind its groups.
pub fn raw(groups: &[Group]) -> s3_plan {
    let mut raw = s3_plan { count: groups.len() as u16, ..s3_plan::default() };
    for (place, group) in groups.iter().enumerate() {
        raw.modulation[place] = group.modulation as u16;
        raw.rate[place] = group.rate as u16;
        raw.slots[place] = group.slots as u16;
    }
    raw
}

/// The lines of groups.
fn text_of(groups: &[Three]) -> Vec<u8> {
    let line = |[modulation, rate, slots]: &Three| format!("{modulation} {rate} {slots}\n");
    groups.iter().map(line).collect::<String>().into_bytes()
}

/// Takes an octet out of a text, puts one in or changes one.
fn damage(random: &mut Random, text: &mut Vec<u8>) {
    let octet = [random.pick(b"0123459 \n\r-x\0"), random.next() as u8];
    let (at, octet) = (random.below(text.len()), random.pick(&octet));
    match random.below(3) {
        0 => drop(text.remove(at)),
        1 => text.insert(at, octet),
        _ => text[at] = octet,
    }
}

/// Groups of chance, whose numbers are small or of any three digits.
fn groups_of_chance(random: &mut Random) -> Vec<Three> {
    let limits = random.pick(&[[7, 13, 130], [6, 12, 1_000], [1_000; 3]]);
    (0..1 + random.below(9)).map(|_| limits.map(|limit| random.below(limit) as u16)).collect()
}

/// A text: of a plan, of a plan with other numbers, of groups of chance, damaged, with more lines, or of any octets.
fn text(random: &mut Random) -> Vec<u8> {
    let mut groups = threes(&random.plan());
    match random.below(8) {
        0 | 1 => text_of(&groups),
        2 => {
            let group = random.below(groups.len());
            groups[group][random.below(3)] = random.pick(&[0, 1, 5, 12, 120, 255, 256, 261, 376, 995, 999]);
            text_of(&groups)
        }
        3 => text_of(&groups_of_chance(random)),
        4 => text_of(&groups).repeat(1 + random.below(20)),
        5 => {
            let count = random.pick(&[0, 1, 127, 128, 129, 4_000]);
            random.octets(count)
        }
        _ => {
            let mut text = text_of(&groups);
            (0..=random.below(3)).for_each(|_| damage(random, &mut text));
            text
        }
    }
}

/// The area of the list behind what is written is left as found; that is so for a refusal's line, too.
#[test]
fn texts_of_chance() {
    let (mut random, mut kinds) = (Random::new(80), Counts::default());
    for _ in 0..trials(4_000) {
        let (text, found) = (text(&mut random), random.octets(512));
        let (read, expected) = (calls::plan_of_text(&text), plan::of_text(&text).map(|groups| raw(&groups)));
        kinds.add(Refusal::from_number(read.number.into()).map_or("accepted", Refusal::word));
        answered(read.number, (read.number, read.plan), told(expected, s3_plan::default()));
        let list = plan::list(&text);
        compared(
            0,
            &found,
            |area| {
                let area = <&mut [u8; 512]>::try_from(&mut area[..]).expect("512 octets");
                (0, calls::plan_list(&text, area))
            },
            |area| {
                area[..list.len()].copy_from_slice(list.as_bytes());
                (0, list.len())
            },
        );
    }
    kinds.are(&["accepted", "plan", "value", "order", "total"]);
}

/// The edges of what a text may be: 128 octets, eight lines, three digits.
#[test]
fn texts_at_the_edges() {
    let number = |text: &str| {
        let number = calls::plan_of_text(text.as_bytes()).number;
        assert_eq!(plan::of_text(text.as_bytes()).err().unwrap_or(0), number, "{text:?}");
        number
    };
    let eight: String = (4..12).rev().map(|rate| format!("5 {rate} 15\n")).collect();
    assert_eq!([number(&eight), number(&eight[..eight.len() - 1]), number(&eight[1..])], [0, 1, 1]);
    // 16 of these lines are 128 octets.
    assert_eq!([8, 9, 16, 17].map(|lines| number(&"1 1 105\n".repeat(lines))), [14, 1, 1, 1]);
    assert_eq!(["5 11 995\n", "5 11 999\n", "999 999 999\n", "5 11 1000\n"].map(number), [15, 13, 13, 1]);
    assert_eq!(["0 0 0\n", "00 0 0\n", "005 11 120\n", "5 11 120\n\n", "5 11 120"].map(number), [13, 1, 1, 1, 1]);
    assert_eq!(["", "\n", " 5 11 120\n", "5 11 120 \n", "5  11 120\n", "5 11\n"].map(number), [1; 6]);
}
