//! Inputs that are wrong in a way that a refusal names.
use super::plans::{Handed, Three};
use super::{lent, rows, Random};
use reference::ldpc::GROUP;
use reference::tables::taken;
use s3frame::{Rate, MOST_GROUPS, PACKET_OCTETS};

/// Where the numbers of a group stand.
const MODULATION: usize = 0;
const RATE: usize = 1;
const SLOTS: usize = 2;

/// What is wrong with the inputs of one call, by the numbers of refusals in the order in which the call tests them.
pub struct Faults(Vec<u8>);

impl Faults {
    pub fn has(&self, number: u8) -> bool {
        self.0.contains(&number)
    }

    /// The number that the call must answer.
    pub fn first(&self) -> u8 {
        self.0.first().copied().unwrap_or(0)
    }
}

/// Every choice among the numbers of a call, nothing wrong among them, so many times.
pub fn choices(numbers: &[u8], times: usize) -> Vec<Faults> {
    let choice = |set: usize| {
        let kept = numbers.iter().enumerate().filter(|(k, _)| set >> k & 1 == 1);
        Faults(kept.map(|(_, &number)| number).collect())
    };
    (0..times).flat_map(|_| (0..1 << numbers.len()).map(choice)).collect()
}

/// Every choice among the four refusals of a plan and the numbers of a call behind them.
pub fn plan_choices(behind: &[u8], times: usize) -> Vec<Faults> {
    choices(&[&[1, 13, 14, 15], behind].concat(), times)
}

/// A number of a call alone, and in a pair with each of the call's others.
pub fn pairs_with(number: u8, numbers: &[u8]) -> Vec<Faults> {
    let pair = |&other: &u8| Faults(numbers.iter().copied().filter(|one| [number, other].contains(one)).collect());
    numbers.iter().map(pair).collect()
}

/// 1, 13, 14 and 15: a plan that breaks the rules asked for, made of one that keeps them all.
pub fn break_plan(random: &mut Random, faults: &Faults, plan: &mut Handed) {
    break_rules(random, faults, plan);
    if faults.has(1) {
        break_count(random, plan);
    }
}

/// The same, with slot number 0 as another way to 1.
pub fn break_plan_or_slot(random: &mut Random, faults: &Faults, plan: &mut Handed, slot: &mut u16) {
    break_rules(random, faults, plan);
    if faults.has(1) {
        match random.below(5) {
            0 => *slot = 0,
            _ => break_count(random, plan),
        }
    }
}

/// 13, 14 and 15, each without breaking a rule that is not asked for, or mending one that is.
fn break_rules(random: &mut Random, faults: &Faults, plan: &mut Handed) {
    break_groups(random, faults, &mut plan.groups);
    plan.count = plan.groups.len() as u16;
}

/// The same of groups by themselves.
pub fn break_groups(random: &mut Random, faults: &Faults, groups: &mut Vec<Three>) {
    if faults.has(15) {
        break_total(random, groups);
    }
    if faults.has(13) {
        break_value(random, groups);
    }
    if faults.has(14) {
        break_order(random, groups);
    }
}

/// 1: no groups, or more than eight, also a number that is right in its low octet.
fn break_count(random: &mut Random, plan: &mut Handed) {
    plan.count = random.pick(&[0, 9, 10, 255, 256, 256 + plan.count, 1 << 15 | plan.count, u16::MAX]);
}

/// 15: a group less, or slots less or more, in fives.
fn break_total(random: &mut Random, groups: &mut Vec<Three>) {
    let group = random.below(groups.len());
    match random.below(4) {
        0 if groups.len() > 1 => drop(groups.pop()),
        1 if groups[group][SLOTS] > 5 => groups[group][SLOTS] -= 5,
        2 if groups.len() > 5 => wrap_total(groups),
        _ => groups[group][SLOTS] += random.pick(&[5, 10, 130, 65_280]),
    }
}

/// Five times 65,536 slots more, which six groups have room for: a total that is right in 16 bits.
fn wrap_total(groups: &mut [Three]) {
    let mut more = 5 * 65_536;
    for group in groups {
        let added = more.min(65_535 - usize::from(group[SLOTS]));
        group[SLOTS] += added as u16;
        more -= added;
    }
}

/// 13: an unknown modulation or rate in the first or last group, so that groups fall as before; or slots of no fives, or none,
/// whose total is as before.
fn break_value(random: &mut Random, groups: &mut [Three]) {
    let last = groups.len() - 1;
    let room = last > 0 && groups[0][SLOTS] < 1_000 && groups[last][SLOTS] < 1_000;
    match random.below(6) {
        0 => groups[last][MODULATION] = 0,
        1 => groups[last][RATE] = 0,
        2 => groups[0][RATE] = random.pick(&[12, 255, 256 + groups[0][RATE], u16::MAX]),
        3 if room => {
            groups[0][SLOTS] += 1;
            groups[last][SLOTS] -= 1;
        }
        4 if room => {
            groups[0][SLOTS] += groups[last][SLOTS];
            groups[last][SLOTS] = 0;
        }
        _ => groups[0][MODULATION] = random.pick(&[6, 255, 256 + groups[0][MODULATION], u16::MAX]),
    }
}

/// 14: five slots of a group as another group alike, or two neighbours exchanged.
fn break_order(random: &mut Random, groups: &mut Vec<Three>) {
    let group = random.below(groups.len());
    let one_more = groups.len() < MOST_GROUPS && groups[group][SLOTS] > 5 && random.chance(2);
    if one_more || groups.len() == 1 {
        groups[group][SLOTS] -= 5;
        let alike = [groups[group][MODULATION], groups[group][RATE], 5];
        groups.insert(group, alike);
    } else {
        let first = group.min(groups.len() - 2);
        groups.swap(first, first + 1);
    }
}

/// 1: a modulation or rate that is unknown, also one that is known in its low octet.
pub fn unknown(random: &mut Random, known: &mut u32, count: u32) {
    *known = random.pick(&[0, count + 1, 255, 256 + *known, 65_536 + *known, 1 << 31 | *known, u32::MAX]);
}

/// 3: a slot number behind the last, also one that is a slot's in its low octet.
pub fn past_slot(random: &mut Random, slot: &mut u16) {
    *slot = random.pick(&[121, 122, 255, 256, 256 + *slot, u16::MAX]);
}

/// 6: a start, or a register in a state, that is 0 or too wide.
pub fn break_register(random: &mut Random, width: u32, register: &mut u32) {
    *register = random.pick(&[0, 1 << width, 1 << width | *register, 1 << 31 | *register, u32::MAX]);
}

/// 6: a mask that is too wide or lacks the top weight.
pub fn break_mask(random: &mut Random, width: u32, mask: &mut u32) {
    let top = 1 << (width - 1);
    *mask = random.pick(&[0, *mask ^ top, 1 << width, 1 << width | *mask, 1 << 31 | *mask, u32::MAX]);
}

/// 6: one of mask and start.
pub fn break_settings(random: &mut Random, width: u32, mask: &mut u32, start: &mut u32) {
    match random.below(2) {
        0 => break_mask(random, width, mask),
        _ => break_register(random, width, start),
    }
}

/// 4: an area of another length.
pub fn break_length<T: Copy + Default>(random: &mut Random, area: &mut Vec<T>) {
    match random.below(4) {
        0 => area.push(T::default()),
        1 => drop(area.pop()),
        2 => area.clear(),
        _ => area.extend(area.clone()),
    }
}

/// 4: one of these areas, so that each is tested alone.
pub fn break_one_length(random: &mut Random, areas: &mut [&mut Vec<u8>]) {
    let area = random.below(areas.len());
    break_length(random, areas[area]);
}

/// 7: a packet whose sync octet has one wrong bit.
pub fn break_sync(random: &mut Random, packets: &mut [u8]) {
    let packet = random.below(packets.len() / PACKET_OCTETS);
    packets[PACKET_OCTETS * packet] ^= 1 << random.below(8);
}

/// 5: a list of parity tables that breaks its form in a row, or has a number less or more.
pub fn break_tables(random: &mut Random, rates: &[Rate], tables: &mut Vec<u16>) {
    match random.below(8) {
        0 => drop(tables.pop()),
        1 => tables.push(random.pick(&[0, 1, 2])),
        2 => tables.clear(),
        _ => break_row(random, rates, tables),
    }
}

/// A row of no address, of seventeen, or with an address that is too high or stands twice.
fn break_row(random: &mut Random, rates: &[Rate], tables: &mut Vec<u16>) {
    let rows: Vec<usize> = rates.iter().map(|&rate| rows(rate)).collect();
    let mut parts = taken(&rows, tables).expect("tables of their form");
    let table = random.below(parts.len());
    let limit = GROUP * (120 - rows[table]);
    let row = random.below(rows[table]);
    let row = &mut parts[table][row];
    let last = row.len() - 1;
    match random.below(4) {
        0 => row.clear(),
        1 => *row = (0..17).collect(),
        2 => row[last] = random.pick(&[limit, 65_535]),
        _ => *row = vec![row[0], limit - 1 - row[0], row[0]],
    }
    *tables = parts.concat().iter().flat_map(|row| lent(row)).collect();
}

/// The ways to 16.
pub const PACKET_FAULTS: [&str; 9] = [
    "first octet",
    "type",
    "null body",
    "head of 1 octet",
    "head of 2 octets",
    "head of 3 octets",
    "head alone",
    "body without its last octet",
    "null without its last octet",
];

/// 16: TLV packets that are wrong in one of these ways.
pub fn break_packets(random: &mut Random, way: &str, packets: &mut Vec<Vec<u8>>) {
    let mut packet = random.tlv_packet(256);
    packet[1] = if way.starts_with("null") { 0xff } else { 0x02 };
    if packet[1] == 0xff {
        packet[4..].fill(0xff);
    }
    match way {
        "first octet" => packet[0] ^= 1 << random.below(8),
        "type" => packet[1] = random.pick(&[0x00, 0x04, 0x7f, 0x80, 0xfd]),
        "null body" => packet[random.pick(&[4, 100, 259])] ^= 1 << random.below(8),
        "head of 1 octet" => packet.truncate(1),
        "head of 2 octets" => packet.truncate(2),
        "head of 3 octets" => packet.truncate(3),
        "head alone" => packet.truncate(4),
        _ => drop(packet.pop()),
    }
    // What is cut is the last; what is whole may stand anywhere.
    let place = if packet.len() < 260 { packets.len() } else { random.below(packets.len() + 1) };
    packets.insert(place, packet);
}
