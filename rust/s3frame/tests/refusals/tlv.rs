//! TLV channels. What comes back with a refusal is zeros.
use crate::calls;
use crate::common::faults::{self, break_packets, choices, Faults, PACKET_FAULTS};
use crate::common::tlv::Stream;
use crate::common::{trials, Random};
use crate::ways::{alone_and_in_pairs, Way};
use crate::{compared, told};
use s3frame::Rate;

/// What filling is lent.
struct Filling {
    rate: u32,
    packets: Vec<u8>,
    taken: usize,
    owed: usize,
    slots: Vec<u8>,
    begins: Vec<u16>,
}

impl Filling {
    /// Packets that are wrong as asked, none, some or all of which were taken before.
    fn new(random: &mut Random, rate: Rate, wrong: Option<&str>) -> Filling {
        let Stream { mut packets, slots, .. } = Stream::new(random, rate);
        packets.push(random.tlv_packet(9));
        if let Some(way) = wrong {
            break_packets(random, way, &mut packets);
        }
        let packets = packets.concat();
        let taken = [0, packets.len(), random.below(packets.len() + 1)];
        let taken = random.pick(&taken);
        let owed = if taken == 0 || taken == packets.len() { random.below(4) } else { 0 };
        let (slots, begins) = (random.octets(slots * rate.data_octets()), random.numbers(slots));
        Filling { rate: rate.number(), packets, taken, owed, slots, begins }
    }

    /// Owed octets of a filler between two octets of the packets.
    fn owe_at(&mut self, taken: usize, owed: usize) {
        (self.taken, self.owed) = (taken, owed);
    }
}

const FILLING: &[Way<Filling>] = &[
    Way { of: "slots", break_it: |lent| lent.slots.clear() },
    Way { of: "slots", break_it: |lent| (lent.slots, lent.begins) = (vec![], vec![]) },
    Way { of: "slots", break_it: |lent| lent.slots.truncate(lent.slots.len() - 1) },
    Way { of: "slots", break_it: |lent| lent.slots.push(0) },
    Way { of: "slots", break_it: |lent| lent.slots.truncate(1) },
    Way { of: "begins", break_it: |lent| lent.begins.truncate(lent.begins.len() - 1) },
    Way { of: "begins", break_it: |lent| lent.begins.push(0) },
    Way { of: "begins", break_it: |lent| lent.begins.clear() },
    Way { of: "taken", break_it: |lent| lent.taken = lent.packets.len() + 1 },
    Way { of: "taken", break_it: |lent| lent.taken |= 1 << 32 },
    Way { of: "taken", break_it: |lent| lent.taken = usize::MAX },
    Way { of: "owed", break_it: |lent| lent.owed = 4 },
    Way { of: "owed", break_it: |lent| lent.owed |= 1 << 8 },
    Way { of: "owed", break_it: |lent| lent.owed |= 1 << 16 },
    Way { of: "owed", break_it: |lent| lent.owed |= 1 << 32 },
    Way { of: "owed", break_it: |lent| lent.owed = usize::MAX },
    Way { of: "owed", break_it: |lent| lent.owe_at(1, 1) },
    Way { of: "owed", break_it: |lent| lent.owe_at(lent.packets.len() / 2, 2) },
    Way { of: "owed", break_it: |lent| lent.owe_at(lent.packets.len() - 1, 3) },
];

fn fill_with(random: &mut Random, faults: &Faults, lengths: &[&Way<Filling>], wrong: Option<&str>) {
    let rate = random.rate();
    let mut lent = Filling::new(random, rate, wrong);
    lengths.iter().for_each(|way| (way.break_it)(&mut lent));
    if faults.has(1) {
        faults::unknown(random, &mut lent.rate, 11);
    }
    let Filling { rate, packets, taken, owed, slots, begins } = lent;
    compared(
        faults.first(),
        &(slots, begins),
        |(slots, begins)| {
            let filled = calls::tlv_fill(rate, &packets, taken, owed, slots, begins);
            (filled.number, (filled.taken, filled.owed))
        },
        |(slots, begins)| told(reference::tlv::fill(rate as usize, &packets, taken, owed, slots, begins), (0, 0)),
    );
}

#[test]
fn filling() {
    let mut random = Random::new(69);
    for faults in choices(&[1, 4, 16], trials(1)) {
        let lengths = if faults.has(4) { alone_and_in_pairs(FILLING) } else { vec![vec![]] };
        let wrong = if faults.has(16) { PACKET_FAULTS.map(Some).to_vec() } else { vec![None] };
        for lengths in &lengths {
            wrong.iter().for_each(|wrong| fill_with(&mut random, &faults, lengths, *wrong));
        }
    }
}

/// What reading is lent.
struct Reading {
    rate: u32,
    data: u32,
    slots: Vec<u8>,
    begins: Vec<u16>,
    lost: Vec<u8>,
    first: u32,
    packets: Vec<u8>,
}

impl Reading {
    /// Slots that were filled, some of them lost.
    fn new(random: &mut Random, rate: Rate) -> Reading {
        let stream = Stream::new(random, rate);
        let (lent, from) = (stream.lent(), stream.from);
        let (mut slots, mut begins) = (vec![0; stream.room()], vec![0; stream.slots]);
        let filled = reference::tlv::fill(rate as usize, &lent, from.taken, from.owed, &mut slots, &mut begins);
        assert!(filled.is_ok());
        let lost = begins.iter().map(|_| random.chance(3).into()).collect();
        let firsts = [0, stream.data() - 1, 65_535, random.below(stream.data())];
        let (first, packets) = (random.pick(&firsts) as u32, random.octets(stream.room()));
        Reading { rate: rate.number(), data: stream.data() as u32, slots, begins, lost, first, packets }
    }

    /// Another report of the last slot.
    fn report(&mut self, report: u32) {
        let last = self.begins.len() - 1;
        self.begins[last] = report as u16;
    }

    /// The same of slots that are all lost.
    fn report_lost(&mut self, report: u32) {
        self.lost.fill(1);
        self.report(report);
    }

    /// Slots of another length, and the packets' area with them.
    fn resize(&mut self, octets: usize) {
        self.slots.resize(octets, 0);
        self.packets.resize(octets, 0);
    }
}

const READING: &[Way<Reading>] = &[
    Way { of: "slots", break_it: |lent| lent.resize(0) },
    Way { of: "slots", break_it: |lent| lent.resize(1) },
    Way { of: "slots", break_it: |lent| lent.resize(lent.slots.len() - 1) },
    Way { of: "slots", break_it: |lent| lent.resize(lent.slots.len() + 1) },
    Way { of: "slots", break_it: |lent| lent.resize(lent.slots.len() + lent.data as usize) },
    Way { of: "begins", break_it: |lent| lent.begins.truncate(lent.begins.len() - 1) },
    Way { of: "begins", break_it: |lent| lent.begins.push(0) },
    Way { of: "begins", break_it: |lent| lent.begins.clear() },
    Way { of: "begins", break_it: |lent| lent.report(lent.data) },
    Way { of: "begins", break_it: |lent| lent.report_lost(lent.data) },
    Way { of: "begins", break_it: |lent| lent.report(lent.data + 1) },
    Way { of: "begins", break_it: |lent| lent.report_lost(65_534) },
    Way { of: "begins", break_it: |lent| lent.begins[0] = 65_534 },
    Way { of: "lost", break_it: |lent| lent.lost.truncate(lent.lost.len() - 1) },
    Way { of: "lost", break_it: |lent| lent.lost.push(0) },
    Way { of: "lost", break_it: |lent| lent.lost.clear() },
    Way { of: "lost", break_it: |lent| lent.lost[0] = 2 },
    Way { of: "lost", break_it: |lent| lent.lost[0] = 3 },
    Way { of: "lost", break_it: |lent| lent.lost[0] = 128 },
    Way { of: "lost", break_it: |lent| lent.lost[0] = 255 },
    Way { of: "first", break_it: |lent| lent.first = lent.data },
    Way { of: "first", break_it: |lent| lent.first = lent.data + 1 },
    Way { of: "first", break_it: |lent| lent.first = 65_534 },
    Way { of: "first", break_it: |lent| lent.first = 65_536 },
    Way { of: "first", break_it: |lent| lent.first |= 1 << 16 },
    Way { of: "first", break_it: |lent| lent.first = u32::MAX },
    Way { of: "packets", break_it: |lent| lent.packets.truncate(lent.packets.len() - 1) },
    Way { of: "packets", break_it: |lent| lent.packets.push(0) },
    Way { of: "packets", break_it: |lent| lent.packets.clear() },
];

fn read_with(random: &mut Random, faults: &Faults, lengths: &[&Way<Reading>]) {
    let rate = random.rate();
    let mut lent = Reading::new(random, rate);
    lengths.iter().for_each(|way| (way.break_it)(&mut lent));
    if faults.has(1) {
        faults::unknown(random, &mut lent.rate, 11);
    }
    let Reading { rate, slots, begins, lost, first, packets, .. } = lent;
    compared(
        faults.first(),
        &packets,
        |packets| {
            let read = calls::tlv_read(rate, &slots, &begins, &lost, first, packets);
            (read.number, (read.written, read.unfinished))
        },
        |packets| told(reference::tlv::read(rate as usize, &slots, &begins, &lost, first, packets), (0, 0)),
    );
}

#[test]
fn reading() {
    let mut random = Random::new(70);
    for faults in choices(&[1, 4], trials(1)) {
        let lengths = if faults.has(4) { alone_and_in_pairs(READING) } else { vec![vec![]; 10] };
        lengths.iter().for_each(|lengths| read_with(&mut random, &faults, lengths));
    }
}
