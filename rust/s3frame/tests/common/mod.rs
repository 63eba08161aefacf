//! Inputs for the tests: everything comes from one seed, so that a failure can be run again.
//!
//! S3_SEED sets the seed, S3_SOAK multiplies the counts.
#![allow(dead_code)] // each test file uses a part of this
pub mod cards;
pub mod faults;
pub mod plans;
pub mod points;
pub mod tlv;
pub mod words;
use reference::calls::State;
use reference::ldpc::{GROUP, ROWS};
use reference::slot::{bits_of, octets_of, Code};
use reference::vectors::with_parity_anew;
use s3frame::{FrameState, Group, Modulation, Plan, Rate, ReadRefusal, Refusal, SlotSettings, StuffBits};
use s3frame::{TmccSettings, PACKET_OCTETS, SLOT_OCTETS};
use std::collections::BTreeMap;
use words::{turned, Word, NO_POSITION};

fn setting(name: &str, usual: u64) -> u64 {
    match std::env::var(name) {
        Ok(text) => text.parse().unwrap_or_else(|_| panic!("{name} is not a number: {text}")),
        Err(_) => usual,
    }
}

/// So many trials, or a multiple.
pub fn trials(usual: usize) -> usize {
    usual * setting("S3_SOAK", 1) as usize
}

/// Numbers by the mixing function of splitmix64.
pub struct Random(u64);

impl Random {
    /// The numbers of one test; the seed is printed, and is shown where the test fails.
    pub fn new(test: u64) -> Random {
        let seed = setting("S3_SEED", 20_986_120);
        println!("seed {seed}");
        let mut random = Random(seed);
        Random(random.next() ^ test.wrapping_mul(0x9e37_79b9_7f4a_7c15))
    }

    pub fn next(&mut self) -> u64 {
        self.0 = self.0.wrapping_add(0x9e37_79b9_7f4a_7c15);
        let x = (self.0 ^ self.0 >> 30).wrapping_mul(0xbf58_476d_1ce4_e5b9);
        let x = (x ^ x >> 27).wrapping_mul(0x94d0_49bb_1331_11eb);
        x ^ x >> 31
    }

    /// A number below a limit.
    pub fn below(&mut self, limit: usize) -> usize {
        (self.next() % limit as u64) as usize
    }

    pub fn chance(&mut self, in_all: usize) -> bool {
        self.below(in_all) == 0
    }

    pub fn pick<T: Copy>(&mut self, list: &[T]) -> T {
        list[self.below(list.len())]
    }

    pub fn octets(&mut self, count: usize) -> Vec<u8> {
        (0..count).map(|_| self.next() as u8).collect()
    }

    pub fn numbers(&mut self, count: usize) -> Vec<u16> {
        (0..count).map(|_| self.next() as u16).collect()
    }

    /// A source: mostly octets of chance, now and then the same octet throughout.
    pub fn source(&mut self, count: usize) -> Vec<u8> {
        match self.below(8) {
            0 => vec![self.pick(&[0x00, 0xff, 0x55]); count],
            _ => self.octets(count),
        }
    }

    /// A register of so many bits, not 0.
    pub fn register(&mut self, width: u32) -> u32 {
        1 + self.below((1 << width) - 1) as u32
    }

    /// Mask and start that a register of so many bits allows.
    fn settings(&mut self, width: u32) -> (u32, u32) {
        let top = 1 << (width - 1);
        let mask = top | self.below(top as usize) as u32;
        (mask, self.register(width))
    }

    pub fn slot_settings(&mut self) -> SlotSettings {
        let (mask, start) = self.settings(25);
        SlotSettings { mask, start }
    }

    pub fn tmcc_settings(&mut self) -> TmccSettings {
        let (mask, start) = self.settings(15);
        TmccSettings { mask, start }
    }

    pub fn rate(&mut self) -> Rate {
        self.pick(&Rate::ALL)
    }

    pub fn modulation(&mut self) -> Modulation {
        self.pick(&Modulation::ALL)
    }

    /// Packets with their sync octets.
    pub fn packets(&mut self, rate: Rate) -> Vec<u8> {
        let mut packets = self.octets(rate.packet_octets());
        packets.chunks_mut(PACKET_OCTETS).for_each(|packet| packet[0] = 0x47);
        packets
    }

    /// A row of a parity table: its addresses differ and lie below the limit.
    fn row(&mut self, limit: usize) -> Vec<usize> {
        let count = 1 + self.below(16);
        let mut row = Vec::new();
        while row.len() < count {
            let address = match self.below(16) {
                0 => limit - 1,
                1 => 0,
                _ => self.below(limit),
            };
            if !row.contains(&address) {
                row.push(address);
            }
        }
        row
    }

    /// A parity table for a rate: the printed one, or one of chance.
    pub fn table(&mut self, rate: Rate) -> Vec<u16> {
        if self.chance(2) {
            return reference::tables::printed([rate as usize]);
        }
        let rows = rows(rate);
        let limit = GROUP * (120 - rows);
        let rows = (0..rows).map(|_| self.row(limit));
        rows.flat_map(|row| lent(&row)).collect()
    }

    /// A parity table for each group of a plan.
    pub fn tables(&mut self, plan: &Plan) -> Vec<Vec<u16>> {
        plan.groups().map(|group| self.table(group.rate)).collect()
    }

    /// A plan that has a group of this modulation and rate.
    pub fn plan_with(&mut self, modulation: Modulation, rate: Rate) -> Plan {
        let mut kinds = vec![(modulation, rate)];
        for _ in 0..self.below(8) {
            let kind = (self.modulation(), self.rate());
            if !kinds.contains(&kind) {
                kinds.push(kind);
            }
        }
        kinds.sort_by(|a, b| b.cmp(a));
        let mut fives = vec![1u16; kinds.len()];
        for _ in kinds.len()..24 {
            let group = self.below(kinds.len());
            fives[group] += 1;
        }
        let group = |((modulation, rate), five)| Group { modulation, rate, slots: 5 * five };
        let groups: Vec<Group> = kinds.into_iter().zip(fives).map(group).collect();
        Plan::new(&groups).expect("a plan that keeps the rules")
    }

    pub fn plan(&mut self) -> Plan {
        let (modulation, rate) = (self.modulation(), self.rate());
        self.plan_with(modulation, rate)
    }

    /// A state at a data slot of this modulation and rate.
    pub fn state(&mut self, modulation: Modulation, rate: Rate) -> FrameState {
        let plan = self.plan_with(modulation, rate);
        let of_kind = |slot: &u16| {
            let place = plan.place(*slot).expect("a slot of the frame");
            place.data && (place.modulation, place.rate) == (modulation, rate)
        };
        let slots: Vec<u16> = (1..=120).filter(of_kind).collect();
        let (settings, register) = (self.slot_settings(), self.register(25));
        FrameState::at(plan, settings, self.pick(&slots), register)
    }

    /// A sound slot damaged so that the check of this number fails, and the failing position: 8 by bits that break the parity,
    /// 9 by a bit before the stuff bits and the parity made anew.
    pub fn damaged(&mut self, code: &Code, coded: &[u8], number: u8) -> (Vec<u8>, u16) {
        match number {
            8 => self.with_broken_parity(&Word::slot(code), coded),
            9 => {
                let bit = self.below(code.dispersed_bits() - 6);
                (with_parity_anew(code, &turned(coded, &[bit])), NO_POSITION)
            }
            _ => panic!("no check has the number {number}"),
        }
    }

    /// Stuff bits as a number, now and then those that are coded.
    pub fn stuff(&mut self) -> u8 {
        match self.below(4) {
            0 => 63,
            _ => self.below(64) as u8,
        }
    }

    /// A coded slot as it is received, with any stuff bits and now and then damaged; and what reading it must tell.
    pub fn received(&mut self, code: &Code, coded: &[u8]) -> (Vec<u8>, Told) {
        let stuff = self.stuff();
        let slot = stuffed(code, coded, stuff);
        match self.pick(&[0, 0, 0, 0, 0, 8, 8, 9]) {
            0 => (slot, (0, stuff, NO_POSITION)),
            number => {
                let (slot, position) = self.damaged(code, &slot, number);
                (slot, (number, 255, position))
            }
        }
    }

    /// Makes a coded frame one that is received so, dummies too; gives what must be told of each slot.
    pub fn receive_frame(&mut self, plan: &Plan, tables: &[Vec<u16>], frame: &mut [u8]) -> Vec<Told> {
        let codes = codes(plan, tables);
        let places = reference::plan::places(&groups(plan));
        let slot = |(place, part): (&reference::plan::Place, &mut [u8])| {
            let (slot, told) = self.received(&codes[place.group], part);
            part.copy_from_slice(&slot);
            if place.data {
                told
            } else {
                DUMMY
            }
        };
        places.iter().zip(frame.chunks_mut(SLOT_OCTETS)).map(slot).collect()
    }
}

/// A coded slot with these stuff bits in place of its ones, and its parity made anew. Dispersal adds bit by bit, so that a bit
/// that is the other one in the slot as sent is so too where dispersal is taken off.
pub fn stuffed(code: &Code, coded: &[u8], stuff: u8) -> Vec<u8> {
    let mut bits = bits_of(coded);
    let first = code.dispersed_bits() - 6;
    for (place, bit) in bits[first..first + 6].iter_mut().enumerate() {
        *bit ^= 1 - (stuff >> (5 - place) & 1);
    }
    with_parity_anew(code, &octets_of(&bits))
}

/// A row as it is lent: its count, then its addresses.
pub fn lent(row: &[usize]) -> Vec<u16> {
    let count = std::iter::once(row.len());
    count.chain(row.iter().copied()).map(|number| number as u16).collect()
}

/// The plan as the second implementation has it.
pub fn groups(plan: &Plan) -> Vec<reference::plan::Group> {
    plans::groups_of(&plans::threes(plan))
}

/// The same state for the second implementation.
pub fn twin<'a>(groups: &'a [reference::plan::Group], state: &FrameState) -> State<'a> {
    let settings = state.settings();
    let (slot, register) = (state.slot().into(), state.register());
    State { plan: groups, mask: settings.mask, start: settings.start, slot, register }
}

/// How many rows the parity table of a rate has.
pub fn rows(rate: Rate) -> usize {
    ROWS[rate as usize - 1]
}

/// What a rate and a lent table of its form fix.
pub fn code(rate: Rate, table: &[u16]) -> Code {
    let tables = reference::tables::taken(&[rows(rate)], table);
    Code::new(tables.expect("a table of its form").swap_remove(0))
}

/// The same for each group of a plan.
pub fn codes(plan: &Plan, tables: &[Vec<u16>]) -> Vec<Code> {
    plan.groups().zip(tables).map(|(group, table)| code(group.rate, table)).collect()
}

/// The number of a result.
pub fn number<T, R: Into<Refusal>>(answer: Result<T, R>) -> u32 {
    answer.err().map_or(0, |refused| refused.into().number())
}

/// The number of a result and the failing position beside it, as the calls tell them.
pub fn number_and_position<T>(answer: Result<T, ReadRefusal>) -> (u8, u16) {
    answer.err().map_or((0, NO_POSITION), |refused| (refused.refusal as u8, refused.position.unwrap_or(NO_POSITION)))
}

/// What the calls tell of a slot that was read or refused: its number, stuff bits and failing position.
pub type Told = (u8, u8, u16);

/// That of a dummy in a whole frame.
pub const DUMMY: Told = (2, 255, NO_POSITION);

/// That of a slot by itself.
pub fn told(answer: Result<StuffBits, ReadRefusal>) -> Told {
    let (number, position) = number_and_position(answer);
    (number, answer.map_or(255, StuffBits::number), position)
}

/// How often each kind of case occurred.
#[derive(Default)]
pub struct Counts(BTreeMap<&'static str, usize>);

impl Counts {
    pub fn add(&mut self, kind: &'static str) {
        *self.0.entry(kind).or_default() += 1;
    }

    pub fn add_if(&mut self, holds: bool, kind: &'static str) {
        if holds {
            self.add(kind);
        }
    }

    /// The kinds that occurred must be just these.
    pub fn are(&self, kinds: &[&'static str]) {
        println!("{:?}", self.0);
        let mut kinds = kinds.to_vec();
        kinds.sort();
        let occurred: Vec<&str> = self.0.keys().copied().collect();
        assert_eq!(occurred, kinds);
    }
}
