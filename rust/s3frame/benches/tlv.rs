//! Times filling slots with TLV packets and reading them back, the proved calls beside the second implementation.
//!
//! `make bench` prints the figures. `cargo test` runs each case once, to see that both do the same.
mod common;
use common::time;
use reference::tlv;
use s3frame::{fill_tlv, read_tlv, Rate, TlvFilled};

const RATE: Rate = Rate::R7_9;
const SLOTS: usize = 120;

/// What is filled in: so many octets of packets, each of a type and with so many octets of body.
struct Case {
    name: &'static str,
    octets: usize,
    kind: u8,
    body: u16,
}

/// Filled slots, their reports, and the packets read from them.
#[derive(PartialEq)]
struct Areas {
    slots: Vec<u8>,
    begins: Vec<u16>,
    back: Vec<u8>,
}

impl Areas {
    fn new() -> Areas {
        let octets = SLOTS * RATE.data_octets();
        Areas { slots: vec![0; octets], begins: vec![0; SLOTS], back: vec![0; octets] }
    }
}

/// As many packets as fill the octets.
fn packets(case: &Case) -> Vec<u8> {
    let [high, low] = case.body.to_be_bytes();
    let mut packet = vec![0x7f, case.kind, high, low];
    packet.resize(4 + usize::from(case.body), 0xff);
    packet.repeat(case.octets / packet.len())
}

fn fill(packets: &[u8], areas: &mut Areas) {
    fill_tlv(RATE, packets, TlvFilled::default(), &mut areas.slots, &mut areas.begins).expect("packets and slots");
}

fn read(areas: &mut Areas) {
    read_tlv(RATE, &areas.slots, &areas.begins, &[false; SLOTS], None, &mut areas.back).expect("slots and reports");
}

fn plain_fill(packets: &[u8], areas: &mut Areas) {
    tlv::fill(RATE as usize, packets, 0, 0, &mut areas.slots, &mut areas.begins).expect("packets and slots");
}

fn plain_read(areas: &mut Areas) {
    let lost = [0; SLOTS];
    let first = s3frame::NO_BEGIN.into();
    tlv::read(RATE as usize, &areas.slots, &areas.begins, &lost, first, &mut areas.back).expect("slots and reports");
}

fn main() {
    let octets = SLOTS * RATE.data_octets();
    let cases = [
        Case { name: "bodies of 1,400 octets", octets, kind: 0x03, body: 1400 },
        Case { name: "bodies of 100 octets", octets, kind: 0x03, body: 100 },
        Case { name: "nulls of 1,400 octets", octets, kind: 0xff, body: 1400 },
        Case { name: "heads alone", octets, kind: 0x01, body: 0 },
        Case { name: "fillers alone", octets: 0, kind: 0x01, body: 0 },
    ];
    println!("TLV packets in {SLOTS} slots of rate {RATE}: ns an octet");
    println!("{:26}{:>9}{:>9}{:>9}{:>9}", "", "filling", "plain", "reading", "plain");
    for case in cases {
        let packets = packets(&case);
        let [mut ours, mut theirs] = [Areas::new(), Areas::new()];
        let filling = time(octets, || fill(&packets, &mut ours));
        let plain_filling = time(octets, || plain_fill(&packets, &mut theirs));
        let reading = time(octets, || read(&mut ours));
        let plain_reading = time(octets, || plain_read(&mut theirs));
        assert!(ours == theirs, "{}: the implementations differ", case.name);
        println!("{:26}{filling:9.2}{plain_filling:9.2}{reading:9.2}{plain_reading:9.2}", case.name);
    }
}
