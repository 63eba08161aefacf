//! A file of packets as frames end to end, to compare with what `s3frame code` writes; and slots that it never writes.
use crate::packets::{pack, packets_of};
use crate::plan::{self, Group};
use crate::slot::Code;
use crate::vectors::with_parity_anew;
use crate::{frame, tables};
use std::fs;
use std::io::{self, Read, Write};

const PACKET: usize = 188;
const HEADER: usize = 22;

/// A packet that carries nothing (ISO/IEC 13818-1): PID 0x1FFF, payload alone, stuffed with ones.
fn null_packet() -> Vec<u8> {
    let mut packet = vec![0xFF; PACKET];
    packet[..4].copy_from_slice(&[0x47, 0x1F, 0xFF, 0x10]);
    packet
}

/// The packets of each data slot of a frame.
fn slot_packets(plan: &[Group]) -> Vec<(usize, usize)> {
    let of_group = |group: usize| (plan[group].rate, packets_of(plan[group].rate).expect("a known rate"));
    plan::places(plan).into_iter().filter(|place| place.data).map(|place| of_group(place.group)).collect()
}

/// All frames: headers from their list or zeros, and null packets behind the last packet.
fn frames(plan: &[Group], mask: u32, start: u32, packets: &[u8], headers: &[u8]) -> Vec<u8> {
    let slots = slot_packets(plan);
    let in_frame: usize = slots.iter().map(|&(_, count)| count).sum();
    let count = packets.len() / PACKET;
    let missing = (count + in_frame - 1) / in_frame * in_frame - count;
    let mut rest: Vec<u8> = packets.to_vec();
    rest.extend(null_packet().repeat(missing));
    let mut rest = rest.as_slice();
    let mut headers = headers.chunks(HEADER);
    let tables = tables::printed(plan.iter().map(|group| group.rate));
    let mut all = Vec::new();
    while !rest.is_empty() {
        let mut source = Vec::new();
        for &(rate, count) in &slots {
            let (these, others) = rest.split_at(PACKET * count);
            let mut data = vec![0; (PACKET - 1) * count];
            assert_eq!(pack(rate, these, &mut data), 0, "packets with their sync octets");
            source.extend(headers.next().unwrap_or(&[0; HEADER]));
            source.extend(data);
            rest = others;
        }
        let mut area = vec![0; frame::OCTETS];
        assert_eq!(frame::code(plan, mask, start, &tables, &source, &mut area), 0, "an accepted plan and settings");
        all.extend(area);
    }
    all
}

/// Reads a slot of a rate, and writes it with the parity of its first bits, so that what is wrong with them shows.
pub fn renew_parity(rate: usize) {
    let mut slot = Vec::new();
    io::stdin().read_to_end(&mut slot).expect("a slot");
    let code = Code::new(tables::tables().swap_remove(rate - 1));
    io::stdout().write_all(&with_parity_anew(&code, &slot)).expect("the slot is written");
}

/// Reads the files that `s3frame code` reads, and writes the frames.
pub fn write([plan, mask, start, packets, out]: [&str; 5], headers: Option<&&str>) {
    let plan = plan::of_text(&fs::read(plan).expect("a plan's text")).expect("a plan");
    let packets = fs::read(packets).expect("packets");
    let headers = headers.map(|path| fs::read(path).expect("headers")).unwrap_or_default();
    let number = |word: &str| word.parse().expect("a number");
    fs::write(out, frames(&plan, number(mask), number(start), &packets, &headers)).expect("frames are written");
}
