//! TLV packets in the data octets of slots, document 02, N2: packets lie end to end across slots, empty null packets fill
//! up behind the last, and each slot has a report of where the first of both begins in it.
use crate::packets::packets_of;
use crate::slot::{LENGTH_WRONG, PACKET_WRONG, PLAN_WRONG};

/// Document 002, Tables 2.3-3 and 2.3-4: the first octet, the types, and the type whose body is all ones.
const FIRST: u8 = 0x7f;
const TYPES: [u8; 5] = [0x01, 0x02, 0x03, 0xfe, NULL];
const NULL: u8 = 0xff;

/// First octet, type, and a length of two octets.
const HEAD: usize = 4;

/// The empty null packet, which fills up.
pub const FILLER: [u8; HEAD] = [FIRST, NULL, 0, 0];

/// The report of a slot in which nothing begins; as the octet to read first, the first reported beginning.
pub const NO_BEGIN: u16 = 65535;

/// How many data octets a slot of a known rate has.
fn data_octets(rate: usize) -> Option<usize> {
    packets_of(rate).map(|count| 187 * count)
}

fn head_right(head: &[u8]) -> bool {
    head[0] == FIRST && TYPES.contains(&head[1])
}

/// How many octets the packet of a head has, the head among them.
fn octets_of(head: &[u8]) -> usize {
    HEAD + usize::from(u16::from_be_bytes([head[2], head[3]]))
}

fn body_right(packet: &[u8]) -> bool {
    packet[1] != NULL || packet[HEAD..].iter().all(|&octet| octet == 0xff)
}

/// The packet that lent packets begin with, where it is right and all there.
fn first_packet(packets: &[u8]) -> Option<&[u8]> {
    let head = packets.get(..HEAD).filter(|head| head_right(head))?;
    packets.get(..octets_of(head)).filter(|packet| body_right(packet))
}

/// For each octet of lent packets, whether a packet begins there; or nothing, where a packet is wrong.
fn heads(packets: &[u8]) -> Option<Vec<bool>> {
    let mut heads = Vec::new();
    while heads.len() < packets.len() {
        let packet = first_packet(&packets[heads.len()..])?;
        heads.push(true);
        heads.resize(heads.len() + packet.len() - 1, false);
    }
    Some(heads)
}

/// Whether what filling is lent, but for the packets' octets, has the form that it must have.
fn filling_fits(data: usize, packets: &[u8], taken: usize, owed: usize, slots: &[u8], begins: &[u16]) -> bool {
    let all = packets.len();
    let slots_fit = !slots.is_empty() && slots.len() % data == 0 && begins.len() == slots.len() / data;
    slots_fit && taken <= all && owed <= 3 && (owed == 0 || taken == 0 || taken == all)
}

/// Octets to be put into slots, and for each whether a packet or a filler begins there.
struct Stream {
    octets: Vec<u8>,
    begins: Vec<bool>,
}

impl Stream {
    fn new() -> Stream {
        Stream { octets: Vec::new(), begins: Vec::new() }
    }

    fn put(&mut self, octets: &[u8], begins: &[bool]) {
        self.octets.extend(octets);
        self.begins.extend(begins);
    }
}

/// Fills the slots with the owed octets of a filler, the packets that were not taken yet, and fillers; reports where the
/// first of these begins in each slot. Gives how many of the packets' octets are taken then, and how many octets of a cut
/// filler are owed.
pub fn fill(
    rate: usize,
    packets: &[u8],
    taken: usize,
    owed: usize,
    slots: &mut [u8],
    begins: &mut [u16],
) -> Result<(usize, usize), u8> {
    let data = data_octets(rate).ok_or(PLAN_WRONG)?;
    if !filling_fits(data, packets, taken, owed, slots, begins) {
        return Err(LENGTH_WRONG);
    }
    let heads = heads(packets).ok_or(PACKET_WRONG)?;
    let mut stream = Stream::new();
    stream.put(&FILLER[HEAD - owed..], &vec![false; owed]);
    stream.put(&packets[taken..], &heads[taken..]);
    while stream.octets.len() < slots.len() {
        stream.put(&FILLER, &[true, false, false, false]);
    }
    slots.copy_from_slice(&stream.octets[..slots.len()]);
    for (begin, slot) in begins.iter_mut().zip(stream.begins.chunks(data)) {
        *begin = slot.iter().position(|&begins| begins).map_or(NO_BEGIN, |octet| octet as u16);
    }
    // What is left of the stream is packets, unless all of them found room: then it is the rest of the last filler.
    let taken_in_all = packets.len().min(taken + slots.len() - owed);
    let left = if taken_in_all == packets.len() { stream.octets.len() - slots.len() } else { 0 };
    Ok((taken_in_all, left))
}

/// Why no packet is read at a position.
#[derive(Debug, PartialEq)]
enum Miss {
    /// It is broken: reading goes on at the first beginning reported behind this slot.
    Behind(usize),
    /// It runs past the last slot.
    Unfinished,
}

/// Slots of so many data octets that were received, with their reports and marks.
struct Received<'a> {
    data: usize,
    octets: &'a [u8],
    begins: &'a [u16],
    lost: &'a [u8],
}

impl<'a> Received<'a> {
    /// So many octets from a position on, at least one, where all of them are there and none is in a lost slot.
    fn octets_at(&self, position: usize, count: usize) -> Result<&'a [u8], Miss> {
        let (first, last) = (position / self.data, (position + count - 1) / self.data);
        match (first..=last).find(|&slot| self.lost.get(slot) == Some(&1)) {
            Some(slot) => Err(Miss::Behind(slot)),
            None => self.octets.get(position..position + count).ok_or(Miss::Unfinished),
        }
    }

    /// The packet at a position. A wrong one counts as losing the rest of the slot where its head begins.
    fn packet_at(&self, position: usize) -> Result<&'a [u8], Miss> {
        let wrong = Miss::Behind(position / self.data);
        let head = self.octets_at(position, HEAD)?;
        if !head_right(head) {
            return Err(wrong);
        }
        let packet = self.octets_at(position, octets_of(head))?;
        if body_right(packet) { Ok(packet) } else { Err(wrong) }
    }

    /// Where the first beginning is that a slot from this one on reports and that is not lost.
    fn begin_from(&self, slot: usize) -> Option<usize> {
        let reports = |&slot: &usize| self.lost[slot] == 0 && self.begins[slot] != NO_BEGIN;
        let slot = (slot..self.begins.len()).find(reports)?;
        Some(slot * self.data + usize::from(self.begins[slot]))
    }

    /// The whole packets that are no fillers, and where an unfinished last one begins, or the slots' length.
    fn packets(&self, first: u16) -> (Vec<u8>, usize) {
        let mut packets = Vec::new();
        let mut next = if first == NO_BEGIN { self.begin_from(0) } else { Some(usize::from(first)) };
        while let Some(position) = next.filter(|&position| position < self.octets.len()) {
            next = match self.packet_at(position) {
                Ok(packet) => {
                    if *packet != FILLER {
                        packets.extend(packet);
                    }
                    Some(position + packet.len())
                }
                Err(Miss::Behind(slot)) => self.begin_from(slot + 1),
                Err(Miss::Unfinished) => return (packets, position),
            };
        }
        (packets, self.octets.len())
    }

    /// Whether there are slots, with a report and a mark for each, and every report and mark is a possible one.
    fn fits(&self) -> bool {
        let (slots, rest) = (self.octets.len() / self.data, self.octets.len() % self.data);
        let counts_fit = slots > 0 && rest == 0 && self.begins.len() == slots && self.lost.len() == slots;
        let report_fits = |&report: &u16| place_fits(self.data, report.into());
        counts_fit && self.begins.iter().all(report_fits) && self.lost.iter().all(|&mark| mark <= 1)
    }
}

/// Whether a number is that of an octet in a slot of so many, or stands for none.
fn place_fits(data: usize, octet: u32) -> bool {
    (octet as usize) < data || octet == NO_BEGIN.into()
}

/// Reads packets out of slots, from the octet `first` of the first slot on. Gives how many octets were written, and where in
/// the slots an unfinished last packet begins, or the slots' length.
pub fn read(
    rate: usize,
    slots: &[u8],
    begins: &[u16],
    lost: &[u8],
    first: u32,
    packets: &mut [u8],
) -> Result<(usize, usize), u8> {
    let data = data_octets(rate).ok_or(PLAN_WRONG)?;
    let received = Received { data, octets: slots, begins, lost };
    if packets.len() != slots.len() || !received.fits() || !place_fits(data, first) {
        return Err(LENGTH_WRONG);
    }
    let (read, unfinished) = received.packets(first as u16);
    packets[..read.len()].copy_from_slice(&read);
    Ok((read.len(), unfinished))
}

#[cfg(test)]
mod tests;
