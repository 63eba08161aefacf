//! Streams of TLV packets.
use super::Random;
use s3frame::{Rate, TlvFilled};

/// The empty null packet, which fills up.
pub const FILLER: [u8; 4] = [0x7f, 0xff, 0, 0];

/// A packet or filler in a stream, and where it begins.
#[derive(Clone)]
pub struct Piece {
    pub at: usize,
    pub octets: Vec<u8>,
}

impl Piece {
    pub fn end(&self) -> usize {
        self.at + self.octets.len()
    }

    pub fn is_null(&self) -> bool {
        self.octets[1] == 0xff
    }

    /// Whether it has an octet in one of the slots marked, which have so many octets each.
    pub fn touches(&self, data: usize, marked: &[bool]) -> bool {
        (self.at / data..=(self.end() - 1) / data).any(|slot| marked.get(slot) == Some(&true))
    }
}

/// Packets for slots of a rate, and how far filling had come before.
pub struct Stream {
    pub rate: Rate,
    pub slots: usize,
    pub packets: Vec<Vec<u8>>,
    pub from: TlvFilled,
}

impl Stream {
    /// Packets for one to six slots: more than find room, about as many, few or none.
    pub fn new(random: &mut Random, rate: Rate) -> Stream {
        let slots = random.pick(&[1, 1, 2, 2, 3, 3, 4, 5, 6]);
        let room = slots * rate.data_octets();
        let about = match random.below(8) {
            0 => 0,
            1 => random.below(300),
            2 | 3 => room + random.below(2 * rate.data_octets()),
            _ => random.below(room),
        };
        let owed = random.below(4);
        let packets = random.tlv_packets(rate.data_octets(), owed, about);
        let mut stream = Stream { rate, slots, packets, from: TlvFilled { taken: 0, owed } };
        if random.chance(3) {
            stream.from = stream.other_from(random);
        }
        stream
    }

    /// Another place that filling may have come to: all taken, or a place in a head, a body or between packets.
    fn other_from(&self, random: &mut Random) -> TlvFilled {
        let all: usize = self.packets.iter().map(Vec::len).sum();
        let packet = random.below(self.packets.len() + 1);
        let head: usize = self.packets[..packet].iter().map(Vec::len).sum();
        let taken = match random.below(4) {
            0 => all,
            1 => head,
            2 => all.min(head + random.below(5)),
            _ => random.below(all + 1),
        };
        let owed = if taken == 0 || taken == all { random.below(4) } else { 0 };
        TlvFilled { taken, owed }
    }

    pub fn data(&self) -> usize {
        self.rate.data_octets()
    }

    /// The octets of all slots.
    pub fn room(&self) -> usize {
        self.slots * self.data()
    }

    pub fn lent(&self) -> Vec<u8> {
        self.packets.concat()
    }

    /// The packets and fillers that begin in the slots.
    pub fn pieces(&self) -> Vec<Piece> {
        let (mut pieces, taken) = (Vec::new(), self.from.taken);
        let (mut octet, mut at) = (0, self.from.owed);
        for packet in &self.packets {
            let end = octet + packet.len();
            if octet >= taken {
                pieces.push(Piece { at, octets: packet.clone() });
            }
            at += end.saturating_sub(octet.max(taken));
            octet = end;
        }
        while at < self.room() {
            pieces.push(Piece { at, octets: FILLER.to_vec() });
            at += FILLER.len();
        }
        pieces.retain(|piece| piece.at < self.room());
        pieces
    }
}

impl Random {
    /// A packet of any type with a body of so many octets; a body that is not a null's looks like packets now and then.
    pub fn tlv_packet(&mut self, body: usize) -> Vec<u8> {
        let kind = self.pick(&[0x01, 0x02, 0x03, 0xfe, 0xff, 0xff]);
        let octets = match (kind, self.below(8)) {
            (0xff, _) => vec![0xff; body],
            (_, 0) => FILLER.into_iter().cycle().take(body).collect(),
            _ => self.octets(body),
        };
        let [high, low] = u16::try_from(body).expect("a length of 16 bits").to_be_bytes();
        [vec![0x7f, kind, high, low], octets].concat()
    }

    /// How many octets a body has, for a packet that begins at this octet of a stream. Every third ends so that the next
    /// packet has room for none to four octets in a slot.
    fn body(&mut self, data: usize, at: usize) -> usize {
        match self.below(16) {
            0..=2 => 0,
            3..=5 => self.below(8),
            6 | 7 => self.below(100),
            8 => self.below(400),
            9 => self.below(3 * data),
            10 if self.chance(20) => 65_535,
            _ => {
                let end = at + 4 + self.below(5);
                data * self.pick(&[0, 0, 0, 1, 2]) + (data - end % data) % data
            }
        }
    }

    /// Packets that come to about so many octets, or more, of a stream in which they begin at an octet.
    pub fn tlv_packets(&mut self, data: usize, from: usize, about: usize) -> Vec<Vec<u8>> {
        let (mut packets, mut at) = (Vec::new(), from);
        while at < from + about {
            let body = self.body(data, at);
            let packet = self.tlv_packet(body);
            at += packet.len();
            packets.push(packet);
        }
        packets
    }
}
