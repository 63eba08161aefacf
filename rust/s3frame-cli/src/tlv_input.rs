//! TLV packets as they are read, and held until they are in slots.
use crate::failure::Failure;
use crate::inputs::Input;
use crate::tlv_packets::{body_octets, each, fault, head_fault, HEAD_OCTETS};
use s3frame::{Rate, Refusal};

/// Whole packets of a file, how many packets and octets were before them, and what the file's end cut.
pub struct TlvInput {
    file: Input,
    packets: Vec<u8>,
    gone_packets: u64,
    gone_octets: u64,
    cut: Vec<u8>,
}

impl TlvInput {
    pub fn new(file: Input) -> TlvInput {
        TlvInput { file, packets: Vec::new(), gone_packets: 0, gone_octets: 0, cut: Vec::new() }
    }

    pub fn file(&self) -> &Input {
        &self.file
    }

    /// The packets that are held, end to end.
    pub fn packets(&self) -> &[u8] {
        &self.packets
    }

    /// How many packets were let go, and their octets.
    pub fn gone(&self) -> (u64, u64) {
        (self.gone_packets, self.gone_octets)
    }

    /// How many octets of a packet the file's end left.
    pub fn left_over(&self) -> usize {
        self.cut.len()
    }

    /// Takes a packet of the file, and says whether there was a whole one.
    pub fn take(&mut self) -> Result<bool, Failure> {
        let held = self.packets.len();
        if self.take_octets(HEAD_OCTETS)? == HEAD_OCTETS {
            let body = body_octets(&self.packets[held..]);
            if self.take_octets(body)? == body {
                return Ok(true);
            }
        }
        // The end is met again where a further frame could begin, and then adds nothing.
        self.cut.extend(self.packets.drain(held..));
        Ok(false)
    }

    /// Takes so many octets behind those that are held, or as many as there are, and says how many.
    fn take_octets(&mut self, octets: usize) -> Result<usize, Failure> {
        let held = self.packets.len();
        self.packets.resize(held + octets, 0);
        let taken = self.file.fill(&mut self.packets[held..])?;
        self.packets.truncate(held + taken);
        Ok(taken)
    }

    /// Lets go of the packets that lie wholly in the first octets, and says how many of these octets they had.
    pub fn let_go(&mut self, octets: usize) -> usize {
        let mut gone = 0;
        for packet in each(&self.packets) {
            if gone + packet.len() > octets {
                break;
            }
            gone += packet.len();
            self.gone_packets += 1;
        }
        self.packets.drain(..gone);
        self.gone_octets += gone as u64;
        gone
    }

    /// What to say where packets were refused: which is the first that is refused alone, and why.
    pub fn refused(&self, rate: Rate, refusal: Refusal) -> Failure {
        let (mut number, mut octet) = self.gone();
        for packet in each(&self.packets) {
            if let Some(why) = fault(rate, packet) {
                return Failure::refused_packet(self.file.name(), refusal, number, octet, why);
            }
            number += 1;
            octet += packet.len() as u64;
        }
        Failure::new(self.file.name(), refusal)
    }

    /// Looks at what the end cut, once all packets before it are gone: where a whole head is wrong, so is the length by which
    /// the packet seems to be cut.
    pub fn look_at_cut(&self, rate: Rate) -> Result<(), Failure> {
        let (number, octet) = self.gone();
        match self.cut.get(..HEAD_OCTETS).and_then(|head| head_fault(rate, head)) {
            Some(why) => Err(Failure::refused_packet(self.file.name(), Refusal::Packet, number, octet, why)),
            None => Ok(()),
        }
    }
}
