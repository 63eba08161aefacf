//! TS packets as the data octets of slots.
use crate::code::Supply;
use crate::failure::Failure;
use crate::frames::{packets, Layout};
use crate::inputs::Input;
use crate::outputs::Output;
use crate::packets::{fill_null, SYNC};
use s3frame::{pack, Place, Refusal, PACKET_OCTETS};

/// The packets of a frame, how many of their octets are in slots, and what was counted: packets of the input, null packets
/// behind these, and octets that were left over.
pub struct TsSupply {
    input: Input,
    frame: Vec<u8>,
    done: usize,
    before: u64,
    packets: u64,
    nulls: u64,
    left_over: usize,
}

impl TsSupply {
    pub fn new(layout: &Layout, input: Input) -> TsSupply {
        let frame = vec![0; PACKET_OCTETS * packets(&layout.places)];
        TsSupply { input, frame, done: 0, before: 0, packets: 0, nulls: 0, left_over: 0 }
    }

    /// What to say of packets that were refused: where they lack their sync octet, which is the first.
    fn refused(&self, refusal: Refusal, packets: &[u8]) -> Failure {
        let first = packets.chunks_exact(PACKET_OCTETS).position(|packet| packet[0] != SYNC);
        match first {
            Some(at) if refusal == Refusal::Sync => {
                let packet = self.before + (self.done / PACKET_OCTETS + at) as u64;
                let octet = packet * PACKET_OCTETS as u64;
                Failure::refused_packet(self.input.name(), refusal, packet, octet, "does not begin 0x47")
            }
            _ => Failure::new(self.input.name(), refusal),
        }
    }
}

impl Supply for TsSupply {
    fn input(&self) -> &Input {
        &self.input
    }

    /// Takes packets as far as they go, and puts null packets behind them.
    fn take_frame(&mut self) -> Result<bool, Failure> {
        let octets = self.input.fill(&mut self.frame)?;
        self.left_over += octets % PACKET_OCTETS;
        let whole = octets / PACKET_OCTETS;
        if whole == 0 {
            return Ok(false);
        }
        let nulls = &mut self.frame[PACKET_OCTETS * whole..];
        fill_null(nulls);
        self.done = 0;
        self.before = self.packets;
        self.packets += whole as u64;
        self.nulls += (nulls.len() / PACKET_OCTETS) as u64;
        Ok(true)
    }

    fn data(&mut self, place: &Place, data: &mut [u8]) -> Result<(), Failure> {
        let packets = &self.frame[self.done..self.done + place.rate.packet_octets()];
        pack(place.rate, packets, data).map_err(|refusal| self.refused(refusal, packets))?;
        self.done += packets.len();
        Ok(())
    }

    fn left_over(&self) -> usize {
        self.left_over
    }

    fn counts(&self) -> String {
        format!("packets {} null {}", self.packets, self.nulls)
    }

    fn outputs(self: Box<Self>) -> Vec<Output> {
        Vec::new()
    }
}
