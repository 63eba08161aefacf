//! TS packets: their sync octet, and those that carry nothing.
use s3frame::PACKET_OCTETS;

/// The first octet of every packet.
pub const SYNC: u8 = 0x47;

/// A packet that carries nothing (ISO/IEC 13818-1): PID 0x1FFF, payload alone, stuffed with ones.
const NULL_PACKET: [u8; PACKET_OCTETS] = {
    let mut packet = [0xFF; PACKET_OCTETS];
    packet[0] = SYNC;
    packet[1] = 0x1F;
    packet[3] = 0x10;
    packet
};

/// Fills an area with null packets.
pub fn fill_null(packets: &mut [u8]) {
    packets.chunks_exact_mut(PACKET_OCTETS).for_each(|packet| packet.copy_from_slice(&NULL_PACKET));
}

/// Whether a packet has the PID of null packets.
pub fn is_null(packet: &[u8]) -> bool {
    packet[1] & 0x1F == 0x1F && packet[2] == 0xFF
}

/// How many of these packets have it.
pub fn count_null(packets: &[u8]) -> usize {
    packets.chunks_exact(PACKET_OCTETS).filter(|packet| is_null(packet)).count()
}
