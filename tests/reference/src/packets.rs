//! TS packets and the data octets of a slot, document 01: the sync octet of each packet isn't carried.
use crate::ldpc::{GROUP, ROWS};
use crate::slot::{LENGTH_WRONG, PLAN_WRONG, SYNC_WRONG};

const SYNC: u8 = 0x47;

/// How many packets a slot of a known rate carries: 374 (R - 1) bits of 187 octets each.
pub fn packets_of(rate: usize) -> Option<usize> {
    ROWS.get(rate.wrapping_sub(1)).map(|rows| GROUP * (rows - 1) / (8 * 187))
}

/// 0, or the first refusal that both ways share.
fn refusal(rate: usize, packets: &[u8], data: &[u8]) -> u8 {
    match packets_of(rate) {
        None => PLAN_WRONG,
        Some(count) if packets.len() != 188 * count || data.len() != 187 * count => LENGTH_WRONG,
        Some(_) => 0,
    }
}

pub fn pack(rate: usize, packets: &[u8], data: &mut [u8]) -> u8 {
    let number = refusal(rate, packets, data);
    if number != 0 {
        return number;
    }
    if packets.chunks(188).any(|packet| packet[0] != SYNC) {
        return SYNC_WRONG;
    }
    for (packet, place) in packets.chunks(188).zip(data.chunks_mut(187)) {
        place.copy_from_slice(&packet[1..]);
    }
    0
}

pub fn unpack(rate: usize, data: &[u8], packets: &mut [u8]) -> u8 {
    let number = refusal(rate, packets, data);
    if number != 0 {
        return number;
    }
    for (place, packet) in data.chunks(187).zip(packets.chunks_mut(188)) {
        packet[0] = SYNC;
        packet[1..].copy_from_slice(place);
    }
    0
}

#[cfg(test)]
mod tests {
    use super::*;
    use crate::samples::octets;

    #[test]
    fn the_packets_of_document_01() {
        let counts: Vec<usize> = (0..=12).filter_map(packets_of).collect();
        assert_eq!(counts, [10, 12, 15, 18, 20, 22, 23, 24, 25, 26, 27]);
    }

    #[test]
    fn there_and_back() {
        let (data, mut packets, mut back) = (octets(1, 1870), vec![0; 1880], vec![0; 1870]);
        assert_eq!(unpack(1, &data, &mut packets), 0);
        assert_eq!([packets[0], packets[188]], [SYNC; 2]);
        assert_eq!(pack(1, &packets, &mut back), 0);
        assert_eq!(back, data);
        packets[188] = 0x46;
        assert_eq!([pack(1, &packets, &mut back), pack(1, &packets, &mut []), pack(0, &[], &mut [])], [7, 4, 1]);
    }
}
