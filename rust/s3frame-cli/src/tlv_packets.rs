//! TLV packets: where one ends, the one that fills up, and what is wrong with one.
use s3frame::{fill_tlv, Rate, TlvFilled};
use std::iter;

/// The octets of a head: 0x7F, a type, and two of the body's length.
pub const HEAD_OCTETS: usize = 4;

/// The packet that fills up.
const EMPTY_NULL: [u8; HEAD_OCTETS] = [0x7F, 0xFF, 0, 0];

/// How many octets the body behind a head has.
pub fn body_octets(head: &[u8]) -> usize {
    u16::from_be_bytes([head[2], head[3]]).into()
}

/// The packets that lie end to end in these octets, all of them whole.
pub fn each(mut octets: &[u8]) -> impl Iterator<Item = &[u8]> {
    iter::from_fn(move || {
        let head = octets.get(..HEAD_OCTETS)?;
        let (packet, rest) = octets.split_at(HEAD_OCTETS + body_octets(head));
        octets = rest;
        Some(packet)
    })
}

/// Whether these can be the octets of a filler that was cut.
pub fn begins_filler(octets: &[u8]) -> bool {
    octets.len() < HEAD_OCTETS && EMPTY_NULL.starts_with(octets)
}

/// What is wrong with a whole packet, if anything is. The library decides that: the packet is lent to it alone.
pub fn fault(rate: Rate, packet: &[u8]) -> Option<String> {
    let null = || "is a null packet and holds another octet than 0xFF".to_string();
    refuses(rate, packet).then(|| head_fault(rate, packet).unwrap_or_else(null))
}

/// What is wrong with a packet's head, if anything is: the same head is lent with a length of 0, and so without a body.
pub fn head_fault(rate: Rate, packet: &[u8]) -> Option<String> {
    let head: Vec<String> = packet[..HEAD_OCTETS].iter().map(|octet| format!("{octet:02X}")).collect();
    refuses(rate, &[packet[0], packet[1], 0, 0]).then(|| format!("has the head {}, which is wrong", head.join(" ")))
}

fn refuses(rate: Rate, packet: &[u8]) -> bool {
    let mut slot = vec![0; rate.data_octets()];
    fill_tlv(rate, packet, TlvFilled::default(), &mut slot, &mut [0]).is_err()
}

#[cfg(test)]
mod tests {
    use super::*;

    #[test]
    fn packets_end_to_end() {
        let octets = [&[0x7F, 1, 0, 2, 5, 6][..], &EMPTY_NULL, &[0x7F, 0xFE, 1, 0], &[0; 256]].concat();
        assert_eq!(each(&octets).map(<[u8]>::len).collect::<Vec<_>>(), [6, 4, 260]);
        assert_eq!(each(&[]).count(), 0);
    }

    #[test]
    fn a_filler_that_was_cut() {
        assert!((0..4).all(|octets| begins_filler(&EMPTY_NULL[..octets])));
        assert!(!begins_filler(&EMPTY_NULL));
        assert!(!begins_filler(&[0x7F, 1]));
    }

    #[test]
    fn what_is_wrong_with_a_packet() {
        let said = |packet: &[u8]| fault(Rate::R1_3, packet).unwrap_or_default();
        assert_eq!([said(&EMPTY_NULL), said(&[0x7F, 3, 0, 1, 9]), said(&[0x7F, 0xFF, 0, 1, 0xFF])], ["", "", ""]);
        assert_eq!(said(&[0x7E, 1, 0, 1, 9]), "has the head 7E 01 00 01, which is wrong");
        assert_eq!(said(&[0x7F, 0xFF, 0, 1, 0xFE]), "is a null packet and holds another octet than 0xFF");
        assert_eq!(head_fault(Rate::R1_3, &[0x7F, 0xFF, 0, 1]), None);
    }
}
