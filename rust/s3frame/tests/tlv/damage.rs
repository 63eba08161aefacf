//! Reading slots that are damaged, with reports that are false, from any octet on.
use crate::common::tlv::Piece;
use crate::common::{trials, Counts, Random};
use crate::reading::{expected_pieces, Received};
use crate::{filled, filled_stream, streams};
use s3frame::{Rate, TlvFilled, NO_BEGIN};

const DAMAGES: [&str; 9] =
    ["first octet", "type", "length", "null body", "any octet", "report", "planted packet", "loss", "first to read"];

/// Gives an octet another value, where it is in the slots.
fn change(random: &mut Random, received: &mut Received, octet: usize) {
    if octet < received.slots.len() {
        received.slots[octet] ^= random.pick(&[0x01, 0x80, 0x7e, 0xff]);
    }
}

/// Puts a packet into a slot, whatever it was, and reports that it begins there.
fn plant(random: &mut Random, received: &mut Received, slot: usize, packet: &[u8]) {
    let data = received.rate.data_octets();
    let octet = random.below(data - packet.len());
    received.begins[slot] = octet as u16;
    received.slots[slot * data + octet..][..packet.len()].copy_from_slice(packet);
}

/// An octet to read first, and what it is: also one where no packet begins.
fn first(random: &mut Random, received: &Received, pieces: &[Piece]) -> (&'static str, u16) {
    let data = received.rate.data_octets();
    let heads: Vec<usize> = pieces.iter().map(|piece| piece.at).filter(|&at| at < data).collect();
    match random.below(6) {
        0 => ("octet 0", 0),
        1 => ("the slot's report", received.begins[0]),
        2 => ("the first reported", NO_BEGIN),
        3 => ("the last octet", data as u16 - 1),
        4 if !heads.is_empty() => ("where a packet begins", random.pick(&heads) as u16),
        _ => ("any octet", random.below(data) as u16),
    }
}

/// An octet of a piece that damage of this kind changes, if the piece has one.
fn octet_of(random: &mut Random, kind: &str, piece: &Piece) -> Option<usize> {
    match kind {
        "first octet" => Some(piece.at),
        "type" => Some(piece.at + 1),
        "length" => Some(piece.at + random.pick(&[2, 3])),
        "null body" if piece.is_null() && piece.octets.len() > 4 => {
            Some(piece.at + 4 + random.below(piece.octets.len() - 4))
        }
        _ => None,
    }
}

/// Damages received slots in one way, where there is something to damage so.
fn damage(random: &mut Random, kind: &str, pieces: &[Piece], received: &mut Received) {
    let (data, slot) = (received.rate.data_octets(), random.below(received.begins.len()));
    match kind {
        "any octet" => {
            let octet = random.below(received.slots.len());
            change(random, received, octet);
        }
        "report" => {
            let octet = random.below(data) as u16;
            received.begins[slot] = random.pick(&[0, data as u16 - 1, NO_BEGIN, octet]);
        }
        "planted packet" => {
            let body = random.below(100);
            let packet = random.tlv_packet(body);
            plant(random, received, slot, &packet);
        }
        "loss" => received.lost[slot] = true,
        "first to read" => received.first = Some(first(random, received, pieces).1),
        _ => {
            let octets: Vec<usize> = pieces.iter().filter_map(|piece| octet_of(random, kind, piece)).collect();
            if !octets.is_empty() {
                let octet = random.pick(&octets);
                change(random, received, octet);
            }
        }
    }
}

#[test]
fn damaged_slots() {
    let mut random = Random::new(97);
    let (mut alone, mut ends) = (Counts::default(), Counts::default());
    streams(&mut random, 500, |random, stream| {
        let mut received = Received::new(stream.rate, filled_stream(random, &stream).1);
        let pieces = stream.pieces();
        let before = if random.chance(2) { Some(received.read(random)) } else { None };
        let times = if before.is_some() { 1 } else { 2 + random.below(8) };
        let mut kind = "";
        for _ in 0..times {
            kind = random.pick(&DAMAGES);
            damage(random, kind, &pieces, &mut received);
        }
        let after = received.read(random);
        // A kind counts where it alone made a difference.
        if let Some(before) = before {
            alone.add_if(before != after, kind);
        }
        ends.add(if after.1.is_some() { "unfinished" } else { "nothing unfinished" });
        ends.add_if(after.0.is_empty(), "no packets");
        received.spoil_lost(random);
        assert!(received.read(random) == after, "octets of lost slots are not looked at");
    });
    alone.are(&DAMAGES);
    ends.are(&["unfinished", "nothing unfinished", "no packets"]);
}

/// From where a packet begins, what is read is that packet and what follows; elsewhere it is as in the second implementation.
#[test]
fn reading_begins_at_any_octet_of_the_first_slot() {
    let mut random = Random::new(100);
    let mut kinds = Counts::default();
    streams(&mut random, 100, |random, stream| {
        let mut received = Received::new(stream.rate, filled_stream(random, &stream).1);
        received.lose(random);
        let pieces = stream.pieces();
        let (kind, octet) = first(random, &received, &pieces);
        // What the first slot reports does not matter then.
        if octet != NO_BEGIN {
            received.begins[0] = random.pick(&[received.begins[0], 0, 5, NO_BEGIN]);
        }
        received.first = Some(octet);
        let read = received.read(random);
        kinds.add(kind);
        if pieces.iter().any(|piece| piece.at == octet.into()) {
            let (mut whole, cut) = expected_pieces(&stream, &received.lost);
            whole.retain(|piece| piece.at >= octet.into());
            let packets: Vec<u8> = whole.into_iter().flat_map(|piece| piece.octets).collect();
            assert!(read.0 == packets);
            assert_eq!(read.1, cut.map(|piece| piece.at).filter(|&at| at >= octet.into()));
        }
    });
    kinds.are(&[
        "octet 0",
        "the slot's report",
        "the first reported",
        "the last octet",
        "where a packet begins",
        "any octet",
    ]);
}

/// A null packet over several slots is made wrong by packets within it, which later slots report. Reading goes on at each of
/// them, behind the slot of the null's head or behind the first lost slot that the null meets.
#[test]
fn a_wrong_null_is_left_behind_its_first_slot_or_a_lost_one() {
    let mut random = Random::new(98);
    let mut kinds = Counts::default();
    for rate in (0..trials(60)).flat_map(|_| Rate::ALL) {
        let (data, slots) = (rate.data_octets(), 3 + random.below(4));
        let body = (slots - 1) * data + random.below(data - 3);
        let [high, low] = (body as u16).to_be_bytes();
        let null = [vec![0x7f, 0xff, high, low], vec![0xff; body]].concat();
        let (_, filled) = filled(&mut random, rate, &null, TlvFilled::default(), slots);
        let mut received = Received::new(rate, filled);
        received.lose(&mut random);
        let past = received.lost.iter().position(|&lost| lost).unwrap_or(0);
        let mut expected = Vec::new();
        for slot in 1..slots - 1 {
            let packet = [vec![0x7f, 0xfe, 0, 40], random.octets(40)].concat();
            plant(&mut random, &mut received, slot, &packet);
            if slot > past && !received.lost[slot] {
                expected.extend(packet);
            }
        }
        received.spoil_lost(&mut random);
        kinds.add_if(past == 0 && !expected.is_empty(), "behind the head's slot");
        kinds.add_if(past > 0 && !expected.is_empty(), "behind a lost slot");
        assert!(received.read(&mut random).0 == expected);
    }
    kinds.are(&["behind the head's slot", "behind a lost slot"]);
}
