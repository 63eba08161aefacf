//! Filling slots.
use crate::common::faults::{break_packets, PACKET_FAULTS};
use crate::common::tlv::{Piece, Stream, FILLER};
use crate::common::{Counts, Random};
use crate::{cut, filled, filled_stream, streams, CUTS};
use s3frame::{Refusal, TlvFilled, NO_BEGIN};

/// The report of each slot, by the pieces that begin in it.
fn reports(stream: &Stream, pieces: &[Piece]) -> Vec<u16> {
    let report = |slot: usize| {
        let inside = |piece: &&Piece| piece.at / stream.data() == slot;
        pieces.iter().find(inside).map_or(NO_BEGIN, |piece| (piece.at % stream.data()) as u16)
    };
    (0..stream.slots).map(report).collect()
}

#[test]
fn slots_hold_the_owed_octets_the_packets_and_fillers() {
    let mut random = Random::new(91);
    let (mut slot_ends, mut ends, mut kinds) = (Counts::default(), Counts::default(), Counts::default());
    streams(&mut random, 250, |random, stream| {
        let (answer, (slots, begins)) = filled_stream(random, &stream);
        let (lent, pieces) = (stream.lent(), stream.pieces());
        let TlvFilled { taken, owed } = stream.from;
        let whole = [&FILLER[4 - owed..], &lent[taken..], &FILLER.repeat(stream.room() / 4 + 1)].concat();
        assert!(slots == whole[..stream.room()]);
        assert_eq!(begins, reports(&stream, &pieces));
        let in_all = lent.len().min(taken + stream.room() - owed);
        let left = pieces.last().map_or(0, |piece| piece.end().saturating_sub(stream.room()));
        let left = if in_all == lent.len() { left } else { 0 };
        assert_eq!(answer, TlvFilled { taken: in_all, owed: left });

        (1..stream.slots).for_each(|slot| slot_ends.add(cut(&pieces, slot * stream.data())));
        ends.add(cut(&pieces, stream.room()));
        kinds.add_if(lent.is_empty(), "no packets");
        kinds.add_if(begins.contains(&NO_BEGIN), "slot without a beginning");
        kinds.add_if(owed == 3, "three owed");
        kinds.add_if(owed > 0 && taken > 0, "owed behind all packets");
        kinds.add_if(taken > 0 && taken < lent.len() && begins[0] != 0, "taken inside a packet");
        kinds.add_if(in_all < lent.len(), "packets left");
        kinds.add_if(in_all == lent.len() && taken < in_all, "packets run out");
    });
    slot_ends.are(&CUTS);
    ends.are(&CUTS);
    kinds.are(&[
        "no packets",
        "slot without a beginning",
        "three owed",
        "owed behind all packets",
        "taken inside a packet",
        "packets left",
        "packets run out",
    ]);
}

#[test]
fn wrong_packets_are_refused() {
    let mut random = Random::new(92);
    let mut kinds = Counts::default();
    streams(&mut random, 60, |random, mut stream| {
        let way = random.pick(&PACKET_FAULTS);
        break_packets(random, way, &mut stream.packets);
        let lent = stream.lent();
        let taken = [0, random.below(lent.len() + 1), lent.len()];
        let from = TlvFilled { taken: random.pick(&taken), owed: 0 };
        let (answer, _) = filled(random, stream.rate, &lent, from, stream.slots);
        assert_eq!(answer, Err(Refusal::Packet), "{way}");
        kinds.add(way);
    });
    kinds.are(&PACKET_FAULTS);
}

#[test]
fn filling_in_two_calls_is_filling_once() {
    let mut random = Random::new(93);
    let mut kinds = Counts::default();
    streams(&mut random, 150, |random, stream| {
        if stream.slots == 1 {
            return;
        }
        let (lent, before) = (stream.lent(), 1 + random.below(stream.slots - 1));
        let once = filled_stream(random, &stream);
        let (answer, first) = filled(random, stream.rate, &lent, stream.from, before);
        let between = answer.expect("packets that are right");
        let (answer, second) = filled(random, stream.rate, &lent, between, stream.slots - before);
        let twice = ([first.0, second.0].concat(), [first.1, second.1].concat());
        assert_eq!(answer, Ok(once.0));
        assert!(twice == once.1, "slots or reports differ");
        kinds.add(match between.owed {
            0 if between.taken < lent.len() => "packets left",
            0 => "nothing owed",
            1 => "one owed",
            2 => "two owed",
            _ => "three owed",
        });
    });
    kinds.are(&["packets left", "nothing owed", "one owed", "two owed", "three owed"]);
}
