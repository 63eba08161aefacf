//! Reading slots that were filled, of which some may be lost.
use crate::common::tlv::{Piece, Stream, FILLER};
use crate::common::{Counts, Random};
use crate::{cut, filled_stream, streams, Slots, CUTS};
use s3frame::{read_tlv, Rate, Refusal, TlvFilled, TlvRead, NO_BEGIN};

/// Slots as they are received.
#[derive(Clone)]
pub struct Received {
    pub rate: Rate,
    pub slots: Vec<u8>,
    pub begins: Vec<u16>,
    pub lost: Vec<bool>,
    pub first: Option<u16>,
}

impl Received {
    /// All that was filled, from the first reported beginning on.
    pub fn new(rate: Rate, (slots, begins): Slots) -> Received {
        let lost = vec![false; begins.len()];
        Received { rate, slots, begins, lost, first: None }
    }

    /// Reads both ways; answers and areas must be the same. Gives the packets, and where the unfinished one begins.
    pub fn read(&self, random: &mut Random) -> (Vec<u8>, Option<usize>) {
        let found = random.octets(self.slots.len());
        let [mut ours, mut theirs] = [found.clone(), found.clone()];
        let marks: Vec<u8> = self.lost.iter().map(|&lost| lost.into()).collect();
        let first = self.first.map_or(65_535, u32::from);
        let (slots, begins) = (&self.slots, &self.begins);
        let expected = reference::tlv::read(self.rate as usize, slots, begins, &marks, first, &mut theirs);
        let (written, begin) = expected.expect("slots and reports");
        let unfinished = (begin < slots.len()).then_some(begin);
        let answer = read_tlv(self.rate, slots, begins, &self.lost, self.first, &mut ours);
        assert_eq!(answer, Ok(TlvRead { written, unfinished }));
        assert!(ours == theirs && ours[written..] == found[written..], "the packets differ");
        ours.truncate(written);
        (ours, unfinished)
    }

    /// Marks slots as lost: none, one, some or all.
    pub fn lose(&mut self, random: &mut Random) {
        let count = self.lost.len();
        match random.below(8) {
            0 => (),
            1 => self.lost.fill(true),
            2 => self.lost.iter_mut().for_each(|lost| *lost = random.chance(2)),
            3 => self.lost[0] = true,
            4 => self.lost[count - 1] = true,
            _ => self.lost[random.below(count)] = true,
        }
    }

    /// Puts octets of chance into lost slots.
    pub fn spoil_lost(&mut self, random: &mut Random) {
        let data = self.rate.data_octets();
        for (slot, _) in self.slots.chunks_mut(data).zip(&self.lost).filter(|(_, &lost)| lost) {
            slot.copy_from_slice(&random.source(data));
        }
    }
}

/// The pieces of a stream that must be read where slots are lost, and the one that must be unfinished.
pub fn expected_pieces(stream: &Stream, lost: &[bool]) -> (Vec<Piece>, Option<Piece>) {
    let sound = |piece: &Piece| !piece.touches(stream.data(), lost);
    let (cut, mut whole): (Vec<Piece>, Vec<Piece>) =
        stream.pieces().into_iter().filter(sound).partition(|piece| piece.end() > stream.room());
    whole.retain(|piece| piece.octets != FILLER);
    (whole, cut.into_iter().next())
}

/// The packets that must be read, and where the unfinished one begins.
fn expected(stream: &Stream, lost: &[bool]) -> (Vec<u8>, Option<usize>) {
    let (whole, cut) = expected_pieces(stream, lost);
    (whole.into_iter().flat_map(|piece| piece.octets).collect(), cut.map(|piece| piece.at))
}

/// The kinds of packets that are read.
fn count_packets(counts: &mut Counts, stream: &Stream, lost: &[bool]) {
    for piece in expected_pieces(stream, lost).0 {
        counts.add(match piece.octets[1] {
            0x01 => "IPv4",
            0x02 => "IPv6",
            0x03 => "compressed IP",
            0xfe => "signalling",
            _ => "null with a body",
        });
        counts.add_if(piece.octets.len() == 4, "without a body");
        counts.add_if(piece.at / stream.data() + 1 < (piece.end() - 1) / stream.data(), "over three slots");
        counts.add_if(lost[..piece.at / stream.data()].contains(&true), "behind a lost slot");
        counts.add_if(lost[piece.at / stream.data()..].contains(&true), "before a lost slot");
    }
}

#[test]
fn what_was_filled_is_read_but_for_what_touches_a_lost_slot() {
    let mut random = Random::new(94);
    let (mut lost_at, mut ends) = (Counts::default(), Counts::default());
    let (mut packets, mut kinds) = (Counts::default(), Counts::default());
    streams(&mut random, 400, |random, stream| {
        let mut received = Received::new(stream.rate, filled_stream(random, &stream).1);
        received.lose(random);
        received.spoil_lost(random);
        received.first = random.pick(&[None, Some(received.begins[0]), Some(NO_BEGIN)]);
        let read = received.read(random);
        assert!(read == expected(&stream, &received.lost));

        let (pieces, lost) = (stream.pieces(), &received.lost);
        for slot in (1..stream.slots).filter(|&slot| lost[slot]) {
            lost_at.add(cut(&pieces, slot * stream.data()));
        }
        ends.add_if(read.1.is_some(), cut(&pieces, stream.room()));
        count_packets(&mut packets, &stream, lost);
        kinds.add_if(!lost.contains(&true), "nothing lost");
        kinds.add_if(!lost.contains(&false), "all lost");
        kinds.add_if(stream.packets.iter().any(|packet| *packet == FILLER), "empty nulls of the caller's own");
        let lost_and_cut = |piece: &Piece| piece.end() > stream.room() && piece.touches(stream.data(), lost);
        kinds
            .add_if(pieces.iter().any(lost_and_cut) && !lost[stream.slots - 1], "lost in its midst and cut by the end");
    });
    lost_at.are(&CUTS);
    ends.are(&CUTS[1..]);
    packets.are(&[
        "IPv4",
        "IPv6",
        "compressed IP",
        "signalling",
        "null with a body",
        "without a body",
        "over three slots",
        "behind a lost slot",
        "before a lost slot",
    ]);
    kinds.are(&["nothing lost", "all lost", "empty nulls of the caller's own", "lost in its midst and cut by the end"]);
}

/// Overwrites what is seen of pieces that are not whole, and says what they were. Of a whole head the body alone is
/// overwritten, since the head says how far it reaches.
fn spoil_broken(random: &mut Random, stream: &Stream, received: &mut Received, kinds: &mut Counts) {
    for piece in stream.pieces() {
        let head = Piece { at: piece.at, octets: piece.octets[..4].to_vec() };
        let whole = |piece: &Piece| piece.end() <= stream.room() && !piece.touches(stream.data(), &received.lost);
        if whole(&piece) {
            continue;
        }
        let lost = piece.touches(stream.data(), &received.lost);
        kinds.add(match (whole(&head), lost, piece.is_null()) {
            (false, false, _) => "head cut by the end",
            (false, true, _) => "head that meets a lost slot",
            (true, false, false) => "body cut by the end",
            (true, false, true) => "null cut by the end",
            (true, true, false) => "body that meets a lost slot",
            (true, true, true) => "null that meets a lost slot",
        });
        let from = if whole(&head) { head.end() } else { piece.at };
        let seen = &mut received.slots[from..piece.end().min(stream.room())];
        seen.copy_from_slice(&random.source(seen.len()));
    }
}

#[test]
fn what_is_not_whole_is_not_judged() {
    let mut random = Random::new(95);
    let mut kinds = Counts::default();
    streams(&mut random, 120, |random, stream| {
        let mut received = Received::new(stream.rate, filled_stream(random, &stream).1);
        received.lose(random);
        spoil_broken(random, &stream, &mut received, &mut kinds);
        // Nor is what stands before the first beginning: the rest of a packet or filler that was begun before.
        let begun = stream.pieces().first().map_or(stream.room(), |piece| piece.at);
        kinds.add_if(begun > 0, "rest of what was begun before");
        received.slots[..begun].copy_from_slice(&random.source(begun));
        assert!(received.read(random) == expected(&stream, &received.lost));
    });
    kinds.are(&[
        "head cut by the end",
        "head that meets a lost slot",
        "body cut by the end",
        "null cut by the end",
        "body that meets a lost slot",
        "null that meets a lost slot",
        "rest of what was begun before",
    ]);
}

/// Reads slots in two calls: what the first leaves unfinished is lent again, from the slot where it begins.
fn read_in_two(random: &mut Random, all: &Received, before: usize) -> (Vec<u8>, Option<usize>) {
    let data = all.rate.data_octets();
    let part = |from: usize, to: usize, first: Option<u16>| Received {
        rate: all.rate,
        slots: all.slots[from * data..to * data].to_vec(),
        begins: all.begins[from..to].to_vec(),
        lost: all.lost[from..to].to_vec(),
        first,
    };
    let (packets, unfinished) = part(0, before, None).read(random);
    let from = unfinished.map_or(before, |at| at / data);
    let first = unfinished.map(|at| (at % data) as u16);
    let (more, unfinished) = part(from, all.begins.len(), first).read(random);
    ([packets, more].concat(), unfinished.map(|at| from * data + at))
}

#[test]
fn reading_in_two_calls_is_reading_once() {
    let mut random = Random::new(96);
    let (mut cuts, mut kinds) = (Counts::default(), Counts::default());
    streams(&mut random, 150, |random, stream| {
        if stream.slots == 1 {
            return;
        }
        let mut received = Received::new(stream.rate, filled_stream(random, &stream).1);
        received.lose(random);
        let before = 1 + random.below(stream.slots - 1);
        let (packets, unfinished) = read_in_two(random, &received, before);
        assert!((packets, unfinished) == expected(&stream, &received.lost));
        cuts.add(cut(&stream.pieces(), before * stream.data()));
        kinds.add_if(received.lost[before - 1], "loss before");
        kinds.add_if(received.lost[before], "loss behind");
        kinds.add_if(!received.lost.contains(&true), "nothing lost");
    });
    cuts.are(&CUTS);
    kinds.are(&["loss before", "loss behind", "nothing lost"]);
}

/// Packets that are lent when those before have run out follow the fillers, and all come back together.
#[test]
fn packets_lent_later_follow_the_fillers() {
    let mut random = Random::new(99);
    let mut kinds = Counts::default();
    streams(&mut random, 100, |random, stream| {
        let (came, (mut slots, mut begins)) = filled_stream(random, &stream);
        if came.taken < stream.lent().len() {
            return;
        }
        let later = Stream { from: TlvFilled { taken: 0, owed: came.owed }, ..Stream::new(random, stream.rate) };
        let (_, more) = filled_stream(random, &later);
        slots.extend(more.0);
        begins.extend(more.1);
        let [first, second] = [&stream, &later].map(|stream| expected(stream, &[]));
        let unfinished = second.1.map(|at| stream.room() + at);
        let read = Received::new(stream.rate, (slots, begins)).read(random);
        assert!(read == ([first.0, second.0].concat(), unfinished));
        kinds.add(["nothing owed", "one owed", "two owed", "three owed"][came.owed]);
    });
    kinds.are(&["nothing owed", "one owed", "two owed", "three owed"]);
}

#[test]
fn an_octet_past_its_slot_is_refused() {
    for rate in Rate::ALL {
        let (data, found) = (rate.data_octets(), vec![7; 2 * rate.data_octets()]);
        let read = |begins: [u16; 2], first| {
            let mut packets = found.clone();
            let answer = read_tlv(rate, &vec![0; 2 * data], &begins, &[false, true], first, &mut packets);
            assert!(packets == found);
            answer
        };
        for past in [data as u16, data as u16 + 1, 65_534] {
            assert_eq!(read([0, 0], Some(past)), Err(Refusal::Length));
            assert_eq!([read([0, past], None), read([past, 0], Some(0))], [Err(Refusal::Length); 2]);
        }
        let last = data as u16 - 1;
        assert_eq!(read([last, NO_BEGIN], Some(last)), Ok(TlvRead { written: 0, unfinished: None }));
    }
}
