//! TLV channels beside the second implementation: filling, reading, and what both promise together.
#[path = "../common/mod.rs"]
mod common;
mod damage;
mod filling;
mod reading;
use common::tlv::{Piece, Stream, FILLER};
use common::{trials, Random};
use s3frame::{fill_tlv, Rate, Refusal, TlvFilled};

/// Slots and their reports.
type Slots = (Vec<u8>, Vec<u16>);

/// Fills so many slots both ways; answers and areas must be the same.
fn filled(
    random: &mut Random,
    rate: Rate,
    packets: &[u8],
    from: TlvFilled,
    count: usize,
) -> (Result<TlvFilled, Refusal>, Slots) {
    let found = (random.octets(count * rate.data_octets()), random.numbers(count));
    let [mut ours, mut theirs] = [found.clone(), found];
    let answer = fill_tlv(rate, packets, from, &mut ours.0, &mut ours.1);
    let expected = reference::tlv::fill(rate as usize, packets, from.taken, from.owed, &mut theirs.0, &mut theirs.1);
    assert_eq!(answer.map(|filled| (filled.taken, filled.owed)).map_err(|refusal| refusal as u8), expected);
    assert!(ours == theirs, "slots or reports differ");
    (answer, ours)
}

/// The slots of a stream whose packets are right, and how far filling has come then.
fn filled_stream(random: &mut Random, stream: &Stream) -> (TlvFilled, Slots) {
    let (answer, slots) = filled(random, stream.rate, &stream.lent(), stream.from, stream.slots);
    (answer.expect("packets that are right"), slots)
}

/// Streams of all rates, so many of each.
fn streams(random: &mut Random, usual: usize, mut each: impl FnMut(&mut Random, Stream)) {
    for rate in (0..trials(usual)).flat_map(|_| Rate::ALL) {
        let stream = Stream::new(random, rate);
        each(random, stream);
    }
}

/// What the end of a slot cuts.
fn cut(pieces: &[Piece], end: usize) -> &'static str {
    let piece = match pieces.iter().find(|piece| piece.at < end && end < piece.end()) {
        Some(piece) => piece,
        None => return "nothing",
    };
    match (piece.octets == FILLER, end - piece.at) {
        (true, 1) => "filler behind 1",
        (true, 2) => "filler behind 2",
        (true, _) => "filler behind 3",
        (_, 1) => "head behind 1",
        (_, 2) => "head behind 2",
        (_, 3) => "head behind 3",
        (_, 4) => "packet behind its head",
        _ if piece.is_null() => "null body",
        _ => "body",
    }
}

const CUTS: [&str; 10] = [
    "nothing",
    "filler behind 1",
    "filler behind 2",
    "filler behind 3",
    "head behind 1",
    "head behind 2",
    "head behind 3",
    "packet behind its head",
    "null body",
    "body",
];
