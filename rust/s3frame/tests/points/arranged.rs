//! Points of the signal point arrangement signal, and its register.
use crate::common::faults::break_settings;
use crate::common::points::{Lists, SIGN};
use crate::common::{trials, Counts, Random};
use crate::{arranged_point, point, stepped};
use reference::dispersal::disperse;
use s3frame::{ArrangedRegister, Modulation, Refusal};

/// The bits of the register.
const WIDTH: u32 = 15;

/// The symbols of the arrangement signal.
const SYMBOLS: usize = 32;

/// Document 002, 2.2.1.11: all labels in their order, as often as 32 symbols have room for.
fn sent_labels(modulation: Modulation) -> Vec<u8> {
    (0..modulation.points() as u8).cycle().take(SYMBOLS).collect()
}

/// Sends the arrangement signal from a symbol on, with points that must be turned where these bits are ones; gives the register
/// behind it.
fn send(lists: &Lists, first: u32, mut at: ArrangedRegister, ones: &[u8]) -> ArrangedRegister {
    for ((symbol, label), &one) in (first..).zip(sent_labels(lists.modulation)).zip(ones) {
        let plain = point(lists, label, symbol).expect("a point");
        let turned = plain.map(|coordinate| coordinate ^ u32::from(one) << 31);
        assert_eq!(arranged_point(lists, label, symbol, at), Ok(turned), "symbol {symbol}, label {label}");
        at = stepped(at).expect("a register that is allowed");
    }
    at
}

/// The register goes on from slot to slot of a frame, whatever their modulations.
#[test]
fn the_arrangement_signal_of_every_modulation() {
    let mut random = Random::new(127);
    let mut kinds = Counts::default();
    for _ in 0..trials(50) {
        let mut at = random.arranged_register();
        for modulation in Modulation::ALL.into_iter().rev() {
            let lists = Lists::new(&mut random, modulation);
            let first = random.symbol(modulation).min(u32::MAX - SYMBOLS as u32);
            let mut ones = [0; SYMBOLS];
            let behind = disperse(WIDTH, at.mask, at.register, &mut ones);
            at = send(&lists, first, at, &ones);
            assert_eq!(at.register, behind);
            kinds.add_if(ones.contains(&0), "as they are");
            kinds.add_if(ones.contains(&1), "turned");
            kinds.add_if(modulation == Modulation::Bpsk && first % 2 == 1, "BPSK from an odd symbol on");
            kinds.add_if(modulation == Modulation::Bpsk && first % 2 == 0, "BPSK from an even symbol on");
        }
    }
    kinds.are(&["as they are", "turned", "BPSK from an odd symbol on", "BPSK from an even symbol on"]);
}

#[test]
fn labels_as_document_002_sends_them() {
    assert_eq!(sent_labels(Modulation::Apsk32), (0..32).collect::<Vec<u8>>());
    assert_eq!(sent_labels(Modulation::Bpsk), [0, 1].repeat(16));
    assert_eq!(sent_labels(Modulation::Psk8), (0..8).collect::<Vec<u8>>().repeat(4));
}

#[test]
fn the_bit_of_top_weight_turns_whatever_the_others_are() {
    let mut random = Random::new(128);
    for register in 1..1 << WIDTH {
        let lists = Lists::new(&mut random, Modulation::Bpsk);
        let (label, symbol) = (random.below(2) as u8, random.symbol(Modulation::Bpsk));
        let at = ArrangedRegister { register, ..random.arranged_register() };
        let plain = point(&lists, label, symbol).expect("a point");
        let sign = if register >= 1 << 14 { SIGN } else { 0 };
        assert_eq!(arranged_point(&lists, label, symbol, at), Ok(plain.map(|coordinate| coordinate ^ sign)));
    }
}

#[test]
fn two_half_turns_give_the_lent_points_back() {
    let mut random = Random::new(129);
    for modulation in (0..trials(100)).flat_map(|_| Modulation::ALL) {
        let lent = Lists::new(&mut random, modulation);
        let turned = |lists: &Lists, at| {
            let points = lent.labels().map(|label| arranged_point(lists, label, 1, at).expect("a point"));
            Lists::of_points(modulation, &points.collect::<Vec<_>>())
        };
        let ones = [(); 2].map(|()| {
            let at = random.arranged_register();
            ArrangedRegister { register: at.register | 1 << 14, ..at }
        });
        let once = turned(&lent, ones[0]);
        let opposite = |label| once.entries(label) == lent.entries(label).map(|coordinate| coordinate ^ SIGN);
        assert!(lent.labels().all(opposite));
        assert_eq!(turned(&once, ones[1]), lent);
    }
}

/// Every register under masks of chance, and under the least and the greatest mask.
#[test]
fn every_register_steps() {
    let mut random = Random::new(130);
    let (top, all) = (1 << 14, (1 << WIDTH) - 1);
    for mask in [top, top | 1, all, random.arranged_register().mask, random.arranged_register().mask] {
        for register in 1..=all {
            let shared = (register & mask).count_ones() % 2;
            let after = stepped(ArrangedRegister { mask, register }).expect("a register that is allowed");
            assert_eq!(after, ArrangedRegister { mask, register: (2 * register + shared) % (1 << WIDTH) });
        }
    }
}

#[test]
fn masks_and_registers_that_are_not_allowed() {
    let mut random = Random::new(131);
    for _ in 0..trials(200) {
        let modulation = random.modulation();
        let (lists, mut at) = (Lists::new(&mut random, modulation), random.arranged_register());
        assert!(arranged_point(&lists, 0, 1, at).is_ok() && stepped(at).is_ok());
        break_settings(&mut random, WIDTH, &mut at.mask, &mut at.register);
        assert_eq!(arranged_point(&lists, 0, 1, at), Err(Refusal::Register), "{at:?}");
        assert_eq!(stepped(at), Err(Refusal::Register), "{at:?}");
    }
}

#[test]
fn what_a_lone_point_refuses() {
    let mut random = Random::new(132);
    for modulation in (0..trials(20)).flat_map(|_| Modulation::ALL) {
        let (mut lists, at) = (Lists::new(&mut random, modulation), random.arranged_register());
        let label = random.below(modulation.points()) as u8;
        lists.spoil(&mut random, label);
        for other in 0..=255 {
            let plain = point(&lists, other, 1).map(drop);
            assert_eq!(arranged_point(&lists, other, 1, at).map(drop), plain);
        }
        let without_symbol = arranged_point(&lists, label, 0, at);
        let expected = if modulation == Modulation::Bpsk { Refusal::Length } else { Refusal::Coordinate };
        assert_eq!(without_symbol, Err(expected));
    }
}
