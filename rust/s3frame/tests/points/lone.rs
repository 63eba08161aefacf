//! Points of lone labels.
use crate::common::points::{Lists, NOT_FINITE, SIGN};
use crate::common::{trials, Counts, Random};
use crate::point;
use s3frame::{Modulation, Refusal};

/// What the bits of a finite coordinate are.
fn kind(coordinate: u32) -> &'static str {
    match (coordinate & SIGN == 0, coordinate & !SIGN) {
        (true, 0) => "zero",
        (false, 0) => "negative zero",
        (_, 0x7f7f_ffff) => "largest",
        (_, magnitude) if magnitude < 0x0080_0000 => "denormal",
        (true, _) => "positive",
        (false, _) => "negative",
    }
}

const KINDS: [&str; 6] = ["zero", "negative zero", "largest", "denormal", "positive", "negative"];

#[test]
fn points_are_the_lent_ones_and_even_bpsk_ones_are_turned() {
    let mut random = Random::new(121);
    let (mut lent, mut turned) = (Counts::default(), Counts::default());
    for modulation in (0..trials(400)).flat_map(|_| Modulation::ALL) {
        let lists = Lists::new(&mut random, modulation);
        for label in lists.labels() {
            let ([i, q], symbol) = (lists.entries(label), random.symbol(modulation));
            let (expected, kinds) = match modulation {
                Modulation::Bpsk if symbol % 2 == 0 => ([q ^ SIGN, i], &mut turned),
                _ => ([i, q], &mut lent),
            };
            assert_eq!(point(&lists, label, symbol), Ok(expected), "symbol {symbol}");
            [i, q].into_iter().for_each(|coordinate| kinds.add(kind(coordinate)));
        }
    }
    lent.are(&KINDS);
    turned.are(&KINDS);
}

#[test]
fn symbols_count_for_bpsk_alone() {
    let mut random = Random::new(122);
    let symbols = [0, 1, 2, 3, 44_879, 44_880, 65_535, 65_536, (1 << 31) - 1, 1 << 31, u32::MAX - 1, u32::MAX];
    for modulation in Modulation::ALL {
        let lists = Lists::new(&mut random, modulation);
        for (label, symbol) in lists.labels().flat_map(|label| symbols.map(|symbol| (label, symbol))) {
            let [i, q] = lists.entries(label);
            let expected = match (modulation, symbol) {
                (Modulation::Bpsk, 0) => Err(Refusal::Length),
                (Modulation::Bpsk, _) if symbol % 2 == 0 => Ok([q ^ SIGN, i]),
                _ => Ok([i, q]),
            };
            assert_eq!(point(&lists, label, symbol), expected, "symbol {symbol} of {modulation}");
        }
    }
}

/// The same lists with what is not finite in one place of a label's: each such value, of both signs.
fn spoilt(lists: &Lists, label: u8) -> Vec<Lists> {
    let with = |wrong: u32, which: usize| {
        let mut spoilt = lists.clone();
        spoilt.coordinates[which].0[usize::from(label)] = f32::from_bits(wrong);
        spoilt
    };
    let values = NOT_FINITE.into_iter().flat_map(|wrong| [wrong, wrong | SIGN]);
    values.flat_map(|wrong| [0, 1].map(|which| with(wrong, which))).collect()
}

#[test]
fn an_entry_counts_where_it_is_used_and_there_alone() {
    let mut random = Random::new(123);
    for modulation in Modulation::ALL {
        let lists = Lists::new(&mut random, modulation);
        for label in lists.labels() {
            let entries = |other| if other == label { Err(Refusal::Coordinate) } else { Ok(lists.entries(other)) };
            for spoilt in spoilt(&lists, label) {
                lists.labels().for_each(|other| assert_eq!(point(&spoilt, other, 1), entries(other), "{spoilt:?}"));
            }
        }
    }
}

#[test]
fn every_entry_but_one_may_be_infinite_or_not_a_number() {
    let mut random = Random::new(124);
    for modulation in (0..trials(20)).flat_map(|_| Modulation::ALL) {
        let lists = Lists::new(&mut random, modulation);
        let label = random.below(modulation.points()) as u8;
        let mut spoilt = lists.clone();
        lists.labels().filter(|&other| other != label).for_each(|other| spoilt.spoil(&mut random, other));
        for symbol in [1, 2] {
            let expected = point(&lists, label, symbol);
            assert!(expected.is_ok());
            for other in lists.labels() {
                let expected = if other == label { expected } else { Err(Refusal::Coordinate) };
                assert_eq!(point(&spoilt, other, symbol), expected);
            }
        }
    }
}

/// What quarter turns make of a point, one after the other; the last gives the point again.
fn quarters([i, q]: [u32; 2]) -> [[u32; 2]; 4] {
    [[q ^ SIGN, i], [i ^ SIGN, q ^ SIGN], [q, i ^ SIGN], [i, q]]
}

#[test]
fn four_quarter_turns_give_the_lent_points_back() {
    let mut random = Random::new(125);
    for _ in 0..trials(500) {
        let lent = Lists::new(&mut random, Modulation::Bpsk);
        let mut lists = lent.clone();
        for turn in 0..4 {
            let even = 2 + 2 * random.below(1 << 30) as u32;
            let turned = [0, 1].map(|label| point(&lists, label, even));
            let expected = [0, 1].map(|label| quarters(lent.entries(label))[turn]);
            assert_eq!(turned, expected.map(Ok));
            lists = Lists::of_points(Modulation::Bpsk, &expected);
        }
        assert_eq!(lists, lent);
    }
}

#[test]
fn a_label_of_more_bits_is_refused() {
    let mut random = Random::new(126);
    for modulation in Modulation::ALL {
        let lists = Lists::new(&mut random, modulation);
        let limit = modulation.points() as u8;
        for label in limit..=255 {
            assert_eq!(point(&lists, label, 1), Err(Refusal::Label), "label {label} of {modulation}");
        }
        assert!(lists.labels().all(|label| point(&lists, label, 1).is_ok()));
    }
}

#[test]
fn lists_have_an_entry_for_each_label() {
    let mut random = Random::new(139);
    for modulation in Modulation::ALL {
        let (right, count) = (Lists::new(&mut random, modulation), modulation.points());
        for length in (0..=2 * count + 1).filter(|&length| length != count) {
            let wrong = [(); 2].map(|()| random.floats(length));
            let [i, q] = [0, 1].map(|which| (wrong[which].clone(), right.coordinates[which].clone()));
            for coordinates in [[i.0, q.1], [i.1, q.0], wrong] {
                let lists = Lists { modulation, coordinates };
                assert_eq!(point(&lists, 0, 1), Err(Refusal::Length), "{length} entries of {modulation}");
            }
        }
        assert!(point(&right, 0, 1).is_ok());
    }
}
