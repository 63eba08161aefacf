//! Signal points worked by hand, sentence by sentence.
use super::*;

/// The register's settings of document 01: the top weight alone, and the lowest bit.
const MASK: u32 = 1 << 14;
const START: u32 = 1;

/// What areas hold before a call: a NaN with a payload of its own.
const FOUND: u32 = 0xffa5_a5a5;

const INFINITE: f32 = f32::INFINITY;

/// BPSK: symbol 0 in the first quadrant and 1 in the third.
const BPSK_LISTS: [[f32; 2]; 2] = [[0.6, -0.6], [0.8, -0.8]];

/// QPSK, each label with coordinates of its own, both zeros among them.
const QPSK_LISTS: [[f32; 4]; 2] = [[1.5, -2.5, 0.0, -0.0], [-3.5, 4.5, -0.0, 0.0]];

fn bits<const N: usize>(floats: [f32; N]) -> [u32; N] {
    floats.map(f32::to_bits)
}

fn bpsk(label: u32, symbol: u32) -> Result<Point, u8> {
    point(1, label, symbol, &BPSK_LISTS[0], &BPSK_LISTS[1])
}

fn qpsk(label: u32, symbol: u32) -> Result<Point, u8> {
    point(2, label, symbol, &QPSK_LISTS[0], &QPSK_LISTS[1])
}

fn arranged_qpsk(label: u32, register: u32) -> Result<Point, u8> {
    arranged_point(2, label, 0, &QPSK_LISTS[0], &QPSK_LISTS[1], MASK, register)
}

/// The number and the bits of both areas after making points of labels.
fn many(modulation: usize, symbol: u32, labels: &[u8], lists: [&[f32]; 2]) -> (u8, [Vec<u32>; 2]) {
    let [mut i_out, mut q_out] = [(); 2].map(|()| vec![f32::from_bits(FOUND); labels.len()]);
    let number = points(modulation, symbol, labels, lists[0], lists[1], &mut i_out, &mut q_out);
    (number, [i_out, q_out].map(|area| area.iter().map(|float| float.to_bits()).collect()))
}

#[test]
fn even_symbols_of_bpsk_turn_by_90_degrees() {
    for odd in [1, 3, 44_879, u32::MAX] {
        assert_eq!([0, 1].map(|label| bpsk(label, odd)), [Ok(bits([0.6, 0.8])), Ok(bits([-0.6, -0.8]))]);
    }
    for even in [2, 4, 44_880, 1 << 31, u32::MAX - 1] {
        assert_eq!([0, 1].map(|label| bpsk(label, even)), [Ok(bits([-0.8, 0.6])), Ok(bits([0.8, -0.6]))]);
    }
}

#[test]
fn other_modulations_take_the_entries_as_they_are() {
    for symbol in [0, 1, 2, u32::MAX] {
        let expected = [[1.5, -3.5], [-2.5, 4.5], [0.0, -0.0], [-0.0, 0.0]].map(|point| Ok(bits(point)));
        assert_eq!([0, 1, 2, 3].map(|label| qpsk(label, symbol)), expected);
    }
    for modulation in 1..=5 {
        let list: Vec<f32> = (0..1 << modulation).map(|entry| entry as f32).collect();
        let last = (1 << modulation) - 1;
        assert_eq!(point(modulation, last, 1, &list, &list), Ok(bits([last as f32; 2])));
        assert_eq!(point(modulation, last + 1, 1, &list, &list), Err(12));
    }
}

#[test]
fn zeros_turn_into_zeros_with_their_signs() {
    let turned = |i, q| point(1, 0, 2, &[i, 1.0], &[q, 1.0]);
    assert_eq!(turned(0.0, 0.0), Ok(bits([-0.0, 0.0])));
    assert_eq!(turned(0.0, -0.0), Ok(bits([0.0, 0.0])));
    assert_eq!(turned(-0.0, 0.0), Ok(bits([-0.0, -0.0])));
    assert_eq!([2, 3].map(|label| arranged_qpsk(label, 1 << 14)), [Ok(bits([-0.0, 0.0])), Ok(bits([0.0, -0.0]))]);
}

#[test]
fn turns_that_come_round() {
    for point in [[0.6, 0.8], [-0.0, 0.0], [f32::MAX, f32::from_bits(1)]].map(bits) {
        assert_eq!(half_turn(half_turn(point)), point);
        assert_eq!((0..4).fold(point, |turned, _| quarter_turn(turned)), point);
        assert_ne!(half_turn(point), point);
    }
}

/// Document 01's register gives 14 zeros, then a one, and comes round behind 15 steps.
#[test]
fn the_register_turns_the_arrangement_signal() {
    let mut register = START;
    for symbol in 0..45 {
        let expected = if symbol % 15 == 14 { [-1.5, 3.5] } else { [1.5, -3.5] };
        assert_eq!(arranged_qpsk(0, register), Ok(bits(expected)));
        register = arranged_step(MASK, register).expect("a register that is allowed");
    }
    assert_eq!(register, START);
}

#[test]
fn the_half_turn_is_added_to_the_quarter_turn() {
    let [i, q] = BPSK_LISTS;
    let arranged = |symbol, register| arranged_point(1, 0, symbol, &i, &q, MASK, register);
    assert_eq!([1, 2].map(|symbol| arranged(symbol, 0x3fff)), [1, 2].map(|symbol| bpsk(0, symbol)));
    assert_eq!([1, 2].map(|symbol| arranged(symbol, 0x4000)), [Ok(bits([-0.6, -0.8])), Ok(bits([0.8, -0.6]))]);
}

#[test]
fn stepping_the_register() {
    let stepped = [(MASK, 1), (MASK, 1 << 14), (MASK | 1, 3)].map(|(mask, register)| arranged_step(mask, register));
    assert_eq!(stepped, [Ok(2), Ok(1), Ok(7)]);
    for (mask, register) in [(MASK, 0), (MASK, 1 << 15), (MASK, u32::MAX), (0, 1), (MASK - 1, 1), (1 << 15 | MASK, 1)] {
        assert_eq!(arranged_step(mask, register), Err(6));
    }
}

#[test]
fn an_entry_that_is_used_is_a_finite_number() {
    let wrong = [0x7f80_0000, 0xff80_0000, 0x7f80_0001, 0xff80_0001, 0x7fc0_0000, 0xffc0_0000, u32::MAX >> 1, u32::MAX];
    for wrong in wrong.map(f32::from_bits) {
        let with_wrong = |label, [i, q]: [f32; 2]| point(1, label, 1, &[0.5, i], &[0.25, q]);
        assert_eq!([[wrong, 0.0], [0.0, wrong], [wrong, wrong]].map(|entries| with_wrong(1, entries)), [Err(18); 3]);
        assert_eq!(with_wrong(0, [wrong, wrong]), Ok(bits([0.5, 0.25])));
    }
    // The largest numbers, the least normal one, the largest denormal one and the least of all are finite.
    for finite in [0x7f7f_ffff, 0xff7f_ffff, 0x0080_0000, 0x807f_ffff, 0x0000_0001].map(f32::from_bits) {
        assert_eq!(point(1, 0, 1, &[finite; 2], &[finite; 2]), Ok(bits([finite; 2])));
    }
}

#[test]
fn lengths_symbol_label_and_coordinates_in_their_order() {
    let (right, wrong) = ([INFINITE; 2], [INFINITE; 3]);
    let number = |modulation, label, symbol, i: &[f32], q: &[f32]| {
        point(modulation, label, symbol, i, q).expect_err("a refusal")
    };
    assert_eq!([0, 6, 257, usize::MAX].map(|modulation| number(modulation, 9, 0, &wrong, &wrong)), [1; 4]);
    assert_eq!(
        [number(1, 9, 1, &wrong, &right), number(1, 9, 1, &right, &right[..1]), number(1, 9, 1, &[], &[])],
        [4; 3]
    );
    assert_eq!([number(1, 9, 0, &right, &right), number(2, 9, 0, &right, &right)], [4; 2]);
    assert_eq!([2, 256, 1 << 31, u32::MAX].map(|label| number(1, label, 1, &right, &right)), [12; 4]);
    assert_eq!(number(1, 1, 1, &right, &right), 18);
}

#[test]
fn the_register_comes_behind_the_modulation_and_before_the_lengths() {
    let lists = [INFINITE; 2];
    let number = |modulation, label, symbol, mask, register| {
        arranged_point(modulation, label, symbol, &lists, &lists, mask, register).expect_err("a refusal")
    };
    assert_eq!([0, 6].map(|modulation| number(modulation, 9, 0, 0, 0)), [1; 2]);
    assert_eq!(
        [(0, 1), (MASK, 0), (1 << 15, 1), (MASK, 1 << 15)].map(|(mask, start)| number(1, 9, 0, mask, start)),
        [6; 4]
    );
    assert_eq!([number(1, 9, 0, MASK, START), number(2, 9, 1, MASK, START)], [4; 2]);
    assert_eq!([number(1, 9, 1, MASK, START), number(1, 1, 1, MASK, START)], [12, 18]);
}

#[test]
fn points_of_labels_are_those_of_each() {
    let [i, q] = BPSK_LISTS;
    let both = |first: u32, labels: &[u8]| {
        let symbols = (u64::from(first)..).map(|symbol| if symbol % 2 == 0 { 2 } else { 1 });
        let lone = symbols.zip(labels).map(|(symbol, &label)| bpsk(label.into(), symbol));
        let lone: Vec<Point> = lone.collect::<Result<_, u8>>().expect("points");
        let expected = [0, 1].map(|coordinate| lone.iter().map(|point| point[coordinate]).collect());
        assert_eq!(many(1, first, labels, [&i, &q]), (0, expected));
    };
    for first in [1, 2, 7, 44_880, u32::MAX - 1, u32::MAX] {
        both(first, &[0, 1, 1, 0, 0, 0, 1]);
        both(first, &[1]);
        both(first, &[]);
    }
    let [i, q] = QPSK_LISTS;
    let expected = [vec![-0.0, -2.5, 1.5], vec![0.0, 4.5, -3.5]];
    let expected = expected.map(|area: Vec<f32>| area.iter().map(|float| float.to_bits()).collect::<Vec<u32>>());
    assert_eq!([0, 1, 2].map(|symbol| many(2, symbol, &[3, 1, 0], [&i, &q])), [0; 3].map(|_| (0, expected.clone())));
}

#[test]
fn each_test_is_made_of_all_labels_before_the_next() {
    let number = |modulation, symbol, labels: &[u8], i: &[f32], q: &[f32]| {
        let (number, [i_out, q_out]) = many(modulation, symbol, labels, [i, q]);
        assert!(number == 0 || i_out.iter().chain(&q_out).all(|&coordinate| coordinate == FOUND));
        number
    };
    let (right, wrong) = ([0.5, 0.5], [0.5, INFINITE]);
    assert_eq!([0, 6].map(|modulation| number(modulation, 0, &[9, 1], &[], &wrong)), [1; 2]);
    assert_eq!([number(1, 1, &[1, 9], &[], &wrong), number(1, 0, &[1, 9], &right, &wrong)], [4; 2]);
    assert_eq!([number(1, 1, &[1, 0, 2], &wrong, &right), number(1, 1, &[255, 1], &right, &wrong)], [12; 2]);
    assert_eq!([number(1, 1, &[0, 0, 1], &wrong, &right), number(1, 1, &[1, 0], &right, &wrong)], [18; 2]);
    assert_eq!(number(1, 1, &[0, 0, 0], &wrong, &wrong), 0);
    // Without labels no entry is used, and all else is tested.
    assert_eq!([number(1, 1, &[], &wrong, &wrong), number(2, 0, &[], &[INFINITE; 4], &[INFINITE; 4])], [0; 2]);
    assert_eq!(
        [number(1, 0, &[], &right, &right), number(1, 1, &[], &[], &[]), number(0, 0, &[], &[], &[])],
        [4, 4, 1]
    );
}

#[test]
fn areas_for_points_are_as_long_as_the_labels() {
    let lists = [0.5; 2];
    for (i_length, q_length) in [(1, 2), (3, 2), (0, 2), (2, 1), (2, 3), (2, 0), (3, 3), (1, 3)] {
        let mut areas = [[FOUND; 3].map(f32::from_bits); 2];
        let [i_out, q_out] = &mut areas;
        assert_eq!(points(1, 1, &[0, 9], &lists, &lists, &mut i_out[..i_length], &mut q_out[..q_length]), 4);
        assert_eq!(areas.map(bits), [[FOUND; 3]; 2]);
    }
}
