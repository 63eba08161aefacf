//! Signal points. The coordinates and the register of a refusal are zeros, bit for bit.
use crate::bindings::s3_point_answer;
use crate::calls;
use crate::common::faults::{self, choices, Faults};
use crate::common::points::{Floats, Lists};
use crate::common::{trials, Random};
use crate::ways::{alone_and_in_pairs, cut, with_choices, Way};
use crate::{answered, kept, told};
use reference::points;
use s3frame::{ArrangedRegister, Modulation};

/// What the calls on points are lent; of these, the label is for a lone one, labels and both areas for many, and mask and
/// register for the arrangement signal.
struct Lent {
    modulation: u32,
    symbol: u32,
    in_phase: Vec<f32>,
    quadrature: Vec<f32>,
    label: u32,
    labels: Vec<u8>,
    i_out: Floats,
    q_out: Floats,
    mask: u32,
    register: u32,
}

impl Lent {
    /// Coordinates of chance with the faults asked for: what is tested last is broken first.
    fn new(random: &mut Random, faults: &Faults, lengths: &[&Way<Lent>]) -> Lent {
        // Symbol 0 is wrong with BPSK alone.
        let bpsk = lengths.iter().any(|way| way.of == "symbol");
        let modulation = if bpsk { Modulation::Bpsk } else { random.modulation() };
        let mut lent = Lent::right(random, modulation, faults.has(18));
        if faults.has(12) {
            lent.break_labels(random);
        }
        lengths.iter().for_each(|way| (way.break_it)(&mut lent));
        if faults.has(6) {
            faults::break_settings(random, 15, &mut lent.mask, &mut lent.register);
        }
        if faults.has(1) {
            faults::unknown(random, &mut lent.modulation, 5);
        }
        lent
    }

    /// Labels and coordinates, of which some that no label uses are not finite, and some of the lone label's too where asked.
    fn right(random: &mut Random, modulation: Modulation, spoilt: bool) -> Lent {
        let (mut lists, count) = (Lists::new(random, modulation), 1 + random.below(9));
        let labels = random.labels(modulation, count);
        let label = random.pick(&labels);
        for other in lists.labels() {
            let unused = !labels.contains(&other) && random.chance(2);
            if unused || (spoilt && other == label) {
                lists.spoil(random, other);
            }
        }
        let [Floats(in_phase), Floats(quadrature)] = lists.coordinates;
        let (symbol, ArrangedRegister { mask, register }) = (random.symbol(modulation), random.arranged_register());
        let [i_out, q_out] = [count, count].map(|count| random.floats(count));
        let (modulation, label) = (modulation.number(), label.into());
        Lent { modulation, symbol, in_phase, quadrature, label, labels, i_out, q_out, mask, register }
    }

    /// 12: a lone label with a bit more, and such a label among the many.
    fn break_labels(&mut self, random: &mut Random) {
        let above = 1 << self.modulation;
        let wrong = self.label as u8 | random.pick(&[above as u8, 0x80]);
        self.label |= random.pick(&[above, 1 << 7, 1 << 8, 1 << 16, 1 << 31]);
        self.labels.insert(random.below(self.labels.len() + 1), wrong);
        [&mut self.i_out, &mut self.q_out].into_iter().for_each(|area| area.0.push(random.finite()));
    }
}

/// The ways to 4 in all calls that give points.
const ALL: &[Way<Lent>] = &[
    Way { of: "in-phase", break_it: |lent| lent.in_phase.clear() },
    Way { of: "in-phase", break_it: |lent| cut(&mut lent.in_phase) },
    Way { of: "in-phase", break_it: |lent| lent.in_phase.push(0.5) },
    Way { of: "in-phase", break_it: |lent| lent.in_phase.extend_from_within(..) },
    Way { of: "quadrature", break_it: |lent| lent.quadrature.clear() },
    Way { of: "quadrature", break_it: |lent| cut(&mut lent.quadrature) },
    Way { of: "quadrature", break_it: |lent| lent.quadrature.push(0.5) },
    Way { of: "quadrature", break_it: |lent| lent.quadrature.extend_from_within(..) },
    Way { of: "symbol", break_it: |lent| lent.symbol = 0 },
];

/// The further ways with many.
const MANY: &[Way<Lent>] = &[
    Way { of: "I", break_it: |lent| lent.i_out.0.clear() },
    Way { of: "I", break_it: |lent| cut(&mut lent.i_out.0) },
    Way { of: "I", break_it: |lent| lent.i_out.0.push(0.5) },
    Way { of: "Q", break_it: |lent| lent.q_out.0.clear() },
    Way { of: "Q", break_it: |lent| cut(&mut lent.q_out.0) },
    Way { of: "Q", break_it: |lent| lent.q_out.0.push(0.5) },
];

/// A number, and the coordinates by their bits.
fn parts(answer: s3_point_answer) -> (u8, points::Point) {
    (answer.number, [answer.i, answer.q].map(f32::to_bits))
}

fn lone(random: &mut Random, faults: &Faults, lengths: &[&Way<Lent>]) {
    let Lent { modulation, symbol, in_phase, quadrature, label, .. } = Lent::new(random, faults, lengths);
    let expected = points::point(modulation as usize, label, symbol, &in_phase, &quadrature);
    let answer = calls::point(modulation, label, symbol, &in_phase, &quadrature);
    answered(faults.first(), parts(answer), told(expected, [0, 0]));
}

fn arranged(random: &mut Random, faults: &Faults, lengths: &[&Way<Lent>]) {
    let lent = Lent::new(random, faults, lengths);
    let Lent { modulation, label, symbol, mask, register, .. } = lent;
    let (i, q) = (&lent.in_phase, &lent.quadrature);
    let expected = points::arranged_point(modulation as usize, label, symbol, i, q, mask, register);
    let answer = calls::arranged_point(modulation, label, symbol, i, q, mask, register);
    answered(faults.first(), parts(answer), told(expected, [0, 0]));
}

fn many(random: &mut Random, faults: &Faults, lengths: &[&Way<Lent>]) {
    let lent = Lent::new(random, faults, lengths);
    let Lent { modulation, symbol, .. } = lent;
    let (labels, in_phase, quadrature) = (&lent.labels, &lent.in_phase, &lent.quadrature);
    kept(
        faults.first(),
        &[lent.i_out, lent.q_out],
        |[i, q]| calls::points(modulation, symbol, labels, in_phase, quadrature, &mut i.0, &mut q.0),
        |[i, q]| points::points(modulation as usize, symbol, labels, in_phase, quadrature, &mut i.0, &mut q.0),
    );
}

#[test]
fn a_point() {
    with_choices(&mut Random::new(76), &[1, 4, 12, 18], trials(100), &alone_and_in_pairs(ALL), lone);
}

#[test]
fn an_arranged_point() {
    with_choices(&mut Random::new(77), &[1, 6, 4, 12, 18], trials(100), &alone_and_in_pairs(ALL), arranged);
}

#[test]
fn points_of_labels() {
    let lengths = alone_and_in_pairs(ALL.iter().chain(MANY));
    with_choices(&mut Random::new(78), &[1, 4, 12, 18], trials(100), &lengths, many);
}

#[test]
fn stepping_the_register() {
    let mut random = Random::new(79);
    for faults in choices(&[6], trials(200)) {
        let ArrangedRegister { mut mask, mut register } = random.arranged_register();
        if faults.has(6) {
            faults::break_settings(&mut random, 15, &mut mask, &mut register);
        }
        let stepped = calls::arranged_step(mask, register);
        let expected = told(points::arranged_step(mask, register), 0);
        answered(faults.first(), (stepped.number, stepped.register_), expected);
    }
}
