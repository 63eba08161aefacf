//! Signal points beside the second implementation: lone ones, those of the arrangement signal, and those of many labels.
mod arranged;
#[path = "../common/mod.rs"]
mod common;
mod lone;
mod many;
use common::points::{bits, Floats, Lists};
use common::{number, Random};
use reference::points;
use s3frame::{ArrangedRegister, Constellation, Point, Refusal};

/// I and Q by their bits, or the refusal.
type Answer = Result<[u32; 2], Refusal>;

/// The answer of a call, which must be that of the second implementation.
fn compared(ours: Result<Point, Refusal>, theirs: Result<points::Point, u8>) -> Answer {
    let answer = ours.map(bits);
    assert_eq!(answer.map_err(|refusal| refusal as u8), theirs);
    answer
}

/// The point of a label both ways.
fn point(lists: &Lists, label: u8, symbol: u32) -> Answer {
    let Constellation { modulation, in_phase, quadrature } = lists.lent();
    let expected = points::point(modulation as usize, label.into(), symbol, in_phase, quadrature);
    compared(lists.lent().point(label, symbol), expected)
}

/// The point of a label in the arrangement signal both ways.
fn arranged_point(lists: &Lists, label: u8, symbol: u32, at: ArrangedRegister) -> Answer {
    let Constellation { modulation, in_phase, quadrature } = lists.lent();
    let (number, ArrangedRegister { mask, register }) = (modulation as usize, at);
    let expected = points::arranged_point(number, label.into(), symbol, in_phase, quadrature, mask, register);
    compared(lists.lent().arranged_point(label, symbol, at), expected)
}

/// The register one step on both ways.
fn stepped(at: ArrangedRegister) -> Result<ArrangedRegister, Refusal> {
    let answer = at.arranged_step();
    let expected = points::arranged_step(at.mask, at.register);
    let expected = expected.map(|register| ArrangedRegister { mask: at.mask, register });
    assert_eq!(answer.map_err(|refusal| refusal as u8), expected);
    answer
}

/// The points of labels both ways; both must leave the same, and a refusal what was there.
fn points_of(random: &mut Random, lists: &Lists, symbol: u32, labels: &[u8]) -> Result<[Floats; 2], Refusal> {
    let Constellation { modulation, in_phase, quadrature } = lists.lent();
    let found = [(); 2].map(|()| random.floats(labels.len()));
    let [mut ours, mut theirs] = [found.clone(), found.clone()];
    let [i_out, q_out] = &mut theirs;
    let expected =
        points::points(modulation as usize, symbol, labels, in_phase, quadrature, &mut i_out.0, &mut q_out.0);
    let [i_out, q_out] = &mut ours;
    let answer = lists.lent().points(symbol, labels, &mut i_out.0, &mut q_out.0);
    assert_eq!(number(answer), expected.into());
    assert!(ours == theirs, "the points differ");
    assert!(answer.is_ok() || ours == found, "a refusal changes no area");
    answer.map(|()| ours)
}
