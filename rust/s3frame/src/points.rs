//! Signal points of labels.
use crate::bindings::s3_point_answer;
use crate::refusal::answer;
use crate::{calls, Modulation, Refusal};

/// A signal point.
#[derive(Clone, Copy, Debug, PartialEq)]
pub struct Point {
    /// Its in-phase coordinate.
    pub i: f32,
    /// Its quadrature coordinate.
    pub q: f32,
}

/// The points of a modulation, which the caller knows: for each label its coordinates, [`Modulation::points`] in number.
#[derive(Clone, Copy, Debug, PartialEq)]
pub struct Constellation<'a> {
    /// The modulation.
    pub modulation: Modulation,
    /// The in-phase coordinates, label 0 first.
    pub in_phase: &'a [f32],
    /// The quadrature coordinates.
    pub quadrature: &'a [f32],
}

/// The 15-bit register that turns the symbols of the signal point arrangement signal.
#[derive(Clone, Copy, Debug, PartialEq, Eq, Hash)]
pub struct ArrangedRegister {
    /// The tap mask.
    pub mask: u32,
    /// The register as it stands.
    pub register: u32,
}

impl Point {
    /// The point that a call answers, or its refusal.
    fn of_answer(told: s3_point_answer) -> Result<Point, Refusal> {
        answer(told.number).map(|()| Point { i: told.i, q: told.q })
    }
}

impl Constellation<'_> {
    /// The point of a label. With BPSK `symbol` is the symbol's number in the frame, from 1 on, and the points of even symbols
    /// are turned by 90 degrees anticlockwise; with other modulations it does not count.
    ///
    /// Refused: [`Refusal::Length`] (with BPSK also symbol 0), [`Refusal::Label`], [`Refusal::Coordinate`].
    ///
    /// ```
    /// use s3frame::{Constellation, Modulation, Point};
    ///
    /// # fn main() -> Result<(), s3frame::Refusal> {
    /// let bpsk = Constellation { modulation: Modulation::Bpsk, in_phase: &[0.6, -0.6], quadrature: &[0.8, -0.8] };
    /// assert_eq!(bpsk.point(0, 1)?, Point { i: 0.6, q: 0.8 });
    /// assert_eq!(bpsk.point(0, 2)?, Point { i: -0.8, q: 0.6 });
    /// # Ok(())
    /// # }
    /// ```
    pub fn point(self, label: u8, symbol: u32) -> Result<Point, Refusal> {
        let Constellation { modulation, in_phase, quadrature } = self;
        Point::of_answer(calls::point(modulation.number(), label.into(), symbol, in_phase, quadrature))
    }

    /// The point of a label in the signal point arrangement signal: that of [`Constellation::point`], turned by 180 degrees
    /// where the register gives 1.
    ///
    /// Refused: [`Refusal::Register`], then as [`Constellation::point`].
    pub fn arranged_point(self, label: u8, symbol: u32, at: ArrangedRegister) -> Result<Point, Refusal> {
        let Constellation { modulation, in_phase, quadrature } = self;
        let ArrangedRegister { mask, register } = at;
        let (number, label) = (modulation.number(), label.into());
        Point::of_answer(calls::arranged_point(number, label, symbol, in_phase, quadrature, mask, register))
    }

    /// The points of labels, one octet each, as in-phase and quadrature coordinates, as many of each as labels. `symbol` is
    /// that of the first label, and the others go on from it; each point is that of [`Constellation::point`].
    ///
    /// Refused: [`Refusal::Length`] (with BPSK also symbol 0), [`Refusal::Label`], [`Refusal::Coordinate`]; both areas are then
    /// as they were.
    pub fn points(self, symbol: u32, labels: &[u8], i_out: &mut [f32], q_out: &mut [f32]) -> Result<(), Refusal> {
        let Constellation { modulation, in_phase, quadrature } = self;
        answer(calls::points(modulation.number(), symbol, labels, in_phase, quadrature, i_out, q_out))
    }
}

impl ArrangedRegister {
    /// The register one step on, for the next symbol of the signal point arrangement signal.
    ///
    /// Refused: [`Refusal::Register`].
    pub fn arranged_step(self) -> Result<ArrangedRegister, Refusal> {
        let stepped = calls::arranged_step(self.mask, self.register);
        answer(stepped.number).map(|()| ArrangedRegister { mask: self.mask, register: stepped.register_ })
    }
}
