//! Coordinates, and the constellations that they make.
use super::Random;
use s3frame::{ArrangedRegister, Constellation, Modulation, Point, TmccSettings};
use std::fmt;
use std::ops::Range;

/// The sign among the bits of a coordinate.
pub const SIGN: u32 = 1 << 31;

/// The numbers at the edges of what is finite: zero, the least and the largest denormal one, the least normal one and the
/// largest.
pub const EDGES: [u32; 5] = [0, 1, 0x007f_ffff, 0x0080_0000, 0x7f7f_ffff];

/// Infinity, and what is not a number: three that signal, three that are quiet.
pub const NOT_FINITE: [u32; 7] =
    [0x7f80_0000, 0x7f80_0001, 0x7fa5_a5a5, 0x7fbf_ffff, 0x7fc0_0000, 0x7fd1_2345, 0x7fff_ffff];

/// Coordinates that are compared by their bits, so that the signs of zeros count, and what is not a number equals itself.
#[derive(Clone)]
pub struct Floats(pub Vec<f32>);

impl Floats {
    pub fn bits(&self) -> Vec<u32> {
        self.0.iter().map(|coordinate| coordinate.to_bits()).collect()
    }
}

impl PartialEq for Floats {
    fn eq(&self, other: &Floats) -> bool {
        self.bits() == other.bits()
    }
}

impl fmt::Debug for Floats {
    fn fmt(&self, f: &mut fmt::Formatter<'_>) -> fmt::Result {
        write!(f, "{:08x?}", self.bits())
    }
}

/// The bits of I and Q.
pub fn bits(point: Point) -> [u32; 2] {
    [point.i, point.q].map(f32::to_bits)
}

/// A modulation and the coordinates of its labels, in-phase and then quadrature.
#[derive(Clone, Debug, PartialEq)]
pub struct Lists {
    pub modulation: Modulation,
    pub coordinates: [Floats; 2],
}

impl Lists {
    /// Finite coordinates of chance.
    pub fn new(random: &mut Random, modulation: Modulation) -> Lists {
        let coordinates = [(); 2].map(|()| Floats((0..modulation.points()).map(|_| random.finite()).collect()));
        Lists { modulation, coordinates }
    }

    /// The lists of these points, label by label.
    pub fn of_points(modulation: Modulation, points: &[[u32; 2]]) -> Lists {
        let list = |which: usize| Floats(points.iter().map(|point| f32::from_bits(point[which])).collect());
        Lists { modulation, coordinates: [0, 1].map(list) }
    }

    pub fn lent(&self) -> Constellation<'_> {
        let [in_phase, quadrature] = &self.coordinates;
        Constellation { modulation: self.modulation, in_phase: &in_phase.0, quadrature: &quadrature.0 }
    }

    pub fn labels(&self) -> Range<u8> {
        0..self.modulation.points() as u8
    }

    /// The bits of a label's entries.
    pub fn entries(&self, label: u8) -> [u32; 2] {
        [0, 1].map(|which| self.coordinates[which].0[usize::from(label)].to_bits())
    }

    /// Puts what is not finite in place of one or both of a label's entries.
    pub fn spoil(&mut self, random: &mut Random, label: u8) {
        let spared = random.below(3);
        for which in (0..2).filter(|&which| which != spared) {
            self.coordinates[which].0[usize::from(label)] = random.not_finite();
        }
    }
}

impl Random {
    fn signed(&mut self, magnitude: u32) -> f32 {
        f32::from_bits(magnitude | self.pick(&[0, SIGN]))
    }

    /// A finite coordinate: at an edge, denormal, about 1, or any.
    pub fn finite(&mut self) -> f32 {
        let magnitude = match self.below(4) {
            0 => self.pick(&EDGES),
            1 => self.below(0x0080_0000) as u32,
            2 => 0x3f00_0000 + self.below(0x0100_0000) as u32,
            _ => self.below(0x7f80_0000) as u32,
        };
        self.signed(magnitude)
    }

    pub fn not_finite(&mut self) -> f32 {
        let magnitude = match self.below(4) {
            0 => 0x7f80_0000 + self.below(0x0080_0000) as u32,
            _ => self.pick(&NOT_FINITE),
        };
        self.signed(magnitude)
    }

    /// Coordinates as an area may hold them before a call.
    pub fn floats(&mut self, count: usize) -> Floats {
        Floats((0..count).map(|_| if self.chance(2) { self.not_finite() } else { self.finite() }).collect())
    }

    /// The number of a symbol; 0 is one but with BPSK.
    pub fn symbol(&mut self, modulation: Modulation) -> u32 {
        match self.below(3) {
            0 if modulation != Modulation::Bpsk => 0,
            0 => self.pick(&[1, 2, 1 << 31, u32::MAX - 1, u32::MAX]),
            _ => 1 + self.below(u32::MAX as usize) as u32,
        }
    }

    pub fn arranged_register(&mut self) -> ArrangedRegister {
        let TmccSettings { mask, start } = self.tmcc_settings();
        ArrangedRegister { mask, register: start }
    }

    /// So many labels of a modulation.
    pub fn labels(&mut self, modulation: Modulation, count: usize) -> Vec<u8> {
        (0..count).map(|_| self.below(modulation.points()) as u8).collect()
    }
}
