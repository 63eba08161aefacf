//! Signal points, document 02, N6: labels as points whose coordinates the caller lends, turned as document 002 has it, 2.2.1.8
//! for the even symbols of BPSK and 2.2.1.6 (3) for the signal point arrangement signal. Coordinates are taken for the bits of
//! IEEE 754, and no arithmetic is done on them.
use crate::dispersal::{allowed, step};
use crate::slot::{COORDINATE_WRONG, LABEL_WRONG, LENGTH_WRONG, PLAN_WRONG, REGISTER_WRONG};

/// The bits of the register that turns the arrangement signal.
const WIDTH: u32 = 15;

const BPSK: usize = 1;

/// Sign and exponent among the 32 bits of a float. The exponent is all ones in infinities and in what is no number.
const SIGN: u32 = 1 << 31;
const EXPONENT: u32 = 0xff << 23;

/// I and Q, by their bits.
pub type Point = [u32; 2];

/// Turns a point by 90 degrees anticlockwise.
fn quarter_turn([i, q]: Point) -> Point {
    [q ^ SIGN, i]
}

fn half_turn(point: Point) -> Point {
    quarter_turn(quarter_turn(point))
}

fn finite(coordinate: u32) -> bool {
    coordinate & EXPONENT != EXPONENT
}

/// The coordinates that are lent for a modulation.
struct Lists<'a> {
    modulation: usize,
    in_phase: &'a [f32],
    quadrature: &'a [f32],
}

impl<'a> Lists<'a> {
    /// The lists of a modulation, which is tested before all else.
    fn new(modulation: usize, in_phase: &'a [f32], quadrature: &'a [f32]) -> Result<Lists<'a>, u8> {
        match modulation {
            1..=5 => Ok(Lists { modulation, in_phase, quadrature }),
            _ => Err(PLAN_WRONG),
        }
    }

    /// The entries of a label that is there.
    fn entries(&self, label: u32) -> Point {
        [self.in_phase, self.quadrature].map(|list| list[label as usize].to_bits())
    }

    /// The points of labels, the first of them at a symbol's number, where the areas for them have their lengths; or the first
    /// refusal that holds. Each test is made of all labels before the next one.
    fn points(&self, symbol: u32, labels: &[u32], areas_fit: bool) -> Result<Vec<Point>, u8> {
        let lists_fit = [self.in_phase, self.quadrature].iter().all(|list| list.len() == 1 << self.modulation);
        if !areas_fit || !lists_fit || (self.modulation == BPSK && symbol == 0) {
            return Err(LENGTH_WRONG);
        }
        if labels.iter().any(|label| label >> self.modulation != 0) {
            return Err(LABEL_WRONG);
        }
        let lent: Vec<Point> = labels.iter().map(|&label| self.entries(label)).collect();
        if !lent.iter().flatten().all(|&coordinate| finite(coordinate)) {
            return Err(COORDINATE_WRONG);
        }
        let turned = |(symbol, point): (u64, Point)| match (self.modulation, symbol % 2) {
            (BPSK, 0) => quarter_turn(point),
            _ => point,
        };
        Ok((u64::from(symbol)..).zip(lent).map(turned).collect())
    }

    /// The point of one label.
    fn point(&self, symbol: u32, label: u32) -> Result<Point, u8> {
        Ok(self.points(symbol, &[label], true)?[0])
    }
}

/// The point of a label. `symbol` is the symbol's number in the frame, which counts for BPSK alone.
pub fn point(modulation: usize, label: u32, symbol: u32, in_phase: &[f32], quadrature: &[f32]) -> Result<Point, u8> {
    Lists::new(modulation, in_phase, quadrature)?.point(symbol, label)
}

/// The point of a label in the arrangement signal, under its register as it stands.
pub fn arranged_point(
    modulation: usize,
    label: u32,
    symbol: u32,
    in_phase: &[f32],
    quadrature: &[f32],
    mask: u32,
    register: u32,
) -> Result<Point, u8> {
    let lists = Lists::new(modulation, in_phase, quadrature)?;
    if !allowed(WIDTH, mask, register) {
        return Err(REGISTER_WRONG);
    }
    let plain = lists.point(symbol, label)?;
    Ok(if register >> (WIDTH - 1) == 1 { half_turn(plain) } else { plain })
}

/// The arrangement signal's register after a symbol.
pub fn arranged_step(mask: u32, register: u32) -> Result<u32, u8> {
    if allowed(WIDTH, mask, register) { Ok(step(WIDTH, mask, register)) } else { Err(REGISTER_WRONG) }
}

/// The points of labels, one octet each, in two areas, one for each coordinate. `symbol` is that of the first label, and the
/// others' numbers go on from it, however far.
pub fn points(
    modulation: usize,
    symbol: u32,
    labels: &[u8],
    in_phase: &[f32],
    quadrature: &[f32],
    i_out: &mut [f32],
    q_out: &mut [f32],
) -> u8 {
    let areas_fit = i_out.len() == labels.len() && q_out.len() == labels.len();
    let labels: Vec<u32> = labels.iter().map(|&label| label.into()).collect();
    let found = Lists::new(modulation, in_phase, quadrature).and_then(|lists| lists.points(symbol, &labels, areas_fit));
    match found {
        Err(refusal) => refusal,
        Ok(points) => {
            for ((i, q), point) in i_out.iter_mut().zip(q_out).zip(points) {
                [*i, *q] = point.map(f32::from_bits);
            }
            0
        }
    }
}

#[cfg(test)]
mod tests;
