//! The points that were sent, counted.
use s3frame::{Constellation, Modulation, Point};

/// The most labels that a modulation has.
const MOST_LABELS: usize = 32;

/// How many symbols had each label: those that are not turned and those that are, which are even ones of π/2-shift BPSK.
#[derive(Default)]
pub struct Sent {
    plain: [u64; MOST_LABELS],
    turned: [u64; MOST_LABELS],
}

/// A point that was sent, the labels that have it, and how many symbols had it. The points of even symbols of π/2-shift BPSK
/// are told apart from those of odd ones, also where they agree.
pub struct Dot {
    pub point: Point,
    pub turned: bool,
    pub labels: Vec<usize>,
    pub symbols: u64,
}

impl Sent {
    /// Adds the labels of symbols, the first of which has this number.
    pub fn add(&mut self, modulation: Modulation, symbol: u32, labels: &[u8]) {
        let mut turned = modulation == Modulation::Bpsk && symbol % 2 == 0;
        for label in labels {
            let counts = if turned { &mut self.turned } else { &mut self.plain };
            counts[usize::from(*label)] += 1;
            turned ^= modulation == Modulation::Bpsk;
        }
    }

    /// The points that were sent, each once; zeros of both signs are one place.
    pub fn dots(&self, constellation: Constellation) -> Vec<Dot> {
        let mut dots: Vec<Dot> = Vec::new();
        // Symbol 2 is as any that is turned, symbol 1 as any other.
        for (turned, symbol, counts) in [(false, 1, &self.plain), (true, 2, &self.turned)] {
            for (label, symbols) in counts.iter().enumerate().filter(|(_, symbols)| **symbols > 0) {
                let point = constellation.point(label as u8, symbol).expect("a point that was sent");
                match dots.iter_mut().find(|dot| dot.turned == turned && dot.point == point) {
                    Some(dot) => {
                        dot.labels.push(label);
                        dot.symbols += symbols;
                    }
                    None => dots.push(Dot { point, turned, labels: vec![label], symbols: *symbols }),
                }
            }
        }
        dots
    }
}

#[cfg(test)]
mod tests {
    use super::*;

    /// A dot with the bits of its coordinates.
    type Bits = ([u32; 2], bool, Vec<usize>, u64);

    fn dot(i: f32, q: f32, turned: bool, labels: &[usize], symbols: u64) -> Bits {
        ([i.to_bits(), q.to_bits()], turned, labels.to_vec(), symbols)
    }

    fn dots(modulation: Modulation, symbol: u32, labels: &[u8], in_phase: &[f32], quadrature: &[f32]) -> Vec<Bits> {
        let mut sent = Sent::default();
        // In two parts, the first of which is even, as the parts of a stream are.
        let (first, rest) = labels.split_at(2);
        sent.add(modulation, symbol, first);
        sent.add(modulation, symbol, rest);
        let dots = sent.dots(Constellation { modulation, in_phase, quadrature });
        dots.iter().map(|of| dot(of.point.i, of.point.q, of.turned, &of.labels, of.symbols)).collect()
    }

    #[test]
    fn labels_with_one_point_are_one_dot() {
        let (in_phase, quadrature) = ([1.0, 0.0, -0.0, f32::NAN], [2.0, 3.0, 3.0, 4.0]);
        let found = dots(Modulation::Qpsk, 2, &[2, 1, 1, 0], &in_phase, &quadrature);
        assert_eq!(found, [dot(1.0, 2.0, false, &[0], 1), dot(0.0, 3.0, false, &[1, 2], 3)]);
    }

    #[test]
    fn even_symbols_of_bpsk_are_apart() {
        let of = |symbol| dots(Modulation::Bpsk, symbol, &[0, 1, 0, 0, 1], &[0.6, -0.6], &[0.8, -0.8]);
        let first_is_odd = [
            dot(0.6, 0.8, false, &[0], 2),
            dot(-0.6, -0.8, false, &[1], 1),
            dot(-0.8, 0.6, true, &[0], 1),
            dot(0.8, -0.6, true, &[1], 1),
        ];
        assert_eq!([of(1), of(u32::MAX)], [first_is_odd.clone(), first_is_odd]);
        let first_is_even = [
            dot(0.6, 0.8, false, &[0], 1),
            dot(-0.6, -0.8, false, &[1], 1),
            dot(-0.8, 0.6, true, &[0], 2),
            dot(0.8, -0.6, true, &[1], 1),
        ];
        assert_eq!(of(2), first_is_even);
        let at_one_place = dots(Modulation::Bpsk, 1, &[0, 0, 1, 1], &[0.0; 2], &[0.0; 2]);
        assert_eq!(at_one_place, [dot(0.0, 0.0, false, &[0, 1], 2), dot(-0.0, 0.0, true, &[0, 1], 2)]);
    }
}
