//! `s3frame points`: the signal points of coded slots.
use crate::chosen::{Chosen, Unit};
use crate::coordinates::Coordinates;
use crate::failure::{Failure, Outcome};
use crate::files::{Content, Files};
use crate::inputs::Input;
use crate::outputs::{self, Output};
use crate::plane;
use crate::progress::Progress;
use crate::sent::Sent;
use crate::words::PointWords;
use s3frame::{labels, SLOT_OCTETS};

/// Points in the making: the files, the areas that every slot uses again, and how many units were taken.
struct Modulator {
    chosen: Chosen,
    coordinates: Coordinates,
    symbol: u32,
    input: Input,
    output: Output,
    sent: Sent,
    unit: Vec<u8>,
    labels: Vec<u8>,
    in_phase: Vec<f32>,
    quadrature: Vec<f32>,
    units: u64,
}

/// Makes the points of all slots of the input.
pub fn run(words: &PointWords) -> Result<Outcome, Failure> {
    let mut files = Files::default();
    let chosen = Chosen::open(&mut files, words)?;
    let input = files.open(words.input.as_deref(), Content::Binary)?;
    let coordinates = Coordinates::open(&mut files, words, chosen.modulation)?;
    let output = files.create(words.output.as_deref(), Content::Binary)?;
    let mut picture = files.create_named(words.svg.as_deref(), Content::Text)?;
    let mut report = files.report()?;
    let mut modulator = Modulator::new(chosen, coordinates, words.symbol.value, input, output);
    let left_over = modulator.make_all()?;
    report.line(format_args!("{}", modulator.counts()))?;
    if let Some(picture) = &mut picture {
        picture.write(modulator.picture().as_bytes())?;
    }
    let outcome = Outcome::new(false).left_over(modulator.input.name(), modulator.chosen.unit.name(), left_over);
    outputs::keep([modulator.output].into_iter().chain(picture))?;
    Ok(outcome)
}

impl Modulator {
    fn new(chosen: Chosen, coordinates: Coordinates, symbol: u32, input: Input, output: Output) -> Modulator {
        let (unit, symbols) = (vec![0; chosen.unit.octets()], chosen.modulation.labels());
        let (labels, in_phase, quadrature) = (vec![0; symbols], vec![0.0; symbols], vec![0.0; symbols]);
        let sent = Sent::default();
        Modulator { chosen, coordinates, symbol, input, output, sent, unit, labels, in_phase, quadrature, units: 0 }
    }

    /// Makes points until the input ends, and says how many octets are left over behind the last whole unit.
    fn make_all(&mut self) -> Result<usize, Failure> {
        let progress = Progress::new(self.input.octets());
        let mut octets = self.input.fill(&mut self.unit)?;
        while octets == self.unit.len() {
            (0..self.chosen.slots.len()).try_for_each(|place| self.make(self.chosen.slots[place]))?;
            self.output.flush()?;
            self.units += 1;
            progress.at(self.input.taken());
            octets = self.input.fill(&mut self.unit)?;
        }
        match self.units {
            0 => Err(Failure::without(self.input.name(), self.chosen.unit.name(), octets)),
            _ => Ok(octets),
        }
    }

    /// Makes the points of a slot of the unit. Every slot has an even number of BPSK symbols, so that each begins as the
    /// first does.
    fn make(&mut self, slot: usize) -> Result<(), Failure> {
        let Chosen { modulation, rate, .. } = self.chosen;
        let coded = &self.unit[SLOT_OCTETS * slot..SLOT_OCTETS * (slot + 1)];
        labels(modulation, rate, coded, &mut self.labels).expect("areas of their lengths");
        let (in_phase, quadrature) = (&mut self.in_phase, &mut self.quadrature);
        let made = self.coordinates.constellation().points(self.symbol, &self.labels, in_phase, quadrature);
        made.map_err(|refusal| {
            self.coordinates.refused(refusal, &self.labels, &self.chosen.name_of(self.units, slot))
        })?;
        self.sent.add(modulation, self.symbol, &self.labels);
        self.output.write(&octets_of(&self.in_phase, &self.quadrature))
    }

    /// How many slots were used.
    fn slots(&self) -> u64 {
        self.units * self.chosen.slots.len() as u64
    }

    /// How many symbols they have, and so points.
    fn symbols(&self) -> u64 {
        self.slots() * self.labels.len() as u64
    }

    /// What was made, as names and numbers.
    fn counts(&self) -> String {
        let frames = match self.chosen.unit {
            Unit::Slot => String::new(),
            Unit::Frame => format!("frames {} ", self.units),
        };
        format!("{frames}slots {} points {}", self.slots(), self.symbols())
    }

    /// The points that were sent.
    fn picture(&self) -> String {
        let Chosen { modulation, rate, .. } = self.chosen;
        let title = format!("{modulation} {rate}: slots {}, symbols {}", self.slots(), self.symbols());
        plane::of_points(&title, modulation, &self.sent.dots(self.coordinates.constellation()))
    }
}

/// Points as they stand in a file: in-phase and quadrature coordinate in turn, the low octet first.
fn octets_of(in_phase: &[f32], quadrature: &[f32]) -> Vec<u8> {
    in_phase.iter().zip(quadrature).flat_map(|(i, q)| [i.to_le_bytes(), q.to_le_bytes()]).flatten().collect()
}

#[cfg(test)]
mod tests {
    use super::*;

    #[test]
    fn the_low_octet_comes_first() {
        let octets = octets_of(&[1.0, -0.0], &[-2.5, 1e-45]);
        assert_eq!(octets, [0, 0, 0x80, 0x3F, 0, 0, 0x20, 0xC0, 0, 0, 0, 0x80, 1, 0, 0, 0]);
    }
}
