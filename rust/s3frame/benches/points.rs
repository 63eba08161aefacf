//! Times making the points of a slot's labels, the proved call beside the second implementation.
//!
//! `make bench` prints the figures. `cargo test` makes the points of each modulation once, to see that both do the same.
mod common;
use common::time;
use reference::points;
use reference::samples::octets;
use s3frame::{labels, Constellation, Modulation, Rate, SLOT_OCTETS};

/// The number of the first symbol.
const FIRST: u32 = 1;

/// The points of labels, I and Q apart.
struct Areas {
    i_out: Vec<f32>,
    q_out: Vec<f32>,
}

impl Areas {
    fn new(count: usize) -> Areas {
        Areas { i_out: vec![0.0; count], q_out: vec![0.0; count] }
    }

    fn bits(&self) -> Vec<u32> {
        self.i_out.iter().chain(&self.q_out).map(|coordinate| coordinate.to_bits()).collect()
    }
}

fn slot_labels(modulation: Modulation) -> Vec<u8> {
    let mut found = vec![0; modulation.labels()];
    labels(modulation, Rate::R7_9, &octets(1, SLOT_OCTETS), &mut found).expect("the labels of a slot");
    found
}

fn make(of: Constellation, labels: &[u8], areas: &mut Areas) {
    of.points(FIRST, labels, &mut areas.i_out, &mut areas.q_out).expect("labels and coordinates");
}

fn plain_make(of: Constellation, labels: &[u8], areas: &mut Areas) {
    let Constellation { modulation, in_phase, quadrature } = of;
    let Areas { i_out, q_out } = areas;
    let number = points::points(modulation as usize, FIRST, labels, in_phase, quadrature, i_out, q_out);
    assert_eq!(number, 0, "labels and coordinates");
}

fn main() {
    println!("Points of a slot: ns a label");
    println!("{:26}{:>9}{:>9}", "", "points", "plain");
    for modulation in Modulation::ALL {
        let labels = slot_labels(modulation);
        let in_phase: Vec<f32> = (0..modulation.points()).map(|label| label as f32 - 0.5).collect();
        let quadrature: Vec<f32> = in_phase.iter().map(|coordinate| 0.25 - coordinate).collect();
        let of = Constellation { modulation, in_phase: &in_phase, quadrature: &quadrature };
        let [mut ours, mut theirs] = [Areas::new(labels.len()), Areas::new(labels.len())];
        let making = time(labels.len(), || make(of, &labels, &mut ours));
        let plain_making = time(labels.len(), || plain_make(of, &labels, &mut theirs));
        assert!(ours.bits() == theirs.bits(), "{modulation}: the implementations differ");
        println!("{:26}{making:9.2}{plain_making:9.2}", modulation.to_string());
    }
}
