//! What the calls say of a rate.
use crate::calls;
use crate::common::faults::{self, choices};
use crate::common::{trials, Random};
use crate::kept;
use s3frame::Rate;

#[test]
fn an_unknown_rate_has_nothing() {
    let low_octet_known = Rate::ALL.map(|rate| [256, 65_536, 1 << 31].map(|above| above + rate.number())).concat();
    for rate in [0, 12, 255, u32::MAX].into_iter().chain(low_octet_known) {
        assert_eq!([calls::packets_of(rate), calls::table_entries(rate)], [0, 0], "rate {rate}");
    }
}

#[test]
fn copying_a_published_table() {
    let mut random = Random::new(63);
    for faults in choices(&[1, 4], trials(40)) {
        let rate = random.rate();
        let mut number = rate.number();
        let mut area = random.numbers(reference::tables::printed([rate as usize]).len());
        if faults.has(4) {
            faults::break_length(&mut random, &mut area);
        }
        if faults.has(1) {
            faults::unknown(&mut random, &mut number, 11);
        }
        kept(
            faults.first(),
            &area,
            |area| calls::published_table(number, area),
            |area| reference::calls::published_table(number as usize, area),
        );
    }
}
