//! Packets and data octets.
use crate::calls;
use crate::common::faults::{self, choices};
use crate::common::{trials, Random};
use crate::kept;
use reference::packets;

#[test]
fn packing() {
    let mut random = Random::new(62);
    for faults in choices(&[1, 4, 7], trials(40)) {
        let rate = random.rate();
        let mut number = rate.number();
        let (mut given, mut data) = (random.packets(rate), random.octets(rate.data_octets()));
        if faults.has(7) {
            faults::break_sync(&mut random, &mut given);
        }
        if faults.has(4) {
            faults::break_one_length(&mut random, &mut [&mut given, &mut data]);
        }
        if faults.has(1) {
            faults::unknown(&mut random, &mut number, 11);
        }
        kept(
            faults.first(),
            &data,
            |data| calls::pack(number, &given, data),
            |data| packets::pack(number as usize, &given, data),
        );
        // Packets that are written may begin with anything before.
        kept(
            if faults.first() == 7 { 0 } else { faults.first() },
            &given,
            |given| calls::unpack(number, &data, given),
            |given| packets::unpack(number as usize, &data, given),
        );
    }
}
