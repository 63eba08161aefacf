//! Packets and data octets beside the second implementation.
mod common;
use common::{number, trials, Random};
use reference::packets;
use s3frame::{pack, unpack, Rate, HEADER_OCTETS, SLOT_OCTETS};

/// Packets of chance, of which now and then one has another sync octet.
fn packets_of_chance(random: &mut Random, rate: Rate) -> Vec<u8> {
    let mut octets = random.packets(rate);
    if random.chance(3) {
        let packet = 188 * random.below(rate.packets());
        octets[packet] = random.pick(&[0x46, 0x57, 0x00, 0xff]);
    }
    octets
}

fn slot_of(random: &mut Random, rate: Rate) -> u32 {
    let given = packets_of_chance(random, rate);
    let found = random.octets(rate.data_octets());
    let [mut ours, mut theirs] = [found.clone(), found];
    let expected = packets::pack(rate as usize, &given, &mut theirs);
    assert_eq!(number(pack(rate, &given, &mut ours)), expected.into());
    assert!(ours == theirs, "the data octets differ");

    let found = random.octets(rate.packet_octets());
    let [mut back, mut expected_back] = [found.clone(), found];
    assert_eq!(packets::unpack(rate as usize, &ours, &mut expected_back), 0);
    assert_eq!(unpack(rate, &ours, &mut back), Ok(()));
    assert!(back == expected_back && (expected != 0 || back == given));
    expected.into()
}

#[test]
fn packets_of_every_rate() {
    let mut random = Random::new(41);
    let rates = (0..trials(30)).flat_map(|_| Rate::ALL);
    let numbers: Vec<u32> = rates.map(|rate| slot_of(&mut random, rate)).collect();
    assert!(numbers.contains(&0) && numbers.contains(&7));
}

/// A slot of packets: packed and coded, read and unpacked.
#[test]
fn packets_come_back_from_their_slot() {
    let mut random = Random::new(42);
    for rate in Rate::ALL {
        let modulation = random.modulation();
        let (state, table, sent) = (random.state(modulation, rate), random.table(rate), random.packets(rate));
        let (mut source, mut slot) = (random.source(rate.source_octets()), vec![0; SLOT_OCTETS]);
        assert_eq!(pack(rate, &sent, &mut source[HEADER_OCTETS..]), Ok(()));
        let after = state.code_slot(&table, &source, &mut slot).expect("a slot that is coded");
        let (mut read, mut back) = (vec![0; source.len()], vec![0; sent.len()]);
        assert_eq!(state.read_slot(&table, &slot, &mut read).state, after);
        assert_eq!(unpack(rate, &read[HEADER_OCTETS..], &mut back), Ok(()));
        assert!(read == source && back == sent, "header and packets come back");
    }
}
