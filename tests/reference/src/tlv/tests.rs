//! TLV channels worked by hand, sentence by sentence, in slots of 1,870 data octets.
use super::*;

/// The data octets of a slot of rate 1, the smallest.
const DATA: usize = 1870;

/// What areas hold before a call.
const FOUND: u8 = 0xa5;

/// A packet of a type, with a body of so many octets: ones in a null, others elsewhere.
fn packet(kind: u8, body: u16) -> Vec<u8> {
    let octet = if kind == NULL { 0xff } else { 0x5a };
    let [high, low] = body.to_be_bytes();
    [vec![FIRST, kind, high, low], vec![octet; body.into()]].concat()
}

/// Slots and reports after filling, and its answer.
type Filled = (Vec<u8>, Vec<u16>, Result<(usize, usize), u8>);

fn filled(packets: &[u8], taken: usize, owed: usize, count: usize) -> Filled {
    let (mut slots, mut begins) = (vec![FOUND; count * DATA], vec![7; count]);
    let answer = fill(1, packets, taken, owed, &mut slots, &mut begins);
    (slots, begins, answer)
}

/// The number of a filling that is refused, which must leave slots and reports as they were.
fn refused(packets: &[u8], taken: usize, owed: usize) -> u8 {
    let (slots, begins, answer) = filled(packets, taken, owed, 1);
    assert!(slots == vec![FOUND; DATA] && begins == [7]);
    answer.expect_err("a refusal")
}

/// What reading wrote, and where the unfinished one begins; everything behind must be as it was.
fn read_from(slots: &[u8], begins: &[u16], lost: &[u8], first: u32) -> (Vec<u8>, usize) {
    let mut packets = vec![FOUND; slots.len()];
    let (written, unfinished) = read(1, slots, begins, lost, first, &mut packets).expect("slots and reports");
    let rest = packets.split_off(written);
    assert!(rest.iter().all(|&octet| octet == FOUND));
    (packets, unfinished)
}

fn read_all(slots: &[u8], begins: &[u16], lost: &[u8]) -> (Vec<u8>, usize) {
    read_from(slots, begins, lost, 65535)
}

/// The numbers of filling and of reading with areas of these lengths.
fn with_lengths(rate: usize, slots: usize, begins: usize, marks: usize, packets: usize) -> [u8; 2] {
    let (mut octets, mut reports) = (vec![0; slots], vec![0; begins]);
    let filled = fill(rate, &[], 0, 0, &mut octets, &mut reports);
    let read = read(rate, &octets, &reports, &vec![0; marks], 65535, &mut vec![0; packets]);
    [filled, read].map(|answer| answer.err().unwrap_or(0))
}

#[test]
fn a_packet_is_its_first_octet_a_type_a_length_and_the_body() {
    let right: Vec<u8> = (0..=255).filter(|&kind| first_packet(&packet(kind, 3)).is_some()).collect();
    assert_eq!(right, [0x01, 0x02, 0x03, 0xfe, 0xff]);
    assert_eq!(octets_of(&[FIRST, 1, 1, 2]), 4 + 258);
    assert_eq!(octets_of(&[FIRST, 1, 255, 255]), 65539);
    assert_eq!(packet(NULL, 0), FILLER);
    let mut null = packet(NULL, 3);
    null[6] = 0xfe;
    assert!(!body_right(&null) && body_right(&[FIRST, 0xfe, 0, 1, 0]));
}

#[test]
fn packets_lie_end_to_end_across_slots() {
    let packets = [packet(1, 1860), packet(2, 8), packet(0xfe, 1850), packet(3, 0)].concat();
    let (slots, begins, answer) = filled(&packets, 0, 0, 2);
    assert_eq!(slots[..3734], packets);
    // The second packet begins at octet 1864 and ends at 1876; the third begins there, 6 octets into the second slot.
    assert_eq!(begins, [0, 6]);
    assert_eq!(slots[3730..], [&packet(3, 0)[..], &FILLER, &[0x7f, 0xff]].concat());
    assert_eq!(answer, Ok((3734, 2)));
}

#[test]
fn the_owed_octets_come_first_and_are_no_beginning() {
    for (owed, rest) in [(0, &[][..]), (1, &[0]), (2, &[0, 0]), (3, &[0xff, 0, 0])] {
        let (slots, begins, answer) = filled(&packet(1, 100), 0, owed, 1);
        assert_eq!((&slots[..owed], &slots[owed..owed + 104]), (rest, &packet(1, 100)[..]));
        assert_eq!(begins, [owed as u16]);
        // 1766 - owed octets of fillers: two octets are left of the last where none are owed, and three where one is.
        assert_eq!(answer, Ok((104, [2, 3, 0, 1][owed])));
    }
}

#[test]
fn a_cut_filler_is_carried_on_into_the_next_slot() {
    // 1870 is 467 fillers and two octets.
    let (slots, begins, answer) = filled(&[], 0, 0, 3);
    assert_eq!(slots, FILLER.repeat(1403)[..5610]);
    assert_eq!((begins, answer), (vec![0, 2, 0], Ok((0, 2))));
    let (first, _, _) = filled(&[], 0, 0, 1);
    let (second, begins, answer) = filled(&[], 0, 2, 1);
    assert_eq!([first, second].concat(), slots[..3740]);
    assert_eq!((begins, answer), (vec![2], Ok((0, 0))));
}

#[test]
fn what_was_taken_before_is_not_filled_again() {
    let packets = [packet(1, 5000), packet(2, 600)].concat();
    assert_eq!(filled(&packets, 0, 0, 1).1, [0]);
    let (slots, begins, answer) = filled(&packets, 1870, 0, 2);
    assert_eq!(slots, [&packets[1870..], &[0x7f, 0xff]].concat());
    assert_eq!(answer, Ok((5608, 2)));
    // The second packet begins at octet 5004 of all, 1264 octets into the second of these slots.
    assert_eq!(begins, [65535, 1264]);
    assert_eq!(filled(&packets, 5004, 0, 1).1, [0]);
    assert_eq!(filled(&packets, 5005, 0, 1).1, [603]);
}

#[test]
fn packets_that_end_with_the_slots_owe_nothing() {
    let packets = packet(1, 1866);
    assert_eq!(filled(&packets, 0, 0, 1).2, Ok((1870, 0)));
    assert_eq!(filled(&packets, 0, 1, 1).2, Ok((1869, 0)));
    assert_eq!(filled(&packets, 1869, 0, 1).2, Ok((1870, 3)));
    assert_eq!(filled(&packets, 1870, 0, 1).1, [0]);
    assert_eq!(filled(&packets, 1870, 3, 1).1, [3]);
}

#[test]
fn taken_and_owed_have_their_limits() {
    let packets = packet(1, 6);
    assert!([(10, 0), (10, 3), (0, 3), (5, 0)].iter().all(|&(taken, owed)| filled(&packets, taken, owed, 1).2.is_ok()));
    let wrong = [(11, 0), (0, 4), (10, 4), (5, 1), (9, 3), (1, 1), (usize::MAX, 0), (0, usize::MAX), (1 << 32, 1 << 8)];
    assert_eq!(wrong.map(|(taken, owed)| refused(&packets, taken, owed)), [4; 9]);
    assert_eq!(filled(&[], 0, 3, 1).2, Ok((0, 1)));
}

#[test]
fn lengths_come_behind_the_rate_and_before_the_packets() {
    assert_eq!(with_lengths(1, DATA, 1, 1, DATA), [0, 0]);
    assert_eq!([0, 12].map(|rate| with_lengths(rate, 0, 1, 1, 1)), [[1, 1]; 2]);
    for (slots, begins) in [(0, 0), (0, 1), (DATA - 1, 1), (DATA + 1, 1), (DATA, 0), (DATA, 2), (2 * DATA, 1)] {
        assert_eq!(with_lengths(1, slots, begins, slots / DATA, slots), [4, 4]);
    }
    for (marks, packets) in [(0, DATA), (2, DATA), (1, DATA - 1), (1, DATA + 1), (1, 0)] {
        assert_eq!(with_lengths(1, DATA, 1, marks, packets), [0, 4]);
    }
    assert_eq!([refused(&[0], 2, 0), refused(&[0], 1, 0)], [4, 16]);
}

#[test]
fn wrong_packets_are_refused_also_those_taken_before() {
    let whole = [packet(1, 6), packet(NULL, 3), packet(2, 0)].concat();
    assert!(filled(&whole, 0, 0, 1).2.is_ok());
    for (octet, value) in [(0, 0x7e), (1, 0), (1, 4), (1, 0xfd), (3, 5), (10, 0xff), (12, 1), (16, 0xfe), (20, 1)] {
        let mut wrong = whole.clone();
        wrong[octet] = value;
        assert_eq!([0, 10, 21].map(|taken| refused(&wrong, taken, 0)), [16; 3]);
    }
    for cut in [1, 2, 3, 5, 6, 7, 8, 13] {
        assert_eq!(refused(&whole[..whole.len() - cut], 0, 0), 16);
    }
    assert!([4, 11].iter().all(|cut| filled(&whole[..whole.len() - cut], 0, 0, 1).2.is_ok()));
}

#[test]
fn empty_nulls_are_left_out_the_callers_own_too() {
    let packets = [packet(NULL, 0), packet(1, 6), packet(NULL, 0), packet(NULL, 1), packet(2, 0)].concat();
    let (slots, begins, _) = filled(&packets, 0, 0, 1);
    let left = [packet(1, 6), packet(NULL, 1), packet(2, 0)].concat();
    // 1870 - 27 is 460 fillers and three octets of another, the unfinished one.
    assert_eq!(read_all(&slots, &begins, &[0]), (left, 1867));
}

#[test]
fn an_unfinished_packet_is_named_and_not_written() {
    let packets = [packet(1, 100), packet(2, 3000)].concat();
    let (slots, begins, _) = filled(&packets, 0, 0, 1);
    assert_eq!(read_all(&slots, &begins, &[0]), (packet(1, 100), 104));
    let (slots, begins, _) = filled(&packets, 0, 0, 2);
    // Behind 3108 octets there are 158 fillers.
    assert_eq!(read_all(&slots, &begins, &[0, 0]), (packets, 3740));
    for (body, last) in [(1866, 1870), (1865, 1869), (1864, 1868), (1863, 1867), (1862, 1870), (1867, 0)] {
        let (slots, begins, _) = filled(&packet(1, body), 0, 0, 1);
        assert_eq!(read_all(&slots, &begins, &[0]).1, last);
    }
}

#[test]
fn a_cut_head_or_null_is_unfinished_whatever_is_seen_of_it() {
    let mut slots = packet(1, 1863);
    slots.extend([0x7e, 0, 0]);
    assert_eq!(read_all(&slots, &[0], &[0]), (packet(1, 1863), 1867));
    let mut slots = packet(NULL, 1867);
    slots.pop();
    slots[100] = 0;
    assert_eq!(read_all(&slots, &[0], &[0]), (vec![], 0));
    slots[0] = 0;
    assert_eq!(read_all(&slots, &[0], &[0]), (vec![], 1870));
}

/// Five slots: a packet in the first, one over the second and third, one in the third, one over the last two.
fn five_slots() -> (Vec<u8>, Vec<u16>, [Vec<u8>; 4]) {
    let parts = [packet(1, 1866), packet(2, 2000), packet(3, 1732), packet(0xfe, 2000)];
    let (slots, begins, _) = filled(&parts.concat(), 0, 0, 5);
    assert_eq!(begins, [0, 0, 134, 0, 134]);
    (slots, begins, parts)
}

#[test]
fn behind_a_lost_slot_reading_goes_on_at_the_next_reported_beginning() {
    let (slots, begins, [a, b, c, d]) = five_slots();
    let read = |lost: [u8; 5]| read_all(&slots, &begins, &lost).0;
    assert_eq!(read([0; 5]), [&a[..], &b, &c, &d].concat());
    assert_eq!(read([1, 0, 0, 0, 0]), [&b[..], &c, &d].concat());
    assert_eq!(read([0, 1, 0, 0, 0]), [&a[..], &c, &d].concat());
    assert_eq!(read([0, 0, 1, 0, 0]), [&a[..], &d].concat());
    assert_eq!(read([0, 0, 0, 1, 0]), [&a[..], &b, &c].concat());
    assert_eq!(read([0, 1, 0, 1, 1]), [&a[..], &c].concat());
    assert_eq!(read([1; 5]), []);
    // 434 fillers end with the last slot, so that nothing is unfinished; nor is a packet that a lost slot broke.
    assert_eq!([[0; 5], [0, 0, 0, 0, 1]].map(|lost| read_all(&slots, &begins, &lost).1), [9350; 2]);
}

#[test]
fn octets_of_lost_slots_are_not_looked_at() {
    let (mut slots, begins, _) = five_slots();
    let lost = [0, 1, 0, 1, 0];
    let before = read_all(&slots, &begins, &lost);
    for octet in [0, 0x7f, 0xff] {
        slots[DATA..2 * DATA].fill(octet);
        slots[3 * DATA..4 * DATA].fill(octet);
        assert_eq!(read_all(&slots, &begins, &lost), before);
    }
}

#[test]
fn a_head_cut_by_a_lost_slot_is_dropped() {
    for seen in 1..4 {
        let packets = [packet(1, 1866 - seen), packet(2, 100)].concat();
        let (mut slots, mut begins, _) = filled(&packets, 0, 0, 3);
        // Even a wrong octet of it changes nothing: it is the lost slot that ends the head.
        slots[1870 - usize::from(seen)] = 0;
        begins[2] = 65535;
        assert_eq!(read_all(&slots, &begins, &[0, 1, 0]), (packet(1, 1866 - seen), 5610));
    }
}

#[test]
fn a_null_that_a_lost_slot_breaks_goes_on_behind_that_slot() {
    let packets = [packet(NULL, 4000), packet(1, 50)].concat();
    let (mut slots, mut begins, _) = filled(&packets, 0, 0, 4);
    slots[5] = 0;
    begins[1] = 9;
    slots[1879..1883].copy_from_slice(&packet(3, 0));
    // Its body is wrong in the first slot already, but it never is whole: the second slot's report is not used.
    assert_eq!(begins[2], 264);
    assert_eq!(read_all(&slots, &begins, &[0, 0, 1, 0]).0, []);
    // Whole, it is wrong, and reading goes on behind its head's slot, inside its own extent. Behind the packet there
    // stands a wrong head, so that the third slot's report counts next.
    assert_eq!(read_all(&slots, &begins, &[0; 4]).0, [packet(3, 0), packet(1, 50)].concat());
}

#[test]
fn a_packet_that_meets_a_lost_slot_and_runs_past_the_end_is_dropped() {
    let (slots, begins, _) = filled(&packet(1, 9000), 0, 0, 3);
    assert_eq!(read_all(&slots, &begins, &[0; 3]), (vec![], 0));
    assert_eq!([[0, 1, 0], [0, 0, 1]].map(|lost| read_all(&slots, &begins, &lost)), [(vec![], 5610), (vec![], 5610)]);
}

#[test]
fn a_wrong_head_loses_the_rest_of_its_slot() {
    let (whole, begins, [a, b, c, d]) = five_slots();
    let read_with = |octet: usize, value: u8| {
        let mut slots = whole.clone();
        slots[octet] = value;
        read_all(&slots, &begins, &[0; 5]).0
    };
    assert_eq!(read_with(0, 0x47), [&b[..], &c, &d].concat());
    assert_eq!(read_with(DATA, 0x47), [&a[..], &c, &d].concat());
    assert_eq!(read_with(DATA + 1, 4), [&a[..], &c, &d].concat());
    // A body may hold anything, but for a null's.
    let mut other = b;
    other[4] = 0;
    assert_eq!(read_with(DATA + 4, 0), [&a[..], &other, &c, &d].concat());
}

#[test]
fn a_wrong_head_over_two_slots_belongs_to_the_first() {
    let packets = [packet(1, 1864), packet(2, 30), packet(3, 40)].concat();
    let (mut slots, begins, _) = filled(&packets, 0, 0, 2);
    assert_eq!((&begins[..], slots[1868]), (&[0, 32][..], 0x7f));
    slots[1868] = 0x7e;
    assert_eq!(read_all(&slots, &begins, &[0, 0]).0, [packet(1, 1864), packet(3, 40)].concat());
}

#[test]
fn reading_begins_at_the_octet_that_is_named() {
    let packets = [packet(1, 10), packet(2, 20), packet(3, 30)].concat();
    let (slots, begins, _) = filled(&packets, 0, 0, 1);
    let read = |begins: &[u16], first| read_from(&slots, begins, &[0], first).0;
    assert_eq!([read(&begins, 0), read(&begins, 65535)], [packets.clone(), packets.clone()]);
    assert_eq!(read(&begins, 14), packets[14..]);
    assert_eq!([read(&[14], 0), read(&[14], 65535)], [&packets[..], &packets[14..]]);
    assert_eq!([read(&[65535], 0), read(&[65535], 65535)], [&packets[..], &[]]);
    // No head begins at octet 1: the rest of the slot is lost.
    assert_eq!(read(&begins, 1), []);
    assert_eq!(read_from(&slots, &begins, &[1], 0), (vec![], 1870));
}

#[test]
fn reports_marks_and_the_first_octet_have_their_limits() {
    let slots = vec![0; 2 * DATA];
    let number = |begins: [u16; 2], lost: [u8; 2], first: u32| {
        let mut packets = vec![FOUND; 2 * DATA];
        let answer = read(1, &slots, &begins, &lost, first, &mut packets);
        assert!(packets == vec![FOUND; 2 * DATA] && answer.map_or(true, |answer| answer == (0, 3740)));
        answer.err().unwrap_or(0)
    };
    assert_eq!([number([1869, 65535], [0, 1], 1869), number([65535, 1869], [1, 1], 65535)], [0, 0]);
    for wrong in [1870, 1871, 3740, 65534] {
        assert_eq!([number([wrong, 0], [0, 0], 0), number([0, wrong], [0, 1], 0)], [4, 4]);
        assert_eq!(number([0, 0], [0, 0], wrong.into()), 4);
    }
    assert_eq!([65536, 1 << 16 | 5, u32::MAX].map(|first| number([0, 0], [0, 0], first)), [4; 3]);
    assert_eq!([2, 3, 128, 255].map(|mark| number([0, 0], [0, mark], 0)), [4; 4]);
}
