//! Two lists beside each other: what agrees from the front and from the end, and the gaps between what they have in common.
use similar::{capture_diff_slices_deadline, Algorithm, DiffOp};
use std::collections::HashSet;
use std::iter::once;
use std::ops::Range;
use std::time::{Duration, Instant};

/// What stands for a packet: wide enough that no two packets of a list share it by chance.
pub type Digest = u128;

/// Packets that lie between packets in common: those of SENT and those of RECEIVED, one of the two maybe none.
#[derive(Debug, PartialEq, Eq)]
pub struct Gap {
    pub sent: Range<usize>,
    pub received: Range<usize>,
}

/// Two lists beside each other: how many packets agree from the front and, behind those, from the end; and what lies
/// between. It is not whole where the search ran out of time.
pub struct Comparison {
    pub front: usize,
    pub end: usize,
    pub gaps: Vec<Gap>,
    pub whole: bool,
}

/// Compares what follows so many packets that agree, with a search that takes so long at most.
pub fn compare(front: usize, sent: &[Digest], received: &[Digest], patience: Duration) -> Comparison {
    let end = sent.iter().rev().zip(received.iter().rev()).take_while(|(one, other)| one == other).count();
    let (sent, received) = (&sent[..sent.len() - end], &received[..received.len() - end]);
    let deadline = Instant::now() + patience;
    let mut gaps = gaps(sent, received, deadline);
    for gap in &mut gaps {
        gap.sent = gap.sent.start + front..gap.sent.end + front;
        gap.received = gap.received.start + front..gap.received.end + front;
    }
    Comparison { front, end, gaps, whole: Instant::now() < deadline }
}

/// The gaps between the packets that two lists have in common, in their order.
fn gaps(sent: &[Digest], received: &[Digest], deadline: Instant) -> Vec<Gap> {
    let pairs = pairs(sent, received, deadline).into_iter().chain(once((sent.len(), received.len())));
    let (mut gaps, mut at) = (Vec::new(), (0, 0));
    for (one, other) in pairs {
        if at != (one, other) {
            gaps.push(Gap { sent: at.0..one, received: at.1..other });
        }
        at = (one + 1, other + 1);
    }
    gaps
}

/// The places of packets in common. Those that one list alone has are left out of the search, which would lose its time on
/// them.
fn pairs(sent: &[Digest], received: &[Digest], deadline: Instant) -> Vec<(usize, usize)> {
    let (of_sent, of_received) = (shared(sent, received), shared(received, sent));
    let digests = |places: &[usize], list: &[Digest]| places.iter().map(|place| list[*place]).collect::<Vec<_>>();
    let (one, other) = (digests(&of_sent, sent), digests(&of_received, received));
    let mut pairs = Vec::new();
    for part in capture_diff_slices_deadline(Algorithm::Patience, &one, &other, Some(deadline)) {
        if let DiffOp::Equal { old_index, new_index, len } = part {
            pairs.extend((0..len).map(|k| (of_sent[old_index + k], of_received[new_index + k])));
        }
    }
    pairs
}

/// The places in one list of packets that the other has too.
fn shared(list: &[Digest], other: &[Digest]) -> Vec<usize> {
    let others: HashSet<&Digest> = other.iter().collect();
    (0..list.len()).filter(|place| others.contains(&list[*place])).collect()
}

#[cfg(test)]
mod tests {
    use super::*;

    fn compared(front: usize, sent: &[Digest], received: &[Digest]) -> Comparison {
        compare(front, sent, received, Duration::from_secs(60))
    }

    #[test]
    fn what_agrees_from_the_front_is_not_counted_from_the_end() {
        let comparison = compared(2, &[7], &[]);
        assert_eq!((comparison.front, comparison.end), (2, 0));
        assert_eq!(comparison.gaps, [Gap { sent: 2..3, received: 2..2 }]);
        assert!(compared(3, &[], &[]).gaps.is_empty());
    }

    #[test]
    fn runs_that_one_list_lacks() {
        let comparison = compared(10, &[1, 2, 3, 4, 5, 6, 7], &[3, 4, 8, 9, 5, 7]);
        assert_eq!(comparison.end, 1);
        let gap = |sent, received| Gap { sent, received };
        assert_eq!(comparison.gaps, [gap(10..12, 10..10), gap(14..14, 12..14), gap(15..16, 15..15)]);
    }

    #[test]
    fn packets_that_were_put_in_the_place_of_others() {
        let comparison = compared(0, &[1, 2, 3, 4], &[8, 9, 4]);
        assert_eq!(comparison.gaps, [Gap { sent: 0..3, received: 0..2 }]);
    }

    #[test]
    fn a_search_that_runs_out_of_time_loses_no_packet() {
        let sent: Vec<Digest> = (0..100_000).collect();
        let received: Vec<Digest> = sent.iter().rev().copied().collect();
        let comparison = compare(0, &sent, &received, Duration::ZERO);
        assert!(!comparison.whole);
        let covers =
            |range: fn(&Gap) -> Range<usize>| comparison.gaps.iter().map(|gap| range(gap).len()).sum::<usize>();
        assert_eq!(covers(|gap| gap.sent.clone()), covers(|gap| gap.received.clone()));
        assert!(covers(|gap| gap.sent.clone()) >= 99_999);
    }

    #[test]
    fn long_lists_without_a_packet_in_common_need_no_search() {
        let sent: Vec<Digest> = (0..1_000_000).collect();
        let received: Vec<Digest> = (1_000_000..2_000_000).collect();
        let comparison = compared(0, &sent, &received);
        assert!(comparison.whole);
        assert_eq!(comparison.gaps, [Gap { sent: 0..1_000_000, received: 0..1_000_000 }]);
    }
}
