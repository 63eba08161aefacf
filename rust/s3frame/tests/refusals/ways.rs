//! Ways to a wrong length.
use crate::common::faults::{choices, pairs_with, Faults};
use crate::common::Random;

/// A way to 4, and what of the call it breaks: two ways that break the same might mend each other.
pub struct Way<L> {
    pub of: &'static str,
    pub break_it: fn(&mut L),
}

/// Takes the last element off an area.
pub fn cut<T>(area: &mut Vec<T>) {
    area.truncate(area.len() - 1);
}

/// Each way alone, and each two that break different things.
pub fn alone_and_in_pairs<'a, L: 'a>(ways: impl IntoIterator<Item = &'a Way<L>>) -> Vec<Vec<&'a Way<L>>> {
    let ways: Vec<&Way<L>> = ways.into_iter().collect();
    let alone = ways.iter().map(|&way| vec![way]);
    let pairs = ways.iter().enumerate().flat_map(|(k, &one)| ways[..k].iter().map(move |&other| vec![one, other]));
    alone.chain(pairs.filter(|pair| pair[0].of != pair[1].of)).collect()
}

/// Makes a call with every choice among its numbers, so many times, a wrong length by a way of chance; and with every such way
/// and one other thing wrong, or none.
pub fn with_choices<L>(
    random: &mut Random,
    numbers: &[u8],
    times: usize,
    lengths: &[Vec<&Way<L>>],
    call: fn(&mut Random, &Faults, &[&Way<L>]),
) {
    for faults in choices(numbers, times) {
        let wrong = if faults.has(4) { &lengths[random.below(lengths.len())][..] } else { &[] };
        call(random, &faults, wrong);
    }
    for wrong in lengths {
        pairs_with(4, numbers).iter().for_each(|faults| call(random, faults, wrong));
    }
}
