//! Where the parity of a slot broke: bits at every edge turned round, alone and with others, and the position worked from the
//! parity table; the lone check, the reader of a slot, and the second implementation must tell the same.
mod common;
use common::words::{turned, Word, NO_POSITION};
use common::{code, groups, number_and_position, told, trials, twin, Random, Told};
use reference::calls;
use reference::ldpc::GROUP;
use reference::slot::Refused;
use reference::vectors::with_parity_anew;
use s3frame::{check_parity, FrameState, Modulation, Rate, SLOT_OCTETS};

/// A coded slot, the state that it is read from, and what its rate fixes.
struct Sent {
    state: FrameState,
    rate: Rate,
    table: Vec<u16>,
    slot: Vec<u8>,
}

impl Sent {
    fn new(random: &mut Random, modulation: Modulation, rate: Rate) -> Sent {
        let (state, table) = (random.state(modulation, rate), random.table(rate));
        let (source, mut slot) = (random.source(rate.source_octets()), vec![0; SLOT_OCTETS]);
        state.code_slot(&table, &source, &mut slot).expect("a slot that is coded");
        Sent { state, rate, table, slot }
    }

    /// What every call that reads or checks a slot tells of this one: reading's, and the lone check's.
    fn told(&self, slot: &[u8]) -> (Told, (u8, u16)) {
        let Sent { state, rate, table, .. } = self;
        let (groups, mut source) = (groups(&state.plan()), vec![0; rate.source_octets()]);
        let read = told(state.read_slot(table, slot, &mut source).answer);
        let (expected, _) = calls::read_slot(&twin(&groups, state), table, slot, &mut source);
        assert_eq!((read.0, read.2), Refused::told(&expected));
        (read, number_and_position(check_parity(*rate, table, slot)))
    }

    /// The parity of the slot must break so where these bits of it are turned round, if it breaks at all.
    fn breaks(&self, word: &Word<'_>, bits: &[usize]) -> Option<u16> {
        let lowest = word.lowest_failing(bits)?;
        assert_eq!(self.told(&turned(&self.slot, bits)), ((8, 255, lowest), (8, lowest)), "bits {bits:?}");
        Some(lowest)
    }
}

/// The bits before the parity that stand at an edge: of header, data, BCH bits, stuff bits, and rows of the table.
fn edges(rate: Rate) -> Vec<usize> {
    let (message, row) = (8 * rate.source_octets(), GROUP);
    let behind = [176, row, 2 * row, message, message + 192, message + 198];
    [0].into_iter().chain(behind.iter().flat_map(|&edge| [edge - 1, edge])).filter(|&bit| bit < message + 198).collect()
}

fn slot_of(random: &mut Random, modulation: Modulation, rate: Rate) {
    let sent = Sent::new(random, modulation, rate);
    let code = code(rate, &sent.table);
    let word = Word::slot(&code);
    assert_eq!(word.parity_bits(), rate.parity_bits());
    let last = rate.parity_bits() - 1;
    for position in [0, 1, last / 2, last - 1, last] {
        let bit = word.before + position;
        assert_eq!(sent.breaks(&word, &[bit]), Some(position as u16));
        assert_eq!(sent.breaks(&word, &[8 * SLOT_OCTETS - 1, bit]), Some(position as u16).filter(|_| position != last));
    }
    for bit in edges(rate) {
        let lowest = usize::from(sent.breaks(&word, &[bit]).expect("a position that one bit breaks"));
        // A parity bit below, the same one, and one above.
        for position in [lowest.saturating_sub(1), lowest, random.below(last)] {
            sent.breaks(&word, &[bit, word.before + position]);
        }
    }
    let several: Vec<usize> = (0..50).map(|_| random.below(8 * SLOT_OCTETS)).collect();
    sent.breaks(&word, &several);
}

#[test]
fn every_rate() {
    let mut random = Random::new(91);
    for _ in 0..trials(1) {
        for (rate, modulation) in Rate::ALL.into_iter().zip(Modulation::ALL.into_iter().cycle()) {
            slot_of(&mut random, modulation, rate);
        }
    }
}

/// Wrong bits under a parity made anew break no position: BCH refuses them, and stuff bits are read.
#[test]
fn a_sound_parity_has_no_position() {
    let mut random = Random::new(92);
    for rate in Rate::ALL {
        let sent = Sent::new(&mut random, Modulation::Apsk32, rate);
        let (code, message) = (code(rate, &sent.table), 8 * rate.source_octets());
        for (bit, number, stuff) in [(0, 9, 255), (message, 9, 255), (message + 191, 9, 255), (message + 192, 0, 31)] {
            let slot = with_parity_anew(&code, &turned(&sent.slot, &[bit]));
            assert_eq!(sent.told(&slot), ((number, stuff, NO_POSITION), (0, NO_POSITION)));
        }
        assert_eq!(sent.told(&sent.slot), ((0, 63, NO_POSITION), (0, NO_POSITION)));
    }
}

/// By the published tables: bit 0 reaches the addresses of row 0, bit 373 the positions one step of q before them; 44,879 is
/// the last parity bit of every rate.
#[test]
fn positions_worked_by_hand() {
    let mut random = Random::new(93);
    for (rate, expected) in [(Rate::R1_3, [625, 546, 29_545]), (Rate::R2_3, [4958, 4919, 14_585])] {
        let sent = Sent { table: rate.published_table(), ..Sent::new(&mut random, Modulation::Apsk32, rate) };
        let slot = with_parity_anew(&code(rate, &sent.table), &sent.slot);
        let lowest = [0, 373, 44_879].map(|bit| sent.told(&turned(&slot, &[bit])).1);
        assert_eq!(lowest, expected.map(|position| (8, position)));
    }
}
