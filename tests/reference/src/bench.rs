//! The work of the program `test_bench`, by the loops of document 002 or by straight loops over one octet a bit.
use crate::plan::SLOTS;
use crate::quick::{Areas, Loops};
use crate::samples::{digest, octets, MASK, START};
use crate::slot::{code_slot, read_slot, Code, Read, OCTETS};
use crate::tables::tables;

/// Coding and reading from a register on, in one of two ways; the register after the slot.
trait Way {
    fn code(&mut self, register: u32, source: &[u8], coded: &mut [u8]) -> u32;
    /// The slot is sound.
    fn read(&mut self, register: u32, coded: &[u8], found: &mut [u8]) -> u32;
}

struct Plain<'a>(&'a Code);

impl Way for Plain<'_> {
    fn code(&mut self, register: u32, source: &[u8], coded: &mut [u8]) -> u32 {
        let (slot, after) = code_slot(self.0, MASK, register, source);
        coded.copy_from_slice(&slot);
        after
    }

    fn read(&mut self, register: u32, coded: &[u8], found: &mut [u8]) -> u32 {
        let (read, after) = read_slot(self.0, MASK, register, coded);
        let Read { source, stuff } = read.expect("a sound slot");
        assert_eq!(stuff, 63, "six ones");
        found.copy_from_slice(&source);
        after
    }
}

struct Quick(Loops, Areas);

impl Way for Quick {
    fn code(&mut self, register: u32, source: &[u8], coded: &mut [u8]) -> u32 {
        self.0.code(&mut self.1, MASK, register, source, coded)
    }

    fn read(&mut self, register: u32, coded: &[u8], found: &mut [u8]) -> u32 {
        let (stuff, after) = self.0.read(&mut self.1, MASK, register, coded, found);
        assert_eq!(stuff, Ok(63), "a sound slot, with six ones");
        after
    }
}

/// How often slots and whole frames are coded and read.
#[derive(Clone, Copy)]
pub struct Counts {
    pub coded: usize,
    pub read: usize,
    pub coded_frames: usize,
    pub read_frames: usize,
}

/// Codes slots, each with the last octet of the one before as its first, then reads the last slot again and again, and
/// gives a line with the digests of the last.
fn slot_line(way: &mut impl Way, rate: usize, octet_count: usize, counts: Counts) -> String {
    let mut source = octets(rate as u64, octet_count);
    let mut found = vec![0; octet_count];
    let mut coded = vec![0; OCTETS];
    for _ in 0..counts.coded {
        source[0] = coded[OCTETS - 1];
        way.code(START, &source, &mut coded);
    }
    let mut registers = 0;
    for _ in 0..counts.read {
        registers = (registers + u64::from(way.read(START, &coded, &mut found))) % (1 << 32);
    }
    let (slot, read) = (digest(&coded), digest(&found));
    let Counts { coded: codings, read: readings, .. } = counts;
    format!("rate {rate} coded {codings} digest {slot} read {readings} registers {registers} digest {read}")
}

/// The same with whole frames of 120 data slots.
fn frame_line(way: &mut impl Way, rate: usize, octet_count: usize, counts: Counts) -> String {
    let mut sources = octets(rate as u64, SLOTS * octet_count);
    let mut found = vec![0; SLOTS * octet_count];
    let mut frame = vec![0; SLOTS * OCTETS];
    for _ in 0..counts.coded_frames {
        sources[0] = frame[SLOTS * OCTETS - 1];
        let mut register = START;
        for (source, coded) in sources.chunks(octet_count).zip(frame.chunks_mut(OCTETS)) {
            register = way.code(register, source, coded);
        }
    }
    for _ in 0..counts.read_frames {
        let mut register = START;
        for (coded, read) in frame.chunks(OCTETS).zip(found.chunks_mut(octet_count)) {
            register = way.read(register, coded, read);
        }
    }
    let (coded, read, answers) = (digest(&frame), digest(&found), digest(&[0; SLOTS]));
    let Counts { coded_frames, read_frames, .. } = counts;
    format!("frame rate {rate} coded {coded_frames} digest {coded} read {read_frames} answers {answers} digest {read}")
}

fn both_lines(way: &mut impl Way, rate: usize, octet_count: usize, counts: Counts) -> (String, String) {
    (slot_line(way, rate, octet_count, counts), frame_line(way, rate, octet_count, counts))
}

fn lines(quick: bool, counts: Counts, rates: &[usize]) -> Vec<String> {
    let of_rate = |&rate: &usize| {
        let code = Code::new(tables().swap_remove(rate - 1));
        let count = code.message_bits() / 8;
        if quick {
            both_lines(&mut Quick(Loops::new(&code), Areas::new()), rate, count, counts)
        } else {
            both_lines(&mut Plain(&code), rate, count, counts)
        }
    };
    let (slots, frames): (Vec<_>, Vec<_>) = rates.iter().map(of_rate).unzip();
    slots.into_iter().chain(frames).collect()
}

pub fn print(quick: bool, counts: Counts, rates: &[usize]) {
    for line in lines(quick, counts, rates) {
        println!("{line}");
    }
}

#[cfg(test)]
mod tests {
    use super::*;

    #[test]
    fn both_ways_agree() {
        let counts = Counts { coded: 3, read: 2, coded_frames: 1, read_frames: 1 };
        assert_eq!(lines(true, counts, &[1, 7, 11]), lines(false, counts, &[1, 7, 11]));
    }
}
