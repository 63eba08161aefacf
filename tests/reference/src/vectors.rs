//! The lines that the program `test_slots` must write: for each rate the first two slots of a frame, coded, read back,
//! and read with one bit damaged.
use crate::ldpc;
use crate::samples::{digest, octets, MASK, START};
use crate::slot::{bits_of, check_parity, code_slot, octets_of, read_slot, Code, Refused, NO_STUFF};
use crate::tables::tables;

/// A slot, or another run of octets, where the first bit of an octet is the other one.
pub fn damaged(coded: &[u8], octet: usize) -> Vec<u8> {
    let mut slot = coded.to_vec();
    slot[octet] ^= 0x80;
    slot
}

/// A slot with its parity made anew.
pub fn with_parity_anew(code: &Code, coded: &[u8]) -> Vec<u8> {
    let mut bits = bits_of(coded);
    bits.truncate(code.dispersed_bits());
    bits.extend(ldpc::parity(&code.table, &bits));
    octets_of(&bits)
}

/// What reading a slot gives: number, stuff bits, failing position, register after it, the digest of the octets read, or of those
/// found where it is refused; and the number and position of the lone parity check.
fn read_line(title: &str, code: &Code, register: u32, coded: &[u8]) {
    let (read, after) = read_slot(code, MASK, register, coded);
    let (check, checked) = Refused::told(&check_parity(code, coded));
    let (number, position) = Refused::told(&read);
    let stuff = read.as_ref().map_or(NO_STUFF, |read| read.stuff);
    let source = read.map_or_else(|_| octets(0, code.message_bits() / 8), |read| read.source);
    let answers = format!("read {number} stuff {stuff} position {position} check {check} position {checked}");
    println!("{title} {answers} register {after} digest {}", digest(&source));
}

fn slot_lines(title: &str, code: &Code, register: u32, source: &[u8]) -> u32 {
    let (coded, after) = code_slot(code, MASK, register, source);
    println!("{title} coded 0 register {after} digest {}", digest(&coded));
    read_line(&format!("{title} whole"), code, register, &coded);
    read_line(&format!("{title} damaged"), code, register, &damaged(&coded, 0));
    after
}

pub fn print() {
    for (rate, table) in (1..).zip(tables()) {
        let code = Code::new(table);
        let mut register = START;
        for slot in 1..=2 {
            let source = octets(100 * rate + slot, code.message_bits() / 8);
            register = slot_lines(&format!("rate {rate} slot {slot}"), &code, register, &source);
        }
    }
}
