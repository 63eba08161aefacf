//! Codes one frame of document 01's worked plan with the published parity tables, damages two slots, reads the frame back and
//! prints how often each answer came, and where parity broke.
//!
//!     cargo run --release --offline --example one_frame
use s3frame::{code_frame, read_frame, Group, Modulation, Plan, Rate, Refusal, SlotAnswer, SlotSettings};
use s3frame::{FRAME_OCTETS, SLOT_OCTETS};
use std::collections::BTreeMap;

const GROUPS: [Group; 2] = [
    Group { modulation: Modulation::Apsk16, rate: Rate::R7_9, slots: 115 },
    Group { modulation: Modulation::Qpsk, rate: Rate::R1_2, slots: 5 },
];

/// Our copies of the document lost the drawing of the register, so that these are an example's.
const SETTINGS: SlotSettings = SlotSettings { mask: 0x123_4567, start: 1 };

/// Document 01's number of an answer, and what it says.
fn meaning(answer: SlotAnswer) -> (u32, &'static str) {
    match answer {
        SlotAnswer::Read(_) => (0, "read"),
        SlotAnswer::Dummy => (Refusal::Dummy.number(), Refusal::Dummy.word()),
        SlotAnswer::Refused(refused) => (refused.refusal.number(), refused.refusal.word()),
    }
}

fn print_answers(answers: &[SlotAnswer]) {
    let mut counts = BTreeMap::new();
    for &answer in answers {
        *counts.entry(meaning(answer)).or_insert(0) += 1;
    }
    for ((number, word), count) in counts {
        println!("answer {number:2} {word:6} {count:3} slots");
    }
    for (slot, answer) in (1..).zip(answers) {
        if let SlotAnswer::Refused(refused) = answer {
            println!("slot {slot} {refused}");
        }
    }
}

fn main() -> Result<(), Refusal> {
    let plan = Plan::new(&GROUPS)?;
    let tables = plan.published_tables();
    let source: Vec<u8> = (0..plan.source_octets()).map(|k| (k % 251) as u8).collect();

    let mut frame = vec![0; FRAME_OCTETS];
    code_frame(&plan, SETTINGS, &tables, &source, &mut frame)?;
    // A bit of slot 2, which is data, and one of slot 100, a dummy that nobody reads.
    frame[SLOT_OCTETS] ^= 1;
    frame[99 * SLOT_OCTETS] ^= 1;

    let mut back = vec![0; source.len()];
    let read = read_frame(&plan, SETTINGS, &tables, &frame, &mut back)?;
    print_answers(&read.answers);
    let same = back.iter().zip(&source).filter(|(read, coded)| read == coded).count();
    println!("{same} of {} octets came back", source.len());
    Ok(())
}
