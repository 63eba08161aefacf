//! Signs of a framer that is worth its name, worked by hand: slots that differ, a register that dummies and damage leave
//! alone, and a frame that is full behind slot 120 and not before.
use reference::samples::{octets, MASK, START};
use reference::vectors::damaged;
use s3frame::{code_frame, FrameState, Plan, Rate, Refusal, SlotSettings, StuffBits, FRAME_OCTETS, SLOT_OCTETS};

const SETTINGS: SlotSettings = SlotSettings { mask: MASK, start: START };

/// The state at slot 1 of a frame of this plan.
fn opened(text: &str) -> FrameState {
    let plan = Plan::of_text(text.as_bytes()).expect("a plan that keeps the rules");
    FrameState::open(plan, SETTINGS).expect("settings that are allowed")
}

/// Codes a slot of a rate; the slot and the state after it.
fn coded(state: FrameState, rate: Rate, source: &[u8]) -> (Vec<u8>, FrameState) {
    let mut slot = vec![0; SLOT_OCTETS];
    let after = state.code_slot(&rate.published_table(), source, &mut slot).expect("a slot that is coded");
    (slot, after)
}

#[test]
fn slots_of_equal_octets_differ_and_come_back() {
    let (first, source) = (opened("5 5 120\n"), octets(5, Rate::R2_3.source_octets()));
    let (slot, second) = coded(first, Rate::R2_3, &source);
    let (next, third) = coded(second, Rate::R2_3, &source);
    assert!(slot != vec![0; SLOT_OCTETS], "the area is not as it was");
    assert!(slot != next, "the register moves on");
    for (state, slot, after) in [(first, slot, second), (second, next, third)] {
        let mut back = vec![0; source.len()];
        let read = state.read_slot(&Rate::R2_3.published_table(), &slot, &mut back);
        assert_eq!((read.answer, read.state), (Ok(StuffBits::ONES), after));
        assert_eq!(back, source);
    }
}

#[test]
fn a_damaged_slot_leaves_the_state_where_a_good_one_does() {
    let (first, source) = (opened("5 5 120\n"), octets(5, Rate::R2_3.source_octets()));
    let (slot, second) = coded(first, Rate::R2_3, &source);
    let (next, _) = coded(second, Rate::R2_3, &source);
    let mut back = vec![0; source.len()];
    let read = first.read_slot(&Rate::R2_3.published_table(), &damaged(&slot, 0), &mut back);
    let refused = read.answer.expect_err("a wrong parity");
    assert_eq!((refused.refusal, refused.position, read.state), (Refusal::Parity, Some(4958), second));
    let read = read.state.read_slot(&Rate::R2_3.published_table(), &next, &mut back);
    assert_eq!(read.answer, Ok(StuffBits::ONES));
    assert_eq!(back, source);
}

/// Document 01's plan: 92 slots of zeros are coded and 23 dummies passed, and slot 116 is the whole frame's.
#[test]
fn the_register_stands_still_over_dummies() {
    let mut state = opened("4 7 115\n2 3 5\n");
    for _ in 0..92 {
        (_, state) = coded(state, Rate::R7_9, &vec![0; Rate::R7_9.source_octets()]);
    }
    let register = state.register();
    for _ in 0..23 {
        state = state.pass().expect("a dummy");
    }
    assert_eq!((state.slot(), state.register()), (116, register));
    let (slot, _) = coded(state, Rate::R1_2, &vec![0; Rate::R1_2.source_octets()]);
    let mut frame = vec![0; FRAME_OCTETS];
    let source = vec![0; 92 * 4323 + 2 * 2827];
    let tables = [Rate::R7_9, Rate::R1_2].map(Rate::published_table).concat();
    assert_eq!(code_frame(&state.plan(), SETTINGS, &tables, &source, &mut frame), Ok(()));
    assert!(frame[115 * 5610..116 * 5610] == slot, "slot 116 is the whole frame's");
}

#[test]
fn a_frame_is_full_behind_slot_120() {
    let (mut state, source) = (opened("5 1 120\n"), vec![0; Rate::R1_3.source_octets()]);
    for _ in 0..120 {
        (_, state) = coded(state, Rate::R1_3, &source);
    }
    assert_eq!(state.code_slot(&Rate::R1_3.published_table(), &source, &mut vec![0; SLOT_OCTETS]), Err(Refusal::Full));
}
