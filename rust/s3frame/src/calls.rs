//! The calls of the archive as they stand: numbers, structs and slices in, numbers and structs out.
//!
//! Beside the tests of how the structs lie, the `unsafe` of this crate is here, in one block. The functions behind are proved
//! for every input: they read and write within the areas that they are lent, keep none of them, and always return. A slice goes
//! over as its pointer and then its length, so that each call below is sound for any arguments, and the compiler sees to it
//! that no slice that is written overlaps another.
//!
//! What each call does and answers stands in include/s3frame.h.
use crate::bindings::*;

/// Makes a safe function of each call. Its arguments are taken one by one: a slice is handed over as pointer and length, an
/// array as its pointer, and all else as it is.
macro_rules! safe {
    (@ $call:ident() $($over:expr,)*) => {
        // Sound for any arguments, as the head of this file says.
        unsafe { $call($($over),*) }
    };
    (@ $call:ident($name:ident: &[$of:ty] $(, $($rest:tt)*)?) $($over:expr,)*) => {
        safe!(@ $call($($($rest)*)?) $($over,)* $name.as_ptr(), $name.len(),)
    };
    (@ $call:ident($name:ident: &mut [$of:ty] $(, $($rest:tt)*)?) $($over:expr,)*) => {
        safe!(@ $call($($($rest)*)?) $($over,)* $name.as_mut_ptr(), $name.len(),)
    };
    (@ $call:ident($name:ident: &mut [$of:ty; $length:expr] $(, $($rest:tt)*)?) $($over:expr,)*) => {
        safe!(@ $call($($($rest)*)?) $($over,)* $name.as_mut_ptr(),)
    };
    (@ $call:ident($name:ident: $of:ty $(, $($rest:tt)*)?) $($over:expr,)*) => {
        safe!(@ $call($($($rest)*)?) $($over,)* $name,)
    };
    ($($call:ident as $name:ident($($arguments:tt)*) -> $answer:ty;)*) => {
        $(
            #[allow(clippy::too_many_arguments)] // those of the call
            pub fn $name($($arguments)*) -> $answer {
                safe!(@ $call($($arguments)*))
            }
        )*
    };
}

safe! {
    s3_version as version() -> u32;

    s3_source_octets as source_octets(plan: s3_plan) -> usize;
    s3_tables_entries as tables_entries(plan: s3_plan) -> usize;
    s3_table_entries as table_entries(rate: u32) -> usize;
    s3_packets_of as packets_of(rate: u32) -> usize;

    s3_plan_of_text as plan_of_text(text: &[u8]) -> s3_plan_read;
    s3_plan_list as plan_list(text: &[u8], list: &mut [u8; 512]) -> usize;
    s3_place as place(plan: s3_plan, slot: u32) -> s3_placed;

    s3_open as open(plan: s3_plan, mask: u32, start: u32) -> s3_answer;
    s3_pass as pass(state: s3_state) -> s3_answer;
    s3_code_slot as code_slot(state: s3_state, table: &[u16], source: &[u8], coded: &mut [u8]) -> s3_answer;
    s3_read_slot as read_slot(state: s3_state, table: &[u16], coded: &[u8], source: &mut [u8]) -> s3_slot_read;
    s3_check_parity as check_parity(rate: u32, table: &[u16], coded: &[u8]) -> s3_word_answer;

    s3_code_frame as code_frame(
        plan: s3_plan, mask: u32, start: u32, tables: &[u16], source: &[u8], frame: &mut [u8]
    ) -> u8;
    s3_read_frame as read_frame(
        plan: s3_plan, mask: u32, start: u32, tables: &[u16], frame: &[u8],
        source: &mut [u8], answers: &mut [u8], stuff: &mut [u8], positions: &mut [u16]
    ) -> u8;

    s3_code_tmcc as code_tmcc(mask: u32, start: u32, table: &[u16], source: &[u8], block: &mut [u8]) -> u8;
    s3_read_tmcc as read_tmcc(mask: u32, start: u32, table: &[u16], block: &[u8], source: &mut [u8]) -> s3_word_answer;

    s3_labels as labels(modulation: u32, rate: u32, coded: &[u8], labels: &mut [u8]) -> u8;
    s3_slot_of_labels as slot_of_labels(modulation: u32, rate: u32, labels: &[u8], coded: &mut [u8]) -> u8;
    s3_tmcc_labels as tmcc_labels(block: &[u8], labels: &mut [u8]) -> u8;
    s3_tmcc_of_labels as tmcc_of_labels(labels: &[u8], block: &mut [u8]) -> u8;

    s3_point as point(
        modulation: u32, label: u32, symbol: u32, in_phase: &[f32], quadrature: &[f32]
    ) -> s3_point_answer;
    s3_arranged_point as arranged_point(
        modulation: u32, label: u32, symbol: u32, in_phase: &[f32], quadrature: &[f32], mask: u32, register: u32
    ) -> s3_point_answer;
    s3_arranged_step as arranged_step(mask: u32, register: u32) -> s3_step_answer;
    s3_points as points(
        modulation: u32, symbol: u32, labels: &[u8], in_phase: &[f32], quadrature: &[f32], i: &mut [f32], q: &mut [f32]
    ) -> u8;

    s3_pack as pack(rate: u32, packets: &[u8], octets: &mut [u8]) -> u8;
    s3_unpack as unpack(rate: u32, octets: &[u8], packets: &mut [u8]) -> u8;

    s3_tlv_fill as tlv_fill(
        rate: u32, packets: &[u8], taken: usize, owed: usize, slots: &mut [u8], begins: &mut [u16]
    ) -> s3_fill_answer;
    s3_tlv_read as tlv_read(
        rate: u32, slots: &[u8], begins: &[u16], lost: &[u8], first: u32, packets: &mut [u8]
    ) -> s3_read_answer;

    s3_read_settings as read_settings(card: &[u8], number: usize) -> s3_settings_answer;
    s3_replace_settings as replace_settings(
        card: &mut [u8], number: usize, plan: s3_plan, registers: s3_registers
    ) -> u8;

    s3_published_table as published_table(rate: u32, table: &mut [u16]) -> u8;
    s3_published_tables as published_tables(plan: s3_plan, tables: &mut [u16]) -> u8;
}
