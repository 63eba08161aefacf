//! The proved ISDB-S3 slot framer and its reader, for Rust.
//!
//! The work is done by an archive of functions that are proved for every input; this crate puts types around them, and
//! computes nothing of a slot itself. Every area is lent by the caller and must have exactly the length that is said; a
//! refusal changes no lent area, and says by its word ([`Refusal`]) what was wrong, and where parity broke ([`ReadRefusal`]).
//!
//! ```
//! use s3frame::{FrameState, Group, Modulation, Plan, Rate, Refusal, SlotSettings, StuffBits};
//!
//! # fn main() -> Result<(), Refusal> {
//! let plan = Plan::new(&[
//!     Group { modulation: Modulation::Apsk16, rate: Rate::R7_9, slots: 115 },
//!     Group { modulation: Modulation::Qpsk, rate: Rate::R1_2, slots: 5 },
//! ])?;
//! let opened = FrameState::open(plan, SlotSettings { mask: 1 << 24 | 1, start: 1 })?;
//! let rate = plan.place(opened.slot())?.rate;
//! let table = rate.published_table();
//! let source = vec![0; rate.source_octets()];
//! let mut slot = vec![0; s3frame::SLOT_OCTETS];
//! let next = opened.code_slot(&table, &source, &mut slot)?;
//! assert_eq!(next.slot(), 2);
//!
//! let mut back = vec![1; source.len()];
//! let read = opened.read_slot(&table, &slot, &mut back);
//! assert_eq!((read.answer, read.state), (Ok(StuffBits::ONES), next));
//! assert_eq!(back, source);
//!
//! slot[s3frame::SLOT_OCTETS - 1] ^= 1; // the last parity bit
//! let refused = opened.read_slot(&table, &slot, &mut back).answer.expect_err("a wrong parity");
//! assert_eq!((refused.refusal, refused.position), (Refusal::Parity, Some(10_097)));
//! # Ok(())
//! # }
//! ```
#![deny(unsafe_code)]
#![warn(missing_docs)]

#[allow(dead_code, non_camel_case_types, unsafe_code)] // the layout tests look into structs
mod bindings;
#[allow(unsafe_code)]
mod calls;
mod frame;
mod lengths;
mod modulation;
mod numbered;
mod packets;
mod plan;
mod points;
mod rate;
mod read_refusal;
mod refusal;
mod settings;
mod state;
mod stuff;
mod symbols;
mod tlv;
mod tmcc;
mod version;

pub use frame::{code_frame, read_frame, FrameRead, SlotAnswer};
pub use lengths::{
    BLOCK_LABELS, BLOCK_OCTETS, FRAME_OCTETS, HEADER_OCTETS, MOST_GROUPS, MOST_SETTINGS, MOST_SOURCE, MOST_TABLE,
    PACKET_OCTETS, SETTING_OCTETS, SLOTS, SLOT_OCTETS, TMCC_OCTETS,
};
pub use modulation::Modulation;
pub use packets::{pack, unpack};
pub use plan::{plan_list, Group, Place, Plan};
pub use points::{ArrangedRegister, Constellation, Point};
pub use rate::Rate;
pub use read_refusal::ReadRefusal;
pub use refusal::Refusal;
pub use settings::{read_settings, replace_settings, Settings};
pub use state::{check_parity, FrameState, SlotRead, SlotSettings};
pub use stuff::StuffBits;
pub use symbols::{labels, slot_of_labels, tmcc_labels, tmcc_of_labels};
pub use tlv::{fill_tlv, read_tlv, TlvFilled, TlvRead, NO_BEGIN};
pub use tmcc::{code_tmcc, read_tmcc, TmccSettings};
pub use version::{version, VERSION};
