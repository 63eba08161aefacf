//! A second implementation of the coders and readers of slots, whole frames and TMCC blocks, of TLV channels, of plans as text,
//! of settings on a card, and of signal points, written from document 002 and, where its drawings are lost, from documents 01
//! and 02. It shares nothing with the proved crates: bits lie one to an octet, and each step is the document's. The library is
//! for tests that compare call by call.
pub mod bch;
pub mod bench;
pub mod calls;
pub mod dispersal;
pub mod frame;
pub mod frames;
pub mod ldpc;
pub mod packets;
pub mod plan;
pub mod points;
pub mod quick;
pub mod samples;
pub mod settings;
pub mod slot;
pub mod stream;
pub mod symbols;
pub mod tables;
pub mod tlv;
pub mod tmcc;
pub mod vectors;
