//! Settings on cards beside the second implementation: what is kept comes back, and what a block's octets say.
mod blocks;
mod cards;
#[path = "../common/mod.rs"]
mod common;
use common::cards::registers;
use common::{groups, number};
use reference::settings::Setting;
use s3frame::{read_settings, replace_settings, Refusal, Settings};

/// A setting as the second implementation has it.
fn twin(kept: &Settings) -> Setting {
    Setting { plan: groups(&kept.plan), registers: registers(kept) }
}

/// Reads a setting both ways; the answers must be the same.
fn read(card: &[u8], at: usize) -> Result<Settings, Refusal> {
    let answer = read_settings(card, at);
    let expected = reference::settings::read(card, at);
    assert_eq!(answer.map(|kept| twin(&kept)).map_err(|refusal| refusal as u8), expected);
    answer
}

/// Replaces a setting both ways; answers and cards must be the same.
fn replace(card: &mut [u8], at: usize, kept: &Settings) -> Result<(), Refusal> {
    let (found, mut theirs) = (card.to_vec(), card.to_vec());
    let expected = reference::settings::replace(&mut theirs, at, &twin(kept));
    let answer = replace_settings(card, at, kept);
    assert_eq!(number(answer), expected.into());
    assert!(card == theirs, "the cards differ");
    assert!(answer.is_ok() || card == found, "a refusal changes nothing");
    answer
}
