//! Every refusal of every call: each choice of what may be wrong, so that the order shows too; what comes back with a number,
//! and each area octet for octet after the call.
//!
//! The calls are taken from the crate's source, where they and their declarations are private: its types rule out much of what
//! is wrong here.
#[allow(dead_code, non_camel_case_types)]
#[path = "../../src/bindings.rs"]
mod bindings;
mod blocks;
#[path = "../../src/calls.rs"]
mod calls;
#[path = "../common/mod.rs"]
mod common;
mod frames;
mod labels;
mod packets;
mod plans;
mod points;
mod rates;
mod settings;
mod slots;
mod states;
mod texts;
mod tlv;
mod ways;
use std::fmt::Debug;

/// Makes a call both ways on areas as found: the number must be the one expected, what comes back with it the same, and what
/// is left in the areas too; a refusal leaves them as found. Gives what came back, and the areas left.
fn compared<A: Clone + PartialEq, T: Debug + PartialEq>(
    expected: u8,
    found: &A,
    ours: impl FnOnce(&mut A) -> (u8, T),
    theirs: impl FnOnce(&mut A) -> (u8, T),
) -> (T, A) {
    let [mut left, mut right] = [found.clone(), found.clone()];
    let (told, wanted) = (ours(&mut left), theirs(&mut right));
    assert_eq!(told, wanted);
    assert_eq!(told.0, expected);
    assert!(left == right, "the areas differ");
    assert!(expected == 0 || left == *found, "a refusal changes no area");
    (told.1, left)
}

/// The same for a call that answers a number alone.
fn kept<A: Clone + PartialEq>(
    expected: u8,
    found: &A,
    ours: impl FnOnce(&mut A) -> u8,
    theirs: impl FnOnce(&mut A) -> u8,
) {
    compared(expected, found, |area| (ours(area), ()), |area| (theirs(area), ()));
}

/// The same for a call that is lent no area to write.
fn answered<T: Debug + PartialEq>(expected: u8, ours: (u8, T), theirs: (u8, T)) {
    compared(expected, &(), |()| ours, |()| theirs);
}

/// A number and what comes back with it, of the second implementation's answer: with a refusal what is said to come back then.
fn told<T>(answer: Result<T, u8>, refused: T) -> (u8, T) {
    match answer {
        Ok(told) => (0, told),
        Err(number) => (number, refused),
    }
}

#[test]
fn the_declarations_are_those_of_the_library() {
    assert_eq!(calls::version(), bindings::S3_VERSION);
}
