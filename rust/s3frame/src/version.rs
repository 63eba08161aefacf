//! The version of the library.
use crate::{bindings, calls};

/// The version that this crate was written for: 10,000 times the major number, 100 times the minor one, and the patch number.
pub const VERSION: u32 = bindings::S3_VERSION;

/// The version of the archive that is linked, to be compared with [`VERSION`].
pub fn version() -> u32 {
    calls::version()
}

#[cfg(test)]
mod tests {
    use super::*;

    #[test]
    fn one_version_everywhere() {
        let numbers = env!("CARGO_PKG_VERSION").split('.').map(|number| number.parse::<u32>().expect("a number"));
        assert_eq!(numbers.fold(0, |version, number| 100 * version + number), VERSION);
        assert_eq!(version(), VERSION);
    }
}
