//! What the vectors and the benchmark are made of: settings, octets to code, and a digest to compare.

/// The dispersal register's settings.
pub const MASK: u32 = 19088743;
pub const START: u32 = 12246029;

/// Octets of a linear congruence modulo 2^32, the top eight bits of each number after the seed.
pub fn octets(seed: u64, count: usize) -> Vec<u8> {
    let mut x = seed;
    let next = || {
        x = (x * 1664525 + 1013904223) % (1 << 32);
        (x >> 24) as u8
    };
    std::iter::repeat_with(next).take(count).collect()
}

/// A sum of the octets, each one more, times falling powers of 1,000,003, modulo the prime 2^32 - 5.
pub fn digest(octets: &[u8]) -> u64 {
    octets.iter().fold(0, |sum, &octet| (sum * 1000003 + u64::from(octet) + 1) % 4294967291)
}
