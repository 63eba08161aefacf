//! What the benches share.
use std::time::Instant;

/// How often each piece of work is done: once in `cargo test`.
fn runs() -> usize {
    if std::env::args().any(|word| word == "--bench") {
        100
    } else {
        1
    }
}

/// Nanoseconds for each of so many parts of the work, the least of all runs.
pub fn time(parts: usize, mut work: impl FnMut()) -> f64 {
    let once = |_| {
        let begun = Instant::now();
        work();
        begun.elapsed().as_secs_f64()
    };
    1e9 * (0..runs()).map(once).fold(f64::INFINITY, f64::min) / parts as f64
}
