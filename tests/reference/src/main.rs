//! The second implementation as a program that writes lines to compare.
//!
//!     reference vectors             the lines that the program test_slots must write
//!     reference frames              the lines that the program test_frames must write
//!     reference bench COUNTS RATES  the work of the program test_bench: slots coded and read, frames coded and read, at
//!                                   rates 1, 7 and 11 where none is named
//!     reference stream PLAN MASK START PACKETS FRAMES [HEADERS]
//!                                   the frames of a file of packets, as `s3frame code` writes them
//!     reference parity RATE         the slot on standard input, with its parity made anew, on standard output
//!     reference quick COUNTS RATES  the same work by straight loops over one octet a bit, for the benchmark alone
use reference::{bench, frames, stream, vectors};

fn main() {
    let words: Vec<String> = std::env::args().skip(1).collect();
    let words: Vec<&str> = words.iter().map(String::as_str).collect();
    match words[..] {
        ["vectors"] => vectors::print(),
        ["frames"] => frames::print(),
        ["stream", plan, mask, start, packets, out, ref headers @ ..] => {
            stream::write([plan, mask, start, packets, out], headers.first())
        }
        ["parity", rate] => stream::renew_parity(rate.parse().expect("a rate")),
        [way @ ("bench" | "quick"), coded, read, coded_frames, read_frames, ref rates @ ..] => {
            let [coded, read, coded_frames, read_frames] =
                [coded, read, coded_frames, read_frames].map(|word| word.parse().expect("a count"));
            let rates: Vec<usize> = rates.iter().map(|word| word.parse().expect("a rate")).collect();
            let rates = if rates.is_empty() { vec![1, 7, 11] } else { rates };
            bench::print(way == "quick", bench::Counts { coded, read, coded_frames, read_frames }, &rates)
        }
        _ => panic!(
            "reference vectors, frames, stream with files, parity with a rate, or bench or quick with four counts and rates"
        ),
    }
}
