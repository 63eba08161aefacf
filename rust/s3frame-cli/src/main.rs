//! The command `s3frame`: `s3frame --help` says what it does.
mod account;
mod begins;
mod card;
mod chosen;
mod code;
mod compare;
mod coordinates;
mod failure;
mod files;
mod frames;
mod frames_picture;
mod gaps;
mod help;
mod inputs;
mod interrupt;
mod json;
mod monitor;
mod number;
mod outputs;
mod packets;
mod picture;
mod plan;
mod plan_text;
mod plane;
mod points;
mod position_charts;
mod positions;
mod progress;
mod report;
mod rows;
mod runs;
mod sent;
mod settings;
mod stuff;
mod tally;
mod tlv_code;
mod tlv_input;
mod tlv_monitor;
mod tlv_packets;
mod ts_code;
mod ts_monitor;
mod words;

use clap::Parser;
use failure::{Failure, Outcome, STOPPED};
use std::process::exit;
use words::{Job, Words};

/// The words of the command line. Help goes to standard output; wrong words end the run.
fn words() -> Words {
    Words::try_parse().unwrap_or_else(|error| {
        if !error.use_stderr() {
            error.exit();
        }
        let text = error.to_string();
        match text.strip_prefix("error: ") {
            Some(wrong) => eprint!("s3frame: {wrong}"),
            None => eprint!("{text}"),
        }
        exit(STOPPED)
    })
}

fn run(job: &Job) -> Result<Outcome, Failure> {
    interrupt::watch().map_err(|error| Failure::new("signals", error))?;
    match job {
        Job::Plan(words) => plan::run(words),
        Job::Code(words) => code::run(words),
        Job::Monitor(words) => monitor::run(words),
        Job::Compare(words) => compare::run(words),
        Job::Points(words) => points::run(words),
        Job::Settings(words) => settings::run(&words.job),
    }
}

fn main() {
    let job = words().job;
    let tell = |failure: &Failure| eprintln!("s3frame {}: {failure}", job.name());
    match run(&job) {
        Ok(outcome) => {
            outcome.cut.iter().for_each(tell);
            exit(outcome.status())
        }
        Err(failure) => {
            tell(&failure);
            exit(STOPPED)
        }
    }
}
