//! `s3frame plan`: the runs of a plan's slots, as lines and as a picture.
use crate::failure::{Failure, Outcome};
use crate::files::{Content, Files};
use crate::frames::{packets, places, read_plan, PlanFile};
use crate::outputs;
use crate::picture;
use crate::words::PlanWords;
use s3frame::{plan_list, Place};

/// Slots that follow each other at the same kind of place, numbered from 1.
pub struct Run {
    pub first: usize,
    pub last: usize,
    pub place: Place,
}

/// Lists a plan.
pub fn run(words: &PlanWords) -> Result<Outcome, Failure> {
    let mut files = Files::default();
    let PlanFile { text, plan, .. } = read_plan(&mut files, &words.plan)?;
    let picture = files.create_named(words.svg.as_deref(), Content::Text)?;
    let mut report = files.report()?;
    let places = places(&plan);
    report.lines(&plan_list(&text))?;
    report.line(format_args!("packets {}", packets(&places)))?;
    if let Some(mut output) = picture {
        output.write(picture::of_plan(&runs(&places)).as_bytes())?;
        outputs::keep([output])?;
    }
    Ok(Outcome::new(false))
}

fn runs(places: &[Place]) -> Vec<Run> {
    let mut runs: Vec<Run> = Vec::new();
    for (place, slot) in places.iter().zip(1..) {
        match runs.last_mut() {
            Some(run) if run.place == *place => run.last = slot,
            _ => runs.push(Run { first: slot, last: slot, place: *place }),
        }
    }
    runs
}
