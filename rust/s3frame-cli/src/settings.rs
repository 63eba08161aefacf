//! `s3frame settings`: the settings that a card keeps.
use crate::card::{Block, Card};
use crate::failure::{Failure, Outcome};
use crate::files::{Content, Files};
use crate::frames::{open_frame, read_plan};
use crate::outputs;
use crate::plan_text::lines_of;
use crate::words::{CardJob, ListWords, SetWords, ShowWords};
use s3frame::{Refusal, Settings, TmccSettings};

/// Does a job on a card.
pub fn run(job: &CardJob) -> Result<Outcome, Failure> {
    match job {
        CardJob::List(words) => list(words),
        CardJob::Show(words) => show(words),
        CardJob::Set(words) => set(words),
    }
}

/// Tells what each block is, and how many there are of each kind.
fn list(words: &ListWords) -> Result<Outcome, Failure> {
    let mut files = Files::default();
    let card = Card::open(&mut files, &words.card)?;
    let mut report = files.report()?;
    let (mut accepted, mut empty, mut refused) = (0, 0, 0);
    for (number, block) in card.blocks().enumerate() {
        let (count, told) = match block {
            Block::Accepted(settings) => (&mut accepted, line_of(&settings)),
            Block::Empty => (&mut empty, "empty".to_string()),
            Block::Refused(refusal) => (&mut refused, format!("refused {} {}", refusal.number(), refusal.word())),
        };
        *count += 1;
        report.line(format_args!("block {number} {told}"))?;
    }
    let blocks = accepted + empty + refused;
    report.line(format_args!("blocks {blocks} accepted {accepted} empty {empty} refused {refused}"))?;
    Ok(Outcome::new(refused > 0))
}

/// Tells a block's setting in the words that set it.
fn show(words: &ShowWords) -> Result<Outcome, Failure> {
    let mut files = Files::default();
    let settings = Card::open(&mut files, &words.card)?.setting(words.block.value as usize)?;
    let plan = files.create_named(words.plan.as_deref(), Content::Text)?;
    let mut report = files.report()?;
    report.line(format_args!("--{}", registers_of(&settings).join(" --")))?;
    let lines = lines_of(&settings.plan);
    match plan {
        Some(mut output) => {
            lines.iter().try_for_each(|line| output.write(format!("{line}\n").as_bytes()))?;
            outputs::keep([output])?;
        }
        None => lines.iter().try_for_each(|line| report.line(format_args!("{line}")))?,
    }
    Ok(Outcome::new(false))
}

/// Replaces a block of a card. The card is opened last, since other runs that replace a block of it wait from then on.
fn set(words: &SetWords) -> Result<Outcome, Failure> {
    let mut files = Files::default();
    let settings = settings_of(&mut files, words)?;
    let number = words.block.value as usize;
    let (mut input, mut output) = files.open_to_replace(&words.card)?;
    let mut card = Card::read(&mut input)?;
    card.replace(number, &settings).map_err(|refusal| match refusal {
        // That of the slots is accepted.
        Refusal::Register => {
            Failure::new(format!("tmcc-mask {} and tmcc-start {}", words.tmcc_mask, words.tmcc_start), refusal)
        }
        _ => card.refused(number, refusal),
    })?;
    let mut report = files.report()?;
    output.write(card.octets())?;
    // What fails to be written is not told.
    output.flush()?;
    report.line(format_args!("block {number} {}", line_of(&card.setting(number)?)))?;
    outputs::keep([output])?;
    Ok(Outcome::new(false))
}

/// The setting that words name; the register of TMCC blocks is still to be looked at.
fn settings_of(files: &mut Files, words: &SetWords) -> Result<Settings, Failure> {
    let plan = read_plan(files, &words.plan)?.plan;
    let slots = open_frame(plan, &words.mask, &words.start)?.settings();
    let tmcc = TmccSettings { mask: words.tmcc_mask.value, start: words.tmcc_start.value };
    Ok(Settings { plan, slots, tmcc })
}

/// A setting in one line.
fn line_of(settings: &Settings) -> String {
    format!("{} plan {}", registers_of(settings).join(" "), lines_of(&settings.plan).join(", "))
}

/// The registers' numbers, each behind the name of the option that sets it.
fn registers_of(settings: &Settings) -> [String; 4] {
    let Settings { slots, tmcc, .. } = settings;
    [("mask", slots.mask), ("start", slots.start), ("tmcc-mask", tmcc.mask), ("tmcc-start", tmcc.start)]
        .map(|(name, value)| format!("{name} {value:#x}"))
}
