//! Everything that is told of frames that are read: lines, and a JSON document and a picture where they are asked for.
use crate::failure::Failure;
use crate::files::{Content, Files};
use crate::frames::Layout;
use crate::frames_picture;
use crate::json::Json;
use crate::outputs::Output;
use crate::positions::Positions;
use crate::progress::Progress;
use crate::report::Report;
use crate::rows::{Row, Rows};
use crate::stuff::StuffSlots;
use crate::tally::{Answer, Carried, Refused, Tally};
use crate::words::MonitorWords;
use s3frame::{StuffBits, SLOTS};

/// What was found in one frame.
pub struct Found<C> {
    pub tally: Tally<C>,
    refused: Vec<Refused>,
    stuff: Vec<StuffSlots>,
    row: Row,
}

impl<C: Carried> Found<C> {
    /// Nothing yet.
    pub fn new() -> Found<C> {
        Found { tally: Tally::default(), refused: Vec::new(), stuff: Vec::new(), row: [Answer::Dummy; SLOTS] }
    }

    /// Notes what became of a slot, counted from 0.
    pub fn answered(&mut self, slot: usize, answer: Answer) {
        self.tally.answered(answer);
        self.row[slot] = answer;
    }

    /// Notes the stuff bits of an accepted slot, counted from 0. Ones, which coding sends, are not worth telling.
    pub fn accepted(&mut self, slot: usize, stuff: StuffBits) {
        if stuff != StuffBits::ONES {
            StuffSlots::add(&mut self.stuff, stuff.number(), slot + 1);
        }
    }

    /// Notes a refused slot.
    pub fn refused(&mut self, refused: Refused) {
        self.refused.push(refused);
    }
}

/// What is drawn of all frames, and where it goes.
struct Picture {
    rows: Rows,
    positions: Positions,
    output: Output,
}

impl Picture {
    /// Adds a frame.
    fn add(&mut self, row: &Row, refused: &[Refused]) {
        self.rows.add(row);
        for refused in refused {
            if let Some(position) = refused.position {
                self.positions.add(refused.slot, position);
            }
        }
    }
}

/// What is told, how many frames were told of, and the sums of all.
pub struct Account<C> {
    report: Report,
    json: Option<Json>,
    picture: Option<Picture>,
    pub frames: u64,
    pub total: Tally<C>,
}

impl<C: Carried> Account<C> {
    /// An account of no frame yet. It takes the last of the run's files.
    pub fn open(files: &mut Files, words: &MonitorWords, layout: &Layout) -> Result<Account<C>, Failure> {
        let json = files.create_named(words.json.as_deref(), Content::Text)?;
        let json = json.map(|output| Json::begin(output, &layout.opened)).transpose()?;
        let drawn = |output| Picture { rows: Rows::new(), positions: Positions::new(&layout.places), output };
        let picture = files.create_named(words.svg.as_deref(), Content::Text)?.map(drawn);
        let report = files.report()?;
        Ok(Account { report, json, picture, frames: 0, total: Tally::default() })
    }

    /// Tells of a frame.
    pub fn frame(&mut self, found: &Found<C>, progress: &Progress) -> Result<(), Failure> {
        self.frames += 1;
        self.total += found.tally;
        let (frame, report) = (self.frames, &mut self.report);
        progress.aside(|| {
            found.refused.iter().try_for_each(|refused| report.line(format_args!("frame {frame} {refused}")))?;
            found.stuff.iter().try_for_each(|stuff| report.line(format_args!("frame {frame} {stuff}")))?;
            report.line(format_args!("frame {frame} {}", found.tally))
        })?;
        if let Some(picture) = &mut self.picture {
            picture.add(&found.row, &found.refused);
        }
        self.json.as_mut().map_or(Ok(()), |json| json.frame(frame, found.tally, &found.refused, &found.stuff))
    }

    /// Tells of all frames, and hands back the files that this filled.
    pub fn end(mut self, left_over: usize) -> Result<Vec<Output>, Failure> {
        self.report.line(format_args!("frames {} {}", self.frames, self.total))?;
        let mut outputs = Vec::new();
        if let Some(json) = self.json {
            outputs.push(json.end(self.frames, self.total, left_over)?);
        }
        if let Some(Picture { rows, positions, mut output }) = self.picture {
            output.write(frames_picture::of_frames(&rows, &positions).as_bytes())?;
            outputs.push(output);
        }
        Ok(outputs)
    }
}
