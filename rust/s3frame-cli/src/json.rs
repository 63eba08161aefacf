//! The report for programs: one JSON document, written frame by frame.
use crate::failure::Failure;
use crate::outputs::Output;
use crate::stuff::StuffSlots;
use crate::tally::{Carried, Refused, Tally};
use s3frame::FrameState;
use serde::Serialize;

/// A plan's group in the document.
#[derive(Serialize)]
struct Group {
    modulation: u32,
    rate: u32,
    slots: u16,
}

/// A frame in the document.
#[derive(Serialize)]
struct Frame<'a, C> {
    frame: u64,
    #[serde(flatten)]
    tally: Tally<C>,
    refused: &'a [Refused],
    stuff: &'a [StuffSlots],
}

/// The sums of all frames.
#[derive(Serialize)]
struct Total<C> {
    frames: u64,
    #[serde(flatten)]
    tally: Tally<C>,
}

/// A document of which the list of frames is open.
pub struct Json(Output);

impl Json {
    /// Writes what the frames are read by, and opens their list.
    pub fn begin(mut output: Output, opened: &FrameState) -> Result<Json, Failure> {
        let group =
            |of: s3frame::Group| Group { modulation: of.modulation.number(), rate: of.rate.number(), slots: of.slots };
        let plan: Vec<Group> = opened.plan().groups().map(group).collect();
        let (mask, start) = (opened.settings().mask, opened.settings().start);
        let head = format!("{{\n\"plan\": {},\n\"mask\": {mask},\n\"start\": {start},\n\"frames\": [\n", text(&plan));
        output.write(head.as_bytes())?;
        Ok(Json(output))
    }

    /// Writes a frame; frames are numbered from 1.
    pub fn frame<C: Carried>(
        &mut self,
        frame: u64,
        tally: Tally<C>,
        refused: &[Refused],
        stuff: &[StuffSlots],
    ) -> Result<(), Failure> {
        let before = if frame == 1 { "" } else { ",\n" };
        self.0.write(format!("{before}{}", text(&Frame { frame, tally, refused, stuff })).as_bytes())
    }

    /// Closes the list, and writes the sums and how many octets were left over.
    pub fn end<C: Carried>(mut self, frames: u64, tally: Tally<C>, left_over: usize) -> Result<Output, Failure> {
        let total = text(&Total { frames, tally });
        self.0.write(format!("\n],\n\"total\": {total},\n\"left_over\": {left_over}\n}}\n").as_bytes())?;
        Ok(self.0)
    }
}

fn text(value: &impl Serialize) -> String {
    serde_json::to_string(value).expect("numbers and words can be written")
}
