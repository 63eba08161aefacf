//! `s3frame code`: packets into frames.
use crate::failure::{Failure, Outcome};
use crate::files::{Content, Files};
use crate::frames::Layout;
use crate::inputs::Input;
use crate::outputs::{self, Output};
use crate::progress::Progress;
use crate::tlv_code::TlvSupply;
use crate::ts_code::TsSupply;
use crate::words::CodeWords;
use s3frame::{FrameState, Place, HEADER_OCTETS, MOST_SOURCE, SLOT_OCTETS};

const DUMMY: [u8; SLOT_OCTETS] = [0; SLOT_OCTETS];

/// What frames are made of: packets of some kind, as the data octets of slots.
pub trait Supply {
    /// The file of the packets.
    fn input(&self) -> &Input;

    /// Takes the packets of a frame, and says whether one was left for it.
    fn take_frame(&mut self) -> Result<bool, Failure>;

    /// Writes the data octets of the frame's next data slot, at this place.
    fn data(&mut self, place: &Place, data: &mut [u8]) -> Result<(), Failure>;

    /// How many octets of a cut packet the file ended with.
    fn left_over(&self) -> usize;

    /// What the frames were filled with, as names and numbers.
    fn counts(&self) -> String;

    /// The files that were written beside the frames.
    fn outputs(self: Box<Self>) -> Vec<Output>;
}

/// Frames in the making: the files, the areas that every slot uses again, and how many frames there are.
struct Coder {
    layout: Layout,
    supply: Box<dyn Supply>,
    headers: Option<Input>,
    output: Output,
    source: [u8; MOST_SOURCE],
    coded: [u8; SLOT_OCTETS],
    frames: u64,
}

/// Codes all packets of the input.
pub fn run(words: &CodeWords) -> Result<Outcome, Failure> {
    let mut files = Files::default();
    let layout = Layout::open(&mut files, &words.settings)?;
    let input = files.open(words.input.as_deref(), Content::Binary)?;
    let headers = words.headers.as_deref().map(|path| files.open(Some(path), Content::Binary)).transpose()?;
    let output = files.create(words.output.as_deref(), Content::Binary)?;
    let supply: Box<dyn Supply> = if words.tlv {
        Box::new(TlvSupply::open(&mut files, words, &layout, input)?)
    } else {
        Box::new(TsSupply::new(&layout, input))
    };
    let mut report = files.report()?;
    let mut coder = Coder::new(layout, supply, headers, output);
    coder.code_all()?;
    let Coder { supply, frames, output, .. } = coder;
    report.line(format_args!("frames {frames} {}", supply.counts()))?;
    let outcome = Outcome::new(false).left_over(supply.input().name(), "packet", supply.left_over());
    outputs::keep(supply.outputs().into_iter().chain([output]))?;
    Ok(outcome)
}

impl Coder {
    fn new(layout: Layout, supply: Box<dyn Supply>, headers: Option<Input>, output: Output) -> Coder {
        Coder { layout, supply, headers, output, source: [0; MOST_SOURCE], coded: DUMMY, frames: 0 }
    }

    /// Makes frames until the packets end, and looks at what only the end shows.
    fn code_all(&mut self) -> Result<(), Failure> {
        let progress = Progress::new(self.supply.input().octets());
        while self.supply.take_frame()? {
            self.code_frame()?;
            self.frames += 1;
            progress.at(self.supply.input().taken());
        }
        if self.frames == 0 {
            return Err(Failure::without(self.supply.input().name(), "packet", self.supply.left_over()));
        }
        if let Some(headers) = &mut self.headers {
            if headers.fill(&mut [0])? > 0 {
                return Err(Failure::new(headers.name(), "goes on after the header of the last data slot"));
            }
        }
        Ok(())
    }

    /// Makes a frame.
    fn code_frame(&mut self) -> Result<(), Failure> {
        let mut state = self.layout.opened;
        for slot in 0..self.layout.places.len() {
            let place = self.layout.places[slot];
            if place.data {
                self.take_header()?;
                state = self.code_slot(state, &place)?;
            } else {
                state = state.pass().expect("a state moves on by the plan's places");
                self.output.write(&DUMMY)?;
            }
        }
        self.output.flush()
    }

    /// Takes the header of a slot; without a file of headers it stays zeros.
    fn take_header(&mut self) -> Result<(), Failure> {
        if let Some(headers) = &mut self.headers {
            if headers.fill(&mut self.source[..HEADER_OCTETS])? < HEADER_OCTETS {
                return Err(Failure::new(headers.name(), "ends before the header of the last data slot"));
            }
        }
        Ok(())
    }

    /// Codes and writes a slot.
    fn code_slot(&mut self, state: FrameState, place: &Place) -> Result<FrameState, Failure> {
        let source = &mut self.source[..place.rate.source_octets()];
        self.supply.data(place, &mut source[HEADER_OCTETS..])?;
        let next = state.code_slot(self.layout.table(place), source, &mut self.coded);
        let next = next.expect("a data slot at its place, areas of their lengths and a published table");
        self.output.write(&self.coded)?;
        Ok(next)
    }
}
