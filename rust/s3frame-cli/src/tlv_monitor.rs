//! The TLV packets of slots that are read.
use crate::begins::{self, Begins};
use crate::failure::Failure;
use crate::files::{Content, Files};
use crate::frames::Layout;
use crate::inputs::STANDARD_INPUT;
use crate::monitor::Delivery;
use crate::outputs::Output;
use crate::tally::Carried;
use crate::tlv_packets::{begins_filler, each};
use crate::words::MonitorWords;
use s3frame::{read_tlv, Place, Rate};
use serde::Serialize;
use std::fmt::{self, Display};
use std::ops::AddAssign;

/// Packets that were written, their octets, the octets of refused slots; and the octets of a packet that is not at its end
/// yet.
#[derive(Clone, Copy, Default, Serialize)]
pub struct TlvCarried {
    packets: u64,
    octets: u64,
    lost: u64,
    unfinished: u64,
}

impl Carried for TlvCarried {}

/// What is unfinished is so behind the last frame alone.
impl AddAssign for TlvCarried {
    fn add_assign(&mut self, other: TlvCarried) {
        self.packets += other.packets;
        self.octets += other.octets;
        self.lost += other.lost;
        self.unfinished = other.unfinished;
    }
}

impl Display for TlvCarried {
    fn fmt(&self, to: &mut fmt::Formatter) -> fmt::Result {
        let TlvCarried { packets, octets, lost, unfinished } = self;
        write!(to, "packets {packets} octets {octets} lost {lost} unfinished {unfinished}")
    }
}

/// Packets that are written frame by frame: the slots of a frame with their reports and marks, behind those that hold the
/// beginning of a packet which the frame before did not finish.
///
/// Such a packet has at most 65,539 octets and touches no lost slot, so that no more slots are kept than that many octets
/// take and one more, however many frames they are of.
pub struct TlvDelivery {
    output: Output,
    reports: Begins,
    rate: Rate,
    slots: Vec<u8>,
    begins: Vec<u16>,
    lost: Vec<bool>,
    first: Option<u16>,
    area: Vec<u8>,
}

impl TlvDelivery {
    /// The packets of a layout's frames, by the reports beside the frames.
    pub fn open(files: &mut Files, words: &MonitorWords, layout: &Layout) -> Result<TlvDelivery, Failure> {
        let rate = layout.only_rate()?;
        let path = begins::beside(words.input.as_deref(), STANDARD_INPUT, words.begins.as_deref())?;
        let reports = Begins::open(files, &path, layout, rate)?;
        let output = files.create(words.output.as_deref(), Content::Binary)?;
        let (slots, begins, lost, area) = (Vec::new(), Vec::new(), Vec::new(), Vec::new());
        Ok(TlvDelivery { output, reports, rate, slots, begins, lost, first: None, area })
    }

    /// Keeps the slots from the one on where the unfinished packet begins, for the next frame. Where nothing is unfinished
    /// that frame is read by itself, from the first beginning that is reported.
    fn keep(&mut self, unfinished: Option<usize>) {
        let octets = self.rate.data_octets();
        let gone = unfinished.map_or(self.lost.len(), |begin| begin / octets);
        self.first = unfinished.map(|begin| (begin % octets) as u16);
        self.slots.drain(..gone * octets);
        self.begins.drain(..gone);
        self.lost.drain(..gone);
    }
}

impl Delivery for TlvDelivery {
    type Carried = TlvCarried;

    fn accepted(&mut self, _: &Place, data: &[u8]) -> Result<(), Failure> {
        self.slots.extend(data);
        self.lost.push(false);
        Ok(())
    }

    fn refused(&mut self, place: &Place) -> usize {
        let octets = place.rate.data_octets();
        self.slots.resize(self.slots.len() + octets, 0);
        self.lost.push(true);
        octets
    }

    fn end_frame(&mut self) -> Result<TlvCarried, Failure> {
        self.begins.extend(self.reports.take_frame()?);
        self.area.resize(self.slots.len(), 0);
        let read = read_tlv(self.rate, &self.slots, &self.begins, &self.lost, self.first, &mut self.area);
        let read = read.expect("areas of their lengths, and reports inside their slots");
        let packets = &self.area[..read.written];
        self.output.write(packets)?;
        self.output.flush()?;
        // Octets that a cut filler has are nothing that would come back.
        let rest = read.unfinished.map_or(&[][..], |begin| &self.slots[begin..]);
        let carried = TlvCarried {
            packets: each(packets).count() as u64,
            octets: packets.len() as u64,
            lost: (self.lost.iter().filter(|lost| **lost).count() * self.rate.data_octets()) as u64,
            unfinished: if begins_filler(rest) { 0 } else { rest.len() as u64 },
        };
        self.keep(read.unfinished);
        Ok(carried)
    }

    fn end(&mut self) -> Result<(), Failure> {
        self.reports.end()
    }

    fn output(self) -> Output {
        self.output
    }
}
