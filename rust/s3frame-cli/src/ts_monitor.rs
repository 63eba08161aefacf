//! The TS packets of slots that are read.
use crate::failure::Failure;
use crate::files::{Content, Files};
use crate::frames::Layout;
use crate::monitor::Delivery;
use crate::outputs::Output;
use crate::packets::count_null;
use crate::tally::Carried;
use crate::words::MonitorWords;
use s3frame::{unpack, Place};
use serde::Serialize;
use std::fmt::{self, Display};
use std::mem;
use std::ops::AddAssign;

/// Packets: those that the plan carries, those that were written, those of refused slots, each counted for itself, and the
/// null packets among those written.
#[derive(Clone, Copy, Default, Serialize)]
pub struct TsCarried {
    planned: u64,
    written: u64,
    lost: u64,
    null: u64,
}

impl Carried for TsCarried {}

impl AddAssign for TsCarried {
    fn add_assign(&mut self, other: TsCarried) {
        self.planned += other.planned;
        self.written += other.written;
        self.lost += other.lost;
        self.null += other.null;
    }
}

impl Display for TsCarried {
    fn fmt(&self, to: &mut fmt::Formatter) -> fmt::Result {
        let TsCarried { planned, written, lost, null } = self;
        write!(to, "planned {planned} written {written} lost {lost} null {null}")
    }
}

/// Packets that are written slot by slot.
pub struct TsDelivery {
    output: Output,
    area: Vec<u8>,
    frame: TsCarried,
}

impl TsDelivery {
    pub fn open(files: &mut Files, words: &MonitorWords, layout: &Layout) -> Result<TsDelivery, Failure> {
        let output = files.create(words.output.as_deref(), Content::Binary)?;
        Ok(TsDelivery { output, area: layout.packet_area(), frame: TsCarried::default() })
    }
}

impl Delivery for TsDelivery {
    type Carried = TsCarried;

    fn accepted(&mut self, place: &Place, data: &[u8]) -> Result<(), Failure> {
        let packets = &mut self.area[..place.rate.packet_octets()];
        unpack(place.rate, data, packets).expect("areas of their lengths");
        self.frame.planned += place.rate.packets() as u64;
        self.frame.written += place.rate.packets() as u64;
        self.frame.null += count_null(packets) as u64;
        self.output.write(packets)
    }

    fn refused(&mut self, place: &Place) -> usize {
        let packets = place.rate.packets();
        self.frame.planned += packets as u64;
        self.frame.lost += packets as u64;
        packets
    }

    fn end_frame(&mut self) -> Result<TsCarried, Failure> {
        self.output.flush()?;
        Ok(mem::take(&mut self.frame))
    }

    fn end(&mut self) -> Result<(), Failure> {
        Ok(())
    }

    fn output(self) -> Output {
        self.output
    }
}
