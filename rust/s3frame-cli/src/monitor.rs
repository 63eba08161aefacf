//! `s3frame monitor`: frames into packets, and a report of every slot.
use crate::account::{Account, Found};
use crate::failure::{Failure, Outcome};
use crate::files::{Content, Files};
use crate::frames::Layout;
use crate::inputs::Input;
use crate::outputs::{self, Output};
use crate::progress::Progress;
use crate::tally::{Answer, Carried, Refused};
use crate::tlv_monitor::TlvDelivery;
use crate::ts_monitor::TsDelivery;
use crate::words::MonitorWords;
use s3frame::{FrameState, Place, SlotRead, FRAME_OCTETS, HEADER_OCTETS, MOST_SOURCE, SLOTS, SLOT_OCTETS};

/// Where the data octets of slots go: packets of some kind.
pub trait Delivery {
    /// What is counted of them.
    type Carried: Carried;

    /// Takes the data octets of a slot that was accepted.
    fn accepted(&mut self, place: &Place, data: &[u8]) -> Result<(), Failure>;

    /// Takes note of a slot that was refused, and says how much it lost.
    fn refused(&mut self, place: &Place) -> usize;

    /// Writes all packets that the frame brought, and says what it carried.
    fn end_frame(&mut self) -> Result<Self::Carried, Failure>;

    /// Looks at what only the end shows, where the frames were not cut.
    fn end(&mut self) -> Result<(), Failure>;

    /// The file of the packets.
    fn output(self) -> Output;
}

/// Frames that are read: the files, and the areas that every slot uses again.
struct Monitor<D> {
    layout: Layout,
    input: Input,
    delivery: D,
    headers: Option<Output>,
    frame: Vec<u8>,
    source: [u8; MOST_SOURCE],
}

/// Reads all frames of the input.
pub fn run(words: &MonitorWords) -> Result<Outcome, Failure> {
    let mut files = Files::default();
    let layout = Layout::open(&mut files, &words.settings)?;
    let input = files.open(words.input.as_deref(), Content::Binary)?;
    if words.tlv {
        let delivery = TlvDelivery::open(&mut files, words, &layout)?;
        read(files, words, layout, input, delivery)
    } else {
        let delivery = TsDelivery::open(&mut files, words, &layout)?;
        read(files, words, layout, input, delivery)
    }
}

fn read<D: Delivery>(
    mut files: Files,
    words: &MonitorWords,
    layout: Layout,
    input: Input,
    delivery: D,
) -> Result<Outcome, Failure> {
    let headers = files.create_named(words.headers.as_deref(), Content::Binary)?;
    let mut account = Account::open(&mut files, words, &layout)?;
    let (frame, source) = (vec![0; FRAME_OCTETS], [0; MOST_SOURCE]);
    let mut monitor = Monitor { layout, input, delivery, headers, frame, source };
    let left_over = monitor.read_all(&mut account)?;
    let found = account.total.refused() > 0;
    let told = account.end(left_over)?;
    outputs::keep([Some(monitor.delivery.output()), monitor.headers].into_iter().flatten().chain(told))?;
    Ok(Outcome::new(found).left_over(monitor.input.name(), "frame", left_over))
}

impl<D: Delivery> Monitor<D> {
    /// Reads frames until the input ends, and says how many octets are left over behind the last whole one.
    fn read_all(&mut self, account: &mut Account<D::Carried>) -> Result<usize, Failure> {
        let progress = Progress::new(self.input.octets());
        let mut octets = self.input.fill(&mut self.frame)?;
        while octets == FRAME_OCTETS {
            let found = self.read_frame()?;
            account.frame(&found, &progress)?;
            progress.at(self.input.taken());
            octets = self.input.fill(&mut self.frame)?;
        }
        if account.frames == 0 {
            return Err(Failure::without(self.input.name(), "frame", octets));
        }
        if octets == 0 {
            self.delivery.end()?;
        }
        Ok(octets)
    }

    /// Reads the slots of a frame, and delivers what they carry.
    fn read_frame(&mut self) -> Result<Found<D::Carried>, Failure> {
        let mut found = Found::new();
        let mut state = self.layout.opened;
        for slot in 0..SLOTS {
            let place = self.layout.places[slot];
            let answer = if place.data {
                let read = self.read_slot(state, slot, &place);
                state = read.state;
                self.deliver(slot, &place, read, &mut found)?
            } else {
                state = state.pass().expect("a state moves on by the plan's places");
                Answer::Dummy
            };
            found.answered(slot, answer);
        }
        found.tally.carried = self.delivery.end_frame()?;
        Ok(found)
    }

    fn read_slot(&mut self, state: FrameState, slot: usize, place: &Place) -> SlotRead {
        let coded = &self.frame[SLOT_OCTETS * slot..SLOT_OCTETS * (slot + 1)];
        state.read_slot(self.layout.table(place), coded, &mut self.source[..place.rate.source_octets()])
    }

    /// Delivers header and data of a data slot that was accepted and notes its stuff bits, or notes what it lost and where its
    /// parity broke.
    fn deliver(
        &mut self,
        slot: usize,
        place: &Place,
        read: SlotRead,
        found: &mut Found<D::Carried>,
    ) -> Result<Answer, Failure> {
        match read.answer {
            Ok(stuff) => {
                let (header, data) = self.source[..place.rate.source_octets()].split_at(HEADER_OCTETS);
                self.delivery.accepted(place, data)?;
                self.headers.as_mut().map_or(Ok(()), |headers| headers.write(header))?;
                found.accepted(slot, stuff);
            }
            Err(refused) => found.refused(Refused::new(slot + 1, refused, self.delivery.refused(place))),
        }
        Ok(Answer::of(read.answer))
    }
}
