//! TLV packets as the data octets of slots, and the slots' reports.
use crate::begins;
use crate::code::Supply;
use crate::failure::Failure;
use crate::files::{Content, Files};
use crate::frames::Layout;
use crate::inputs::Input;
use crate::outputs::{Output, STANDARD_OUTPUT};
use crate::tlv_input::TlvInput;
use crate::words::CodeWords;
use s3frame::{fill_tlv, Place, Rate, TlvFilled};

/// One stream of packets through all frames: how far it has come in the packets that are held, the slots of a frame and how
/// many of their octets were handed on, the slots' reports, and the octets of fillers. No more packets are held than fill a
/// frame, and one that the frame before did not finish.
pub struct TlvSupply {
    input: TlvInput,
    filled: TlvFilled,
    rate: Rate,
    slots: Vec<u8>,
    done: usize,
    begins: Vec<u16>,
    reports: Output,
    fillers: u64,
}

impl TlvSupply {
    /// Packets of a file for the frames of a layout, and the file of the slots' reports.
    pub fn open(files: &mut Files, words: &CodeWords, layout: &Layout, file: Input) -> Result<TlvSupply, Failure> {
        let rate = layout.only_rate()?;
        let path = begins::beside(words.output.as_deref(), STANDARD_OUTPUT, words.begins.as_deref())?;
        let reports = files.create(Some(&path), Content::Binary)?;
        let (input, filled) = (TlvInput::new(file), TlvFilled::default());
        let count = layout.data_slots().len();
        let (slots, begins) = (vec![0; count * rate.data_octets()], vec![0; count]);
        Ok(TlvSupply { input, filled, rate, slots, done: 0, begins, reports, fillers: 0 })
    }

    /// How many octets of the packets are in no slot yet.
    fn waiting(&self) -> usize {
        self.input.packets().len() - self.filled.taken
    }

    /// Fills the slots of a frame, and writes their reports.
    fn fill(&mut self) -> Result<(), Failure> {
        let before = self.waiting();
        let filled = fill_tlv(self.rate, self.input.packets(), self.filled, &mut self.slots, &mut self.begins);
        self.filled = filled.map_err(|refusal| self.input.refused(self.rate, refusal))?;
        self.done = 0;
        self.fillers += (self.slots.len() - (before - self.waiting())) as u64;
        self.reports.write(&begins::octets_of(&self.begins))?;
        // Whoever reads frames and reports from two pipes needs both of a frame before the next.
        self.reports.flush()
    }
}

impl Supply for TlvSupply {
    fn input(&self) -> &Input {
        self.input.file()
    }

    /// Takes packets as far as they go, or until they fill a frame.
    fn take_frame(&mut self) -> Result<bool, Failure> {
        self.filled.taken -= self.input.let_go(self.filled.taken);
        while self.waiting() < self.slots.len() && self.input.take()? {}
        if self.waiting() == 0 {
            return self.input.look_at_cut(self.rate).map(|()| false);
        }
        self.fill()?;
        Ok(true)
    }

    fn data(&mut self, place: &Place, data: &mut [u8]) -> Result<(), Failure> {
        let next = self.done + place.rate.data_octets();
        data.copy_from_slice(&self.slots[self.done..next]);
        self.done = next;
        Ok(())
    }

    fn left_over(&self) -> usize {
        self.input.left_over()
    }

    /// At the end all packets are gone: they are in slots.
    fn counts(&self) -> String {
        let (packets, octets) = self.input.gone();
        format!("packets {packets} octets {octets} fillers {}", self.fillers)
    }

    fn outputs(self: Box<Self>) -> Vec<Output> {
        vec![self.reports]
    }
}
