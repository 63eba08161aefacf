//! The reports of slots that carry TLV packets, in a file beside the frames: where in a slot the first packet begins, two
//! octets for each data slot, high octet first.
use crate::failure::Failure;
use crate::files::{named, Content, Files};
use crate::frames::Layout;
use crate::inputs::Input;
use s3frame::{Rate, NO_BEGIN};
use std::path::{Path, PathBuf};

/// What stands behind the frames' name in that of the reports.
const ENDING: &str = ".begins";

const OCTETS: usize = 2;

/// The file of the reports: the one that a word names, else the one beside the frames. Frames on a standard stream have no
/// name that it could have.
pub fn beside(frames: Option<&Path>, standard: &str, word: Option<&Path>) -> Result<PathBuf, Failure> {
    let ended = |path: &Path| {
        let mut name = path.as_os_str().to_os_string();
        name.push(ENDING);
        name.into()
    };
    let path = word.map(Path::to_path_buf).or_else(|| named(frames).map(ended));
    path.ok_or_else(|| {
        Failure::new(standard, "has no name for the reports of its slots: name their file with --begins")
    })
}

/// Reports as they stand in the file.
pub fn octets_of(begins: &[u16]) -> Vec<u8> {
    begins.iter().flat_map(|begin| begin.to_be_bytes()).collect()
}

/// A file of reports that is read frame by frame.
pub struct Begins {
    input: Input,
    rate: Rate,
    slots: Vec<usize>,
    frames: u64,
    area: Vec<u8>,
}

impl Begins {
    /// Opens the file for the frames of a layout, whose data slots are all of one rate.
    pub fn open(files: &mut Files, path: &Path, layout: &Layout, rate: Rate) -> Result<Begins, Failure> {
        let input = files.open(Some(path), Content::Binary)?;
        let slots = layout.data_slots();
        let area = vec![0; OCTETS * slots.len()];
        Ok(Begins { input, rate, slots, frames: 0, area })
    }

    /// The reports of the next frame's data slots.
    pub fn take_frame(&mut self) -> Result<Vec<u16>, Failure> {
        self.frames += 1;
        let whole = self.input.fill(&mut self.area)? / OCTETS;
        if whole < self.slots.len() {
            return Err(self.wrong("ends before the report of", whole, ""));
        }
        let begins: Vec<u16> = self.area.chunks_exact(OCTETS).map(|two| u16::from_be_bytes([two[0], two[1]])).collect();
        let octets = self.rate.data_octets();
        if let Some(at) = begins.iter().position(|begin| *begin != NO_BEGIN && usize::from(*begin) >= octets) {
            let past = format!(" is {}, past its {octets} octets and not {NO_BEGIN}", begins[at]);
            return Err(self.wrong("the report of", at, &past));
        }
        Ok(begins)
    }

    /// Sees to it that no report follows those that were taken.
    pub fn end(&mut self) -> Result<(), Failure> {
        match self.input.fill(&mut [0])? {
            0 => Ok(()),
            _ => Err(self.wrong("goes on after the report of", self.slots.len() - 1, "")),
        }
    }

    /// What is wrong at a data slot of the frame, in the words before and behind its name.
    fn wrong(&self, before: &str, at: usize, behind: &str) -> Failure {
        let (slot, frame) = (self.slots[at], self.frames);
        Failure::new(self.input.name(), format!("{before} slot {slot} of frame {frame}{behind}"))
    }
}

#[cfg(test)]
mod tests {
    use super::*;

    #[test]
    fn the_file_beside_the_frames() {
        let file = |frames: Option<&str>, word: Option<&str>| {
            beside(frames.map(Path::new), "standard output", word.map(Path::new)).ok()
        };
        assert_eq!(file(Some("a/frames.s3"), None), Some("a/frames.s3.begins".into()));
        assert_eq!(file(Some("frames"), Some("other")), Some("other".into()));
        assert_eq!(
            [file(None, Some("other")), file(Some("-"), Some("other"))],
            [Some("other".into()), Some("other".into())]
        );
        assert_eq!([file(None, None), file(Some("-"), None)], [None, None]);
    }

    #[test]
    fn the_high_octet_comes_first() {
        assert_eq!(octets_of(&[842, NO_BEGIN]), [3, 74, 255, 255]);
    }
}
