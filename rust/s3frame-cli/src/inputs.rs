//! Files that are read, standard input among them.
use crate::failure::Failure;
use nix::fcntl::{flock, FlockArg};
use std::fs::{File, Metadata};
use std::io::{self, BufReader, Read};
use std::os::unix::io::{AsFd, AsRawFd};
use std::path::Path;

pub const STANDARD_INPUT: &str = "standard input";

/// Enough for some ten slots at once.
const BUFFER: usize = 1 << 16;

/// A file that is read from its front to its end.
pub struct Input {
    name: String,
    file: BufReader<File>,
    metadata: Metadata,
    taken: u64,
}

impl Input {
    /// Opens the file at a path.
    pub fn open(path: &Path) -> Result<Input, Failure> {
        let name = path.display().to_string();
        let file = File::open(path);
        Input::new(name, file)
    }

    /// Opens the file at a path that will be replaced, and waits until no other run has it for that. It is opened for writing
    /// as well, so that one that is protected against that is safe.
    pub fn open_to_replace(path: &Path) -> Result<Input, Failure> {
        let name = path.display().to_string();
        let input = Input::new(name, File::options().read(true).write(true).open(path))?;
        if !input.metadata.is_file() {
            return Err(Failure::new(&input.name, "is a device or a pipe, which cannot be replaced"));
        }
        // Held until the file is closed. There are file systems without locks, which is no reason to refuse the work.
        let _ = flock(input.file.get_ref().as_raw_fd(), FlockArg::LockExclusive);
        Ok(input)
    }

    /// Standard input.
    pub fn standard() -> Result<Input, Failure> {
        let file = io::stdin().as_fd().try_clone_to_owned().map(File::from);
        Input::new(STANDARD_INPUT.to_string(), file)
    }

    fn new(name: String, file: io::Result<File>) -> Result<Input, Failure> {
        let opened = file.and_then(|file| file.metadata().map(|metadata| (file, metadata)));
        let (file, metadata) = opened.map_err(|error| Failure::new(&name, error))?;
        Ok(Input { name, file: BufReader::with_capacity(BUFFER, file), metadata, taken: 0 })
    }

    /// What messages call it.
    pub fn name(&self) -> &str {
        &self.name
    }

    pub fn metadata(&self) -> &Metadata {
        &self.metadata
    }

    /// How many octets it has, where it is a file that lies still.
    pub fn octets(&self) -> Option<u64> {
        self.metadata.is_file().then_some(self.metadata.len())
    }

    /// How many octets were taken from it.
    pub fn taken(&self) -> u64 {
        self.taken
    }

    /// Fills the area as far as the file goes, and says how far that is.
    pub fn fill(&mut self, area: &mut [u8]) -> Result<usize, Failure> {
        let mut filled = 0;
        while filled < area.len() {
            match self.file.read(&mut area[filled..]) {
                Ok(0) => break,
                Ok(octets) => filled += octets,
                Err(error) if error.kind() == io::ErrorKind::Interrupted => {}
                Err(error) => return Err(Failure::new(&self.name, error)),
            }
        }
        self.taken += filled as u64;
        Ok(filled)
    }
}
