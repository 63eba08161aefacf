//! The files of one run: each output has a place of its own, and none is an input, unless it replaces it.
use crate::failure::Failure;
use crate::inputs::{Input, STANDARD_INPUT};
use crate::outputs::{folder_of, Output, STANDARD_OUTPUT};
use crate::report::Report;
use std::fs::{self, File, Metadata};
use std::io;
use std::os::unix::fs::MetadataExt;
use std::os::unix::io::AsFd;
use std::path::{Path, PathBuf};

/// The word for standard input and standard output.
const STANDARD: &str = "-";

/// What a file holds: only text is read from a terminal, or shown on one.
#[derive(Clone, Copy, PartialEq, Eq)]
pub enum Content {
    Text,
    Binary,
}

/// What tells two files apart: device and inode, or the place of one that is not there yet.
#[derive(PartialEq, Eq)]
enum Identity {
    There(u64, u64),
    NotYet(PathBuf),
}

impl Identity {
    /// That of a file. Devices and pipes have none: they can be read and written at once.
    fn of(metadata: &Metadata) -> Option<Identity> {
        metadata.is_file().then(|| Identity::There(metadata.dev(), metadata.ino()))
    }

    fn at(path: &Path) -> Option<Identity> {
        match fs::metadata(path) {
            Ok(metadata) => Identity::of(&metadata),
            Err(_) => {
                let folder = fs::canonicalize(folder_of(path)).ok()?;
                Some(Identity::NotYet(folder.join(path.file_name()?)))
            }
        }
    }
}

/// The files that a run has taken so far, inputs first.
#[derive(Default)]
pub struct Files {
    taken: Vec<(Identity, String)>,
    input: bool,
    output: bool,
}

impl Files {
    /// Opens a file to read: the one at a path, or standard input for `-` or nothing.
    pub fn open(&mut self, word: Option<&Path>, content: Content) -> Result<Input, Failure> {
        let input = match named(word) {
            Some(path) => Input::open(path)?,
            None => self.standard_input(content)?,
        };
        if let Some(identity) = Identity::of(input.metadata()) {
            self.taken.push((identity, input.name().to_string()));
        }
        Ok(input)
    }

    fn standard_input(&mut self, content: Content) -> Result<Input, Failure> {
        if content == Content::Binary && atty::is(atty::Stream::Stdin) {
            return Err(Failure::new(STANDARD_INPUT, "is a terminal: name a file, or lead one in"));
        }
        if std::mem::replace(&mut self.input, true) {
            return Err(Failure::new(STANDARD_INPUT, "cannot be read twice: name a file"));
        }
        Input::standard()
    }

    /// Creates a file to write: the one at a path, or standard output for `-` or nothing.
    pub fn create(&mut self, word: Option<&Path>, content: Content) -> Result<Output, Failure> {
        match named(word) {
            Some(path) => {
                self.take(Identity::at(path), &path.display().to_string())?;
                Output::create(path)
            }
            None => self.standard_output(content),
        }
    }

    /// Opens a file that is read and then replaced: what it holds, and what takes its place. No other output is an input.
    /// Other runs that would replace it wait until what it holds is dropped.
    pub fn open_to_replace(&mut self, word: &Path) -> Result<(Input, Output), Failure> {
        let path = named(Some(word));
        let path = path.ok_or_else(|| Failure::new(STANDARD_INPUT, "cannot be replaced: name a file"))?;
        let input = latest(path)?;
        self.take(Identity::of(input.metadata()), input.name())?;
        let output = Output::replace(path, input.metadata())?;
        Ok((input, output))
    }

    /// Creates a file to write that is left out where no word names it.
    pub fn create_named(&mut self, word: Option<&Path>, content: Content) -> Result<Option<Output>, Failure> {
        word.map(|path| self.create(Some(path), content)).transpose()
    }

    fn standard_output(&mut self, content: Content) -> Result<Output, Failure> {
        if content == Content::Binary && atty::is(atty::Stream::Stdout) {
            return Err(Failure::new(STANDARD_OUTPUT, "is a terminal: name a file with -o, or lead it into a pipe"));
        }
        if std::mem::replace(&mut self.output, true) {
            return Err(Failure::new(STANDARD_OUTPUT, "cannot take two outputs: name a file"));
        }
        self.take_standard_output()?;
        Output::standard()
    }

    /// Where the run reports: standard output, or standard error where an output stands on the other. It is asked for once
    /// all outputs are created.
    pub fn report(&mut self) -> Result<Report, Failure> {
        if self.output {
            return Ok(Report::on_error());
        }
        self.take_standard_output()?;
        Ok(Report::on_output())
    }

    fn take_standard_output(&mut self) -> Result<(), Failure> {
        let file = io::stdout().as_fd().try_clone_to_owned().map(File::from);
        let metadata = file.and_then(|file| file.metadata()).map_err(|error| Failure::new(STANDARD_OUTPUT, error))?;
        self.take(Identity::of(&metadata), STANDARD_OUTPUT)
    }

    /// Notes a file that is written, unless the run has it already.
    fn take(&mut self, identity: Option<Identity>, name: &str) -> Result<(), Failure> {
        let identity = match identity {
            Some(identity) => identity,
            None => return Ok(()),
        };
        if let Some((_, other)) = self.taken.iter().find(|(taken, _)| *taken == identity) {
            return Err(Failure::new(name, format!("is the same file as {other}, and would be written over it")));
        }
        self.taken.push((identity, name.to_string()));
        Ok(())
    }
}

/// Opens the file at a path to replace it; anew where another run has replaced it while this one waited.
fn latest(path: &Path) -> Result<Input, Failure> {
    loop {
        let input = Input::open_to_replace(path)?;
        if Identity::of(input.metadata()) == Identity::at(path) {
            return Ok(input);
        }
    }
}

/// The path that a word names, where it names one.
pub fn named(word: Option<&Path>) -> Option<&Path> {
    word.filter(|path| *path != Path::new(STANDARD))
}
