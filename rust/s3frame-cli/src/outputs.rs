//! Files that are written, standard output among them. A file gets its name once it is whole.
use crate::failure::Failure;
use crate::interrupt;
use nix::unistd::{fchown, Gid, Uid};
use std::ffi::OsString;
use std::fs::{self, File, Metadata};
use std::io::{self, BufWriter, Write};
use std::os::unix::fs::MetadataExt;
use std::os::unix::io::{AsFd, AsRawFd};
use std::path::{Path, PathBuf};
use tempfile::TempDir;

pub const STANDARD_OUTPUT: &str = "standard output";

/// Enough for some ten slots at once.
const BUFFER: usize = 1 << 16;

/// A file under another name: in a folder beside its own place, so that it is made as any new file is, with the
/// permissions that the umask leaves, and can be renamed.
struct Unfinished {
    folder: TempDir,
    name: OsString,
    place: PathBuf,
}

impl Unfinished {
    /// Makes the file that gets its place later.
    fn begin(place: PathBuf) -> io::Result<(Unfinished, File)> {
        let name = place.file_name().ok_or(io::ErrorKind::InvalidInput)?.to_os_string();
        let beside = fs::canonicalize(folder_of(&place))?;
        let folder = interrupt::undisturbed(|unfinished| {
            let folder = tempfile::Builder::new().prefix(".s3frame-").tempdir_in(beside)?;
            unfinished.push(folder.path().to_path_buf());
            io::Result::Ok(folder)
        })?;
        let file = File::create(folder.path().join(&name))?;
        Ok((Unfinished { folder, name, place }, file))
    }

    /// Gives the file its place.
    fn rename(&self) -> io::Result<()> {
        fs::rename(self.folder.path().join(&self.name), &self.place)?;
        // The new name should outlast a power cut too. It is given already, so that this is no reason to fail any more; and
        // there are file systems that cannot do it.
        let _ = File::open(folder_of(&self.place)).and_then(|folder| folder.sync_all());
        Ok(())
    }
}

/// The folder of a path; a bare name lies in the current one.
pub fn folder_of(path: &Path) -> &Path {
    match path.parent() {
        Some(folder) if folder != Path::new("") => folder,
        _ => Path::new("."),
    }
}

/// Something that is written. Dropped before [`keep`], it leaves nothing behind.
pub struct Output {
    name: String,
    writer: BufWriter<File>,
    unfinished: Option<Unfinished>,
}

impl Output {
    /// A file that gets its path once it is whole. A link is followed, so that it stays one. What is there and is no file,
    /// as a device or a pipe, is written as it is.
    pub fn create(path: &Path) -> Result<Output, Failure> {
        let name = path.display().to_string();
        let made = match fs::metadata(path) {
            Ok(there) if there.is_file() => fs::canonicalize(path).and_then(Unfinished::begin),
            Ok(_) => return Output::new(name, File::options().write(true).open(path), None),
            Err(_) => Unfinished::begin(path.to_path_buf()),
        };
        match made {
            Ok((unfinished, file)) => Output::new(name, Ok(file), Some(unfinished)),
            Err(error) => Err(Failure::new(name, error)),
        }
    }

    /// A file that takes the place of one that is there, once it is whole, with its permissions and, where it can, its owner.
    pub fn replace(path: &Path, there: &Metadata) -> Result<Output, Failure> {
        let output = Output::create(path)?;
        let file = output.writer.get_ref();
        let failed = |error| Failure::new(&output.name, error);
        keep_owner(file, there);
        // A file system that knows no permissions gives all files the same.
        if file.metadata().map_err(failed)?.permissions() != there.permissions() {
            file.set_permissions(there.permissions()).map_err(failed)?;
        }
        Ok(output)
    }

    /// Standard output.
    pub fn standard() -> Result<Output, Failure> {
        Output::new(STANDARD_OUTPUT.to_string(), io::stdout().as_fd().try_clone_to_owned().map(File::from), None)
    }

    fn new(name: String, file: io::Result<File>, unfinished: Option<Unfinished>) -> Result<Output, Failure> {
        let file = file.map_err(|error| Failure::new(&name, error))?;
        Ok(Output { name, writer: BufWriter::with_capacity(BUFFER, file), unfinished })
    }

    pub fn write(&mut self, octets: &[u8]) -> Result<(), Failure> {
        self.writer.write_all(octets).map_err(|error| Failure::new(&self.name, error))
    }

    /// Hands on what is buffered.
    pub fn flush(&mut self) -> Result<(), Failure> {
        self.writer.flush().map_err(|error| Failure::new(&self.name, error))
    }

    /// Makes a file whole that is to get its name: its octets are on the disk before the name is, so that a power cut leaves
    /// the earlier file or this one.
    fn settle(&mut self) -> Result<(), Failure> {
        self.flush()?;
        match self.unfinished {
            Some(_) => self.writer.get_ref().sync_all().map_err(|error| Failure::new(&self.name, error)),
            None => Ok(()),
        }
    }
}

/// Gives a file the owner and group of another, so that those who share it still do, as far as the system allows that: only
/// root can give a file away, but anyone can keep a group that he is in.
fn keep_owner(file: &File, there: &Metadata) {
    let give = |owner| fchown(file.as_raw_fd(), owner, Some(Gid::from_raw(there.gid())));
    let _ = give(Some(Uid::from_raw(there.uid()))).or_else(|_| give(None));
}

/// Gives all outputs of a run their names, none before all of them are whole.
pub fn keep(outputs: impl IntoIterator<Item = Output>) -> Result<(), Failure> {
    let mut outputs: Vec<Output> = outputs.into_iter().collect();
    outputs.iter_mut().try_for_each(Output::settle)?;
    interrupt::undisturbed(|_| {
        outputs.iter().try_for_each(|output| match &output.unfinished {
            Some(unfinished) => unfinished.rename().map_err(|error| Failure::new(&output.name, error)),
            None => Ok(()),
        })
    })
}
