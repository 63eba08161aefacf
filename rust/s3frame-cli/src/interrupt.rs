//! Signals that end a run, which must leave no unfinished file behind.
use signal_hook::consts::{SIGHUP, SIGINT, SIGTERM, SIGXFSZ};
use signal_hook::flag;
use signal_hook::iterator::Signals;
use signal_hook::low_level::emulate_default_handler;
use std::path::PathBuf;
use std::sync::{Arc, Mutex, PoisonError};
use std::{fs, io, thread};

/// The folders that hold unfinished files; those that are gone again do no harm.
static UNFINISHED: Mutex<Vec<PathBuf>> = Mutex::new(Vec::new());

/// Does work on the list of unfinished folders that no signal may come between.
pub fn undisturbed<T>(work: impl FnOnce(&mut Vec<PathBuf>) -> T) -> T {
    work(&mut UNFINISHED.lock().unwrap_or_else(PoisonError::into_inner))
}

/// Removes what is unfinished, and ends the process as the signal would have. The list stays locked, so that nothing is
/// begun or renamed meanwhile.
fn end(signal: i32) {
    undisturbed(|folders| {
        for folder in folders.iter() {
            // It may be gone, and there is no one left to be told.
            let _ = fs::remove_dir_all(folder);
        }
        emulate_default_handler(signal)
    })
    .expect("the signals below end a process");
}

/// Watches, from now on, for the signals that end a run. Those that the caller ignores, as `nohup` does, stay ignored. A
/// file that grows past its limit is no reason to end: the write fails then, as on a full disk.
pub fn watch() -> io::Result<()> {
    let ignored = ignored()?;
    let watched = [SIGHUP, SIGINT, SIGTERM].into_iter().filter(|signal| ignored >> (signal - 1) & 1 == 0);
    let mut signals = Signals::new(watched)?;
    flag::register(SIGXFSZ, Arc::default())?;
    thread::spawn(move || signals.forever().for_each(end));
    Ok(())
}

/// The signals that are ignored, as Linux tells them: signal 1 is the lowest bit.
fn ignored() -> io::Result<u64> {
    let status = fs::read_to_string("/proc/self/status")?;
    let mask = status.lines().find_map(|line| line.strip_prefix("SigIgn:"));
    Ok(mask.and_then(|mask| u64::from_str_radix(mask.trim(), 16).ok()).unwrap_or(0))
}
