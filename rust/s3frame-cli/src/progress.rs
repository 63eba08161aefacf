//! How far the work is, shown on standard error where that is a terminal and nowhere else.
use indicatif::{ProgressBar, ProgressStyle};

const MEASURED: &str = "{wide_bar} {bytes} of {total_bytes}, {eta} to go";
const ENDLESS: &str = "{spinner} {bytes}, {bytes_per_sec}";

/// A bar that is wiped away when the work ends, however it ends.
pub struct Progress(ProgressBar);

impl Progress {
    /// Work on so many octets, or on a stream of which that is not known.
    pub fn new(octets: Option<u64>) -> Progress {
        let bar = octets.map_or_else(ProgressBar::new_spinner, ProgressBar::new);
        let template = if octets.is_some() { MEASURED } else { ENDLESS };
        Progress(bar.with_style(ProgressStyle::with_template(template).expect("a template that indicatif knows")))
    }

    /// So many octets are done.
    pub fn at(&self, octets: u64) {
        self.0.set_position(octets);
    }

    /// Writes lines that must not run into the bar.
    pub fn aside<T>(&self, write: impl FnOnce() -> T) -> T {
        self.0.suspend(write)
    }
}

impl Drop for Progress {
    fn drop(&mut self) {
        self.0.finish_and_clear();
    }
}
