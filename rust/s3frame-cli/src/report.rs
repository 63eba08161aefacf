//! The lines that a run writes for people.
use crate::failure::Failure;
use crate::outputs::STANDARD_OUTPUT;
use std::fmt::Arguments;
use std::io::{self, Write};

/// Where the lines go.
pub struct Report {
    name: &'static str,
    to: Box<dyn Write>,
}

impl Report {
    pub fn on_output() -> Report {
        Report { name: STANDARD_OUTPUT, to: Box::new(io::stdout()) }
    }

    pub fn on_error() -> Report {
        Report { name: "standard error", to: Box::new(io::stderr()) }
    }

    /// Writes lines that end with their line feeds.
    pub fn lines(&mut self, lines: &[u8]) -> Result<(), Failure> {
        self.to.write_all(lines).map_err(|error| Failure::new(self.name, error))
    }

    /// Writes a line.
    pub fn line(&mut self, line: Arguments) -> Result<(), Failure> {
        writeln!(self.to, "{line}").map_err(|error| Failure::new(self.name, error))
    }
}
