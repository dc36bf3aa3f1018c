//! A progress bar on the error stream, drawn only where that is a terminal.

use std::io::{self, IsTerminal, Write};

const CELLS: usize = 40;

/// The bar over all files, each of the same length.
pub struct Progress {
    shown: bool,
    files: usize,
    /// The cells drawn last, so that the bar is drawn only when it grows.
    drawn: Option<usize>,
}

impl Progress {
    pub fn over(files: usize) -> Progress {
        Progress { shown: io::stderr().is_terminal(), files, drawn: None }
    }

    /// Shows that so many files are done, and so many steps of the next one.
    pub fn at(&mut self, files: usize, steps: usize, of: usize) {
        let cells = (files * of + steps) * CELLS / (self.files * of).max(1);
        if self.shown && self.drawn != Some(cells) {
            self.drawn = Some(cells);
            let (done, left) = ("#".repeat(cells), ".".repeat(CELLS.saturating_sub(cells)));
            // A bar that cannot be drawn is no reason to stop.
            let _ = write!(io::stderr(), "\r[{done}{left}] {files} of {} files", self.files);
        }
    }

    /// Takes the bar away, so that a line can be printed in its place.
    pub fn clear(&mut self) {
        if self.drawn.take().is_some() {
            let _ = write!(io::stderr(), "\r\x1b[K");
        }
    }
}
