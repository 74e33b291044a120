//! What a simulation tells on its way, and what it leaves in a folder.

use std::fs;
use std::io::Result;
use std::path::Path;
use std::time::Instant;

use crate::testing::files::repository;

/// A line that tells how far a simulation is.
pub struct Progress(Instant);

impl Progress {
    pub fn start() -> Self {
        Progress(Instant::now())
    }

    /// Writes over the line of the last call.
    pub fn print(&self, done: &str) {
        let line = format!("{done}, {} s", self.0.elapsed().as_secs());
        eprint!("\r{line:<50}");
    }

    pub fn end_line(&self) {
        eprintln!();
    }
}

/// Writes a file of values, and tells how the plot of that name is drawn from it.
pub fn write_plotted(folder: &Path, name: &str, values: &str) -> Result<()> {
    fs::write(folder.join(format!("{name}.csv")), values)?;
    let script = repository()
        .join(format!("docs/{name}.gp"))
        .canonicalize()?;
    eprintln!(
        "{name}.csv is written. In {}, `gnuplot {}` draws {name}.svg from it; where there is no \
         gnuplot, `apt-get install gnuplot-nox` brings it.",
        folder.display(),
        script.display()
    );
    Ok(())
}
