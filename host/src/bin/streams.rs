//! Writes the cases of `receive` with what the reference prints, and the recordings, into the
//! repository.

use std::fs;
use std::io::Result;

use host::reference::receive::receive;
use host::testing::files::repository;
use host::testing::streams;

fn main() -> Result<()> {
    let cases = repository().join("tests/cases");
    fs::create_dir_all(&cases)?;
    for (name, stream) in streams::cases() {
        fs::write(cases.join(format!("{name}.out")), receive(&stream))?;
        fs::write(cases.join(format!("{name}.in")), stream)?;
    }
    let recordings = repository().join("recordings");
    fs::create_dir_all(&recordings)?;
    fs::write(recordings.join("run.bin"), streams::recording())?;
    fs::write(recordings.join("survey.bin"), streams::survey())
}
