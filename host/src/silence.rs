//! Whether silence, N zero values, is accepted as a frame under a code description: from which trial
//! limit T on, and with which other starts of its check. A start other than 0 makes trial 1 fail; a
//! later trial may still pass.

mod argument;
mod report;
mod search;

pub use search::{first_accepted, Acceptance};

use crate::reference::description::describe;
use crate::testing::library;

/// What the command prints for the words after it, or why it cannot. The library's restarted decoder
/// is asked, the one that `receive` runs.
pub fn run(words: &[String]) -> Result<String, String> {
    let description = argument::read(words)?;
    let code = describe(&description).map_err(|refusal| {
        format!("The description is refused with number {refusal}; README.md lists the refusals.")
    })?;
    let decode = library::decode_restarted;
    let accepted = first_accepted(decode, &description);
    let count = search::starts_to_try(&code);
    let limits = search::first_limits(decode, &description, count);
    Ok(report::own(&code, accepted.as_ref()) + "\n" + &report::starts(&code, &limits))
}
