//! Decoding with flip sets: trials and speed at document 000's ratios, and what choosing the next set
//! costs.

use crate::bench::choice::Choice;
use crate::bench::codec::{clocked, Clocked, Way};
use crate::bench::frames::Frames;
use crate::bench::growth::{percent, print_decoding, print_line, print_noise};
use crate::bench::report::Row;
use crate::bench::search::Search;
use crate::bench::task::Task;
use crate::reference::sizes::LONGEST_BYTES;

/// How often the frames are decoded to tell the share of choosing.
const SWEEPS: usize = 3;

/// Prints what the measured rows tell, for each w.
pub fn print(choice: &Choice, all: &[Frames], rows: &[Row]) {
    let by_w = |a: &Search, b: &Search| a.most_flips == b.most_flips;
    for searches in choice.searches.chunk_by(by_w) {
        println!();
        print_searches(searches, all, rows);
    }
}

/// The frames and rows of one w, for each k.
fn print_searches(searches: &[Search], all: &[Frames], rows: &[Row]) {
    let is_of = |frames: &&Frames| frames.search().is_some_and(|of| searches.contains(&of));
    let frames: Vec<&Frames> = all.iter().filter(is_of).collect();
    print_line(
        &format!("Flip sets, {}, k", searches[0]),
        searches.iter().map(|search| search.k.to_string()),
    );
    print_noise(&frames);
    print_decoding(&Way::ALL.map(|way| decoded(searches, rows, way)));
    for plain in clocked() {
        print_line(
            &format!("  choosing sets, {} restarted", plain.name),
            frames.iter().map(|of| percent(choosing(&plain, of))),
        );
    }
}

/// The rows of decoding in one way by some searches.
fn decoded<'a>(searches: &[Search], rows: &'a [Row], way: Way) -> Vec<&'a Row> {
    let is_of = |task| matches!(task, Task::Sets(by, of) if by == way && searches.contains(&of));
    rows.iter().filter(|row| is_of(row.task)).collect()
}

/// The share of choosing the next set in the time of plain C's restarted decoder, by a clock around
/// each choice.
fn choosing(plain: &Clocked, frames: &Frames) -> f64 {
    let search = frames.search().expect("a search");
    let mut room = [0; LONGEST_BYTES];
    let [mut whole, mut choosing] = [0; 2];
    for frame in (0..SWEEPS).flat_map(|_| &frames.list) {
        let output = &mut room[..frame.payload.len()];
        let (d, channel) = (&frame.description, &frame.channel);
        let times = (plain.time)(d, channel, search.most_flips, search.limit, output);
        whole += times[0];
        choosing += times[1];
    }
    choosing as f64 / whole as f64
}
