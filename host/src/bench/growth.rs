//! How the library's cost grows with N and with T, and what restarting saves, with single flips.

use crate::bench::choice::Choice;
use crate::bench::codec::Way;
use crate::bench::frames::{Frames, Purpose, COUNT};
use crate::bench::report::Row;
use crate::bench::task::Task;

/// Prints what the measured rows tell; nothing where there is none of a length.
pub fn print(choice: &Choice, all: &[Frames], rows: &[Row]) {
    let Some(largest) = choice.layers.iter().max() else {
        return;
    };
    println!();
    print_with_length("Growth with N", choice, Purpose::Single, all, rows);
    print_with_length("Heard twice, N", choice, Purpose::Hearing, all, rows);
    let of = |way| decoded(rows, *largest, way);
    print_with_limit(
        1 << largest,
        &[Way::Full, Way::Half, Way::Restarted].map(of),
    );
}

/// Prints what the tasks on frames of one purpose tell; nothing where there are none.
fn print_with_length(name: &str, choice: &Choice, purpose: Purpose, all: &[Frames], rows: &[Row]) {
    let lengths: Vec<&Frames> = all.iter().filter(|of| of.purpose == purpose).collect();
    if lengths.is_empty() {
        return;
    }
    let sizes = lengths.iter().map(|frames| (1 << frames.n).to_string());
    print_line(name, sizes);
    print_noise(&lengths);
    for task in choice.tasks_for(purpose) {
        let rows = rows.iter().filter(|row| row.task == task);
        let (unit, parts): (_, fn(usize) -> usize) = match task.is_linear() {
            true => ("N", |n| 1 << n),
            false => ("(n · N)", |n| n << n),
        };
        let time = |row: &Row| hundredths(row.time_of_each(parts(row.n) as f64));
        print_line(&format!("  {task}, ns / {unit}"), rows.map(time));
    }
}

/// Prints how noisy frames are.
pub fn print_noise(all: &[&Frames]) {
    print_line(
        "  Eb/N0 in dB",
        all.iter().map(|frames| hundredths(frames.decibels)),
    );
    print_line(
        &format!("  frames that fail trial 1, of {COUNT}"),
        all.iter().map(|frames| frames.failing().to_string()),
    );
}

fn print_with_limit(size: usize, ways: &[Vec<&Row>; 3]) {
    let any = longest(ways);
    if any.is_empty() {
        return;
    }
    let name = format!("Growth with T, N = {size}");
    print_line(&name, any.iter().map(|row| row.limit()));
    print_decoding(ways);
}

/// The rows of the way that has most.
fn longest<'a, 'b>(ways: &'b [Vec<&'a Row>; 3]) -> &'b [&'a Row] {
    let most = ways.iter().max_by_key(|rows| rows.len());
    most.map_or(&[], Vec::as_slice)
}

/// Prints what decoders made of the same frames in each way that has as many rows as any.
pub fn print_decoding(ways: &[Vec<&Row>; 3]) {
    let any = longest(ways);
    let name = format!("  frames refused, of {COUNT}");
    print_line(&name, any.iter().map(|row| row.refused().to_string()));
    print_line(
        "  trials for a frame",
        any.iter().map(|row| hundredths(row.trials())),
    );
    let whole = |way: usize| Some(&ways[way]).filter(|rows| rows.len() == any.len());
    for (way, name) in Way::ALL.iter().enumerate() {
        if let Some(rows) = whole(way) {
            print_speed(&name.to_string(), rows);
        }
    }
    for (way, name) in [(1, "half restart"), (2, "restarting")] {
        if let (Some(full), Some(rows)) = (whole(0), whole(way)) {
            print_saved(name, full, rows);
        }
    }
}

fn print_saved(name: &str, full: &[&Row], fewer: &[&Row]) {
    let share = |(full, fewer): (&&Row, &&Row)| percent(1.0 - fewer.steps() / full.steps());
    print_line(
        &format!("  steps that {name} saves"),
        full.iter().zip(fewer).map(share),
    );
}

fn print_speed(way: &str, rows: &[&Row]) {
    print_line(
        &format!("  {way}, frames a second"),
        rows.iter().map(|row| format!("{:.0}", row.rate(1.0))),
    );
    print_line(
        &format!("  {way}, ns for a step"),
        rows.iter()
            .map(|row| hundredths(row.time_of_each(row.steps()))),
    );
}

fn hundredths(number: f64) -> String {
    format!("{number:.2}")
}

pub fn percent(share: f64) -> String {
    format!("{:.1} %", 100.0 * share)
}

/// The rows of decoding in one way at one length.
fn decoded(rows: &[Row], n: usize, way: Way) -> Vec<&Row> {
    rows.iter()
        .filter(|row| row.n == n && matches!(row.task, Task::Decode(of, _) if of == way))
        .collect()
}

pub fn print_line(name: &str, numbers: impl Iterator<Item = String>) {
    print!("{name:<37}");
    for number in numbers {
        print!("{number:>12}");
    }
    println!();
}
