//! The benchmark: the codec beside the same algorithm in plain C and in plain Rust, on the same
//! inputs, in one run.

mod choice;
mod codec;
mod frames;
mod growth;
mod process;
mod report;
mod search;
mod sets;
mod task;
mod timing;

pub use choice::{Choice, USAGE};
pub use codec::{others, Codec};

use codec::LIBRARY;
use frames::{Frame, Frames};
use report::Row;
use task::Task;
use timing::Times;

use crate::reference::sizes::LARGEST_N;

/// The code lengths, as n.
const DEPTHS: [usize; 4] = [5, 7, 10, LARGEST_N];

/// Over how many processes the rounds of a row are spread.
const PROCESSES: usize = 5;

/// Compares all results, takes all times, and prints them; or, where the words ask for that, takes
/// and prints the times alone.
pub fn run(choice: &Choice, words: &[String]) {
    let mut codecs = vec![LIBRARY];
    codecs.extend(others());
    let frames = choice.frames();
    if choice.times_only {
        return print_times(choice, &codecs, &frames);
    }
    report::print_setting();
    let mut rows = rows(choice, &codecs, &frames);
    for index in 1..=PROCESSES {
        eprintln!("process {index} of {PROCESSES}");
        for (row, times) in rows.iter_mut().zip(process::times(words)) {
            row.add(times);
        }
    }
    for row in &mut rows {
        row.times = timing::quiet_half(&row.times);
    }
    report::print_heading(&codecs);
    rows.iter().for_each(report::print_row);
    growth::print(choice, &frames, &rows);
    sets::print(choice, &frames, &rows);
}

fn print_times(choice: &Choice, codecs: &[Codec], all: &[Frames]) {
    for frames in all {
        for task in choice.tasks_on(frames) {
            process::print_row(&timing::take(task, codecs, &frames.list, choice.rounds));
        }
    }
}

/// The rows, without a time yet.
fn rows(choice: &Choice, codecs: &[Codec], all: &[Frames]) -> Vec<Row> {
    let mut rows = Vec::new();
    for frames in all {
        for task in choice.tasks_on(frames) {
            rows.push(Row {
                n: frames.n,
                task,
                answers: compare(task, codecs, &frames.list),
                times: vec![Times::default(); codecs.len()],
            });
        }
    }
    rows
}

/// The library's answers; panics where another codec gives another answer or output.
fn compare(task: Task, codecs: &[Codec], frames: &[Frame]) -> Vec<u64> {
    let library = &codecs[0];
    let mut answers = Vec::with_capacity(frames.len());
    for (index, frame) in frames.iter().enumerate() {
        let expected = task.result(library, frame);
        for codec in &codecs[1..] {
            assert!(
                task.result(codec, frame) == expected,
                "{} differs from {}: {task}, n = {}, frame {index}",
                codec.name,
                library.name,
                frame.code.n
            );
        }
        answers.push(expected.0);
    }
    answers
}
