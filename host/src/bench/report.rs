//! What the benchmark prints.

use std::fs;

use crate::bench::codec::{Codec, COMPILERS};
use crate::bench::frames::COUNT;
use crate::bench::task::Task;
use crate::bench::timing::Times;
use crate::bench::PROCESSES;

/// One task at one length: the answers, and the time of each codec, the library's first.
pub struct Row {
    pub n: usize,
    pub task: Task,
    pub answers: Vec<u64>,
    pub times: Vec<Times>,
}

impl Row {
    /// Adds the times of more rounds.
    pub fn add(&mut self, times: Vec<Times>) {
        for (all, more) in self.times.iter_mut().zip(times) {
            all.add(more);
        }
    }

    /// The trial limit of a decoder.
    pub fn limit(&self) -> String {
        match self.task {
            Task::Decode(_, limit) => limit.to_string(),
            _ => String::new(),
        }
    }

    /// The library's time for each of so many parts of a call.
    pub fn time_of_each(&self, parts: f64) -> f64 {
        self.times[0].median() / parts
    }

    /// How many such parts it does in a second.
    pub fn rate(&self, parts: f64) -> f64 {
        1e9 / self.time_of_each(parts)
    }

    /// The frames that a decoder has refused.
    pub fn refused(&self) -> usize {
        self.answers
            .iter()
            .filter(|&answer| answer & 0xFF > 0)
            .count()
    }

    /// The trials that a decoder has made for a frame, on average.
    pub fn trials(&self) -> f64 {
        self.mean(|answer| answer >> 8 & 0xFF_FFFF)
    }

    /// The steps, likewise.
    pub fn steps(&self) -> f64 {
        self.mean(|answer| answer >> 32)
    }

    fn mean(&self, part: fn(u64) -> u64) -> f64 {
        let sum: u64 = self.answers.iter().map(|&answer| part(answer)).sum();
        sum as f64 / self.answers.len() as f64
    }
}

/// What is measured, and on which machine.
pub fn print_setting() {
    println!("Time of one call in ns: processor time of the thread, over {COUNT} frames, each of another code;");
    println!("one frame in ten fails its first trial. Rows add, heard and preview are of the same frames heard twice:");
    println!("add puts the second vector to a state that holds the first, heard is restarted decoding of a state with");
    println!("both, and preview does the two on a copy; there one in ten fails after both are added. Rows with w are of");
    println!("flip sets: {COUNT} frames of one code at the Eb/N0 of document 000, table I. A ratio is polar's time to the");
    println!("other's in one round, in which the codecs take turns. Each number is a median over the quieter half of the");
    println!("rounds made by {PROCESSES} processes; how many these are stands last, fewer where a round takes more than a");
    println!("second. Before, all codecs have given the same answers and outputs for all frames.");
    println!();
    println!("processor  {}", processor());
    println!("load       {}", load());
    for (name, version) in COMPILERS {
        match version {
            "" => println!(
                "{name:<10} not found: name one in {} and run again",
                name.to_uppercase()
            ),
            _ => println!("{name:<10} {version}"),
        }
    }
    println!();
}

/// The processor's name, as Linux gives it.
fn processor() -> String {
    let info = fs::read_to_string("/proc/cpuinfo").unwrap_or_default();
    let name = info
        .lines()
        .find(|line| line.starts_with("model name"))
        .and_then(|line| line.split_once(": "));
    name.map_or("unknown", |(_, name)| name).to_string()
}

/// How many programs want to run, averaged over the last minute.
fn load() -> String {
    let averages = fs::read_to_string("/proc/loadavg").unwrap_or_default();
    averages.split(' ').next().unwrap_or("unknown").to_string()
}

pub fn print_heading(codecs: &[Codec]) {
    print!("{:>5}  {:<35}{:>8}", "N", "operation", codecs[0].name);
    for codec in &codecs[1..] {
        print!("{:>12}  ratio", codec.name);
    }
    println!("  rounds");
}

pub fn print_row(row: &Row) {
    let (length, task, library) = (1 << row.n, row.task.to_string(), &row.times[0]);
    print!("{length:>5}  {task:<35}{:>8.0}", library.median());
    for other in &row.times[1..] {
        print!("{:>12.0}  {:>5.3}", other.median(), library.ratio(other));
    }
    println!("{:>8}", library.rounds());
}
