//! What the command line chooses of the benchmark.

use crate::bench::codec::Way;
use crate::bench::frames::{Frames, Purpose};
use crate::bench::process::TIMES_ONLY;
use crate::bench::search::Search;
use crate::bench::task::{limits, Limit, Task, ONE_LIMIT};
use crate::bench::DEPTHS;
use crate::reference::sizes::{LARGEST_N, MOST_TRIALS};

pub const USAGE: &str = "\
bench [OPERATION ..] [--n N ..] [--t T ..] [--w W ..] [--k K ..] [--rounds R]
  OPERATION   encode, pass, full, half, restarted, quantise, add, heard, preview, sets-full,
              sets-half or sets-restarted; all where none is named
  --n N       the code lengths, as n from 5 on; 5, 7, 10 and the largest where none is named
  --t T       the trial limits, from 1 on, or all for K + 1; 1, 13 and all where none is named, and
              13 alone of half, heard and preview
  --w W       the most flips of a set, 2 or 3; both where none is named
  --k K       the payload sizes of flip sets, those of document 000; all where none is named
  --rounds R  how many rounds each row takes, instead of 10 to 205, the fewer the longer a round takes";

/// The rows to measure, and the number of rounds where it is set.
#[derive(Debug, PartialEq, Eq)]
pub struct Choice {
    pub layers: Vec<usize>,
    /// What is done with frames of each length.
    pub tasks: Vec<Task>,
    pub searches: Vec<Search>,
    /// How frames are decoded by each search.
    pub ways: Vec<Way>,
    pub rounds: Option<usize>,
    /// Whether this is a process that gives its times to another.
    pub times_only: bool,
}

/// What the words name.
#[derive(Default)]
struct Named {
    operations: Vec<Operation>,
    layers: Vec<usize>,
    limits: Vec<Limit>,
    flips: Vec<usize>,
    sizes: Vec<usize>,
    rounds: Option<usize>,
    times_only: bool,
}

impl Choice {
    /// The choice of these words, or nothing where one of them is not understood.
    pub fn read(words: &[String]) -> Option<Choice> {
        let named = Named::read(words)?;
        let operations = or_all(
            named.operations,
            &OPERATIONS.map(|(_, operation)| operation),
        );
        let tasks: Vec<Task> = operations
            .iter()
            .flat_map(|operation| operation.tasks(&named.limits))
            .collect();
        let ways: Vec<Way> = operations.iter().filter_map(Operation::way).collect();
        let is_named = |search: &Search| {
            let has = |list: &[usize], entry| list.is_empty() || list.contains(&entry);
            has(&named.flips, search.most_flips as usize) && has(&named.sizes, search.k)
        };
        let searches = Search::all().into_iter().filter(is_named).collect();
        Some(Choice {
            layers: only_if(!tasks.is_empty(), or_all(named.layers, &DEPTHS)),
            tasks,
            searches: only_if(!ways.is_empty(), searches),
            ways,
            rounds: named.rounds,
            times_only: named.times_only,
        })
    }

    /// The frames of all rows.
    pub fn frames(&self) -> Vec<Frames> {
        let lengths = self.layers.iter().flat_map(|&n| self.frames_of_length(n));
        let searches = self.searches.iter().map(|&of| Frames::of_search(of));
        lengths.chain(searches).collect()
    }

    /// Those of a length, for each purpose that there is a task for.
    fn frames_of_length(&self, n: usize) -> Vec<Frames> {
        let has = |purpose| self.tasks_for(purpose).count() > 0;
        let single = has(Purpose::Single).then(|| Frames::of_length(n));
        let heard_twice = has(Purpose::Hearing).then(|| Frames::of_hearings(n));
        single.into_iter().chain(heard_twice).collect()
    }

    /// The tasks with this purpose on frames of a length.
    pub fn tasks_for(&self, purpose: Purpose) -> impl Iterator<Item = Task> + '_ {
        let is_for = move |task: &Task| task.purpose() == purpose;
        self.tasks.iter().copied().filter(is_for)
    }

    /// What is done with these.
    pub fn tasks_on(&self, frames: &Frames) -> Vec<Task> {
        match frames.search() {
            None => self.tasks_for(frames.purpose).collect(),
            Some(search) => self
                .ways
                .iter()
                .map(|&way| Task::Sets(way, search))
                .collect(),
        }
    }
}

impl Named {
    fn read(words: &[String]) -> Option<Named> {
        let mut named = Named::default();
        let mut words = words.iter();
        while let Some(word) = words.next() {
            match word.as_str() {
                "--n" => named.layers.push(number(words.next()?, 5..=LARGEST_N)?),
                "--t" => named.limits.push(limit(words.next()?)?),
                "--w" => named.flips.push(number(words.next()?, 2..=3)?),
                "--k" => named.sizes.push(payload_size(words.next()?)?),
                "--rounds" => named.rounds = Some(number(words.next()?, 1..=1_000_000)?),
                TIMES_ONLY => named.times_only = true,
                _ => named.operations.push(Operation::named(word)?),
            }
        }
        Some(named)
    }
}

/// A task, a way of decoding under each trial limit, a decoding of hearings, or one by each search.
#[derive(Clone, Copy)]
enum Operation {
    One(Task),
    Each(Way),
    Hearing(fn(Limit) -> Task),
    Sets(Way),
}

const OPERATIONS: [(&str, Operation); 12] = [
    ("encode", Operation::One(Task::Encode)),
    ("pass", Operation::One(Task::Pass)),
    ("full", Operation::Each(Way::Full)),
    ("half", Operation::Each(Way::Half)),
    ("restarted", Operation::Each(Way::Restarted)),
    ("quantise", Operation::One(Task::Quantise)),
    ("add", Operation::One(Task::Add)),
    ("heard", Operation::Hearing(Task::Heard)),
    ("preview", Operation::Hearing(Task::Preview)),
    ("sets-full", Operation::Sets(Way::Full)),
    ("sets-half", Operation::Sets(Way::Half)),
    ("sets-restarted", Operation::Sets(Way::Restarted)),
];

impl Operation {
    fn named(word: &str) -> Option<Operation> {
        let found = OPERATIONS.into_iter().find(|(name, _)| *name == word);
        found.map(|(_, operation)| operation)
    }

    /// What it does with frames of a length, under the limits named or those of its way.
    fn tasks(&self, named: &[Limit]) -> Vec<Task> {
        let named = |all| or_all(named.to_vec(), all).into_iter();
        match *self {
            Operation::One(task) => vec![task],
            Operation::Each(way) => named(limits(way))
                .map(|limit| Task::Decode(way, limit))
                .collect(),
            Operation::Hearing(task) => named(ONE_LIMIT).map(task).collect(),
            Operation::Sets(_) => vec![],
        }
    }

    /// How it decodes with flip sets, if it does.
    fn way(&self) -> Option<Way> {
        match *self {
            Operation::Sets(way) => Some(way),
            _ => None,
        }
    }
}

fn number(word: &str, range: std::ops::RangeInclusive<usize>) -> Option<usize> {
    word.parse().ok().filter(|number| range.contains(number))
}

fn limit(word: &str) -> Option<Limit> {
    match word {
        "all" => Some(Limit::All),
        _ => Some(Limit::Trials(number(word, 1..=MOST_TRIALS)? as u32)),
    }
}

fn payload_size(word: &str) -> Option<usize> {
    let k = word.parse().ok()?;
    Search::all().iter().any(|of| of.k == k).then_some(k)
}

fn or_all<T: Clone>(named: Vec<T>, all: &[T]) -> Vec<T> {
    if named.is_empty() {
        all.to_vec()
    } else {
        named
    }
}

fn only_if<T>(wanted: bool, list: Vec<T>) -> Vec<T> {
    if wanted {
        list
    } else {
        vec![]
    }
}

#[cfg(test)]
mod tests {
    use super::*;

    fn read(line: &str) -> Option<Choice> {
        let words: Vec<String> = line.split_whitespace().map(String::from).collect();
        Choice::read(&words)
    }

    #[test]
    fn all_where_nothing_is_named() {
        let choice = read("").expect("a choice");
        assert_eq!(choice.layers, DEPTHS);
        let rows: usize = Way::ALL.iter().map(|way| limits(*way).len()).sum();
        assert_eq!(choice.tasks_for(Purpose::Single).count(), 3 + rows);
        assert_eq!(choice.tasks_for(Purpose::Hearing).count(), 3);
        assert_eq!(choice.searches, Search::all());
        assert_eq!(choice.ways, Way::ALL);
        assert_eq!(choice.rounds, None);
    }

    #[test]
    fn one_row() {
        let expected = Choice {
            layers: vec![10],
            tasks: vec![Task::Decode(Way::Restarted, Limit::Trials(13))],
            searches: vec![],
            ways: vec![],
            rounds: Some(31),
            times_only: false,
        };
        let words = "restarted --n 10 --t 13 --rounds 31";
        assert_eq!(read(words), Some(expected));
    }

    #[test]
    fn rows_of_hearings() {
        let choice = read("heard add preview --t all --n 5").expect("a choice");
        let all = Limit::All;
        let expected = [Task::Heard(all), Task::Add, Task::Preview(all)];
        assert_eq!(choice.tasks, expected);
        let purposes: Vec<Purpose> = choice.frames().iter().map(|of| of.purpose).collect();
        assert_eq!(purposes, [Purpose::Hearing]);
    }

    #[test]
    fn one_row_of_flip_sets() {
        let choice = read("sets-restarted --w 3 --k 256").expect("a choice");
        let search = Search {
            k: 256,
            most_flips: 3,
            limit: 301,
        };
        assert_eq!(
            (choice.searches, choice.ways),
            (vec![search], vec![Way::Restarted])
        );
        assert_eq!((choice.layers, choice.tasks), (vec![], vec![]));
    }

    #[test]
    fn words_that_mean_nothing() {
        for words in [
            "decode",
            "--n",
            "--n 4",
            "--t 0",
            "--rounds 0",
            "--t x",
            "--w 1",
            "--k 100",
        ] {
            assert_eq!(read(words), None, "{words}");
        }
    }
}
