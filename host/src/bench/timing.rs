//! Times of calls. They are processor time of this thread, so that other programs on the machine
//! disturb them little.

use std::fmt::{self, Display, Formatter};
use std::hint::black_box;
use std::num::ParseFloatError;
use std::ops::RangeInclusive;
use std::str::FromStr;

use crate::bench::codec::Codec;
use crate::bench::frames::{Frame, COUNT};
use crate::bench::task::Task;
use crate::bench::PROCESSES;
use crate::reference::sizes::LONGEST;

/// A codec's turn takes at least so long, in nanoseconds.
const TURN: f64 = 1e6;

/// The rounds of a row take about so long in one process, in nanoseconds, within these numbers of
/// rounds.
const BUDGET: f64 = 2e9 / PROCESSES as f64;
const ROUNDS: RangeInclusive<usize> = 5..=41;

/// Rounds that take longer than this, in nanoseconds, are fewer. They are those of the longest frames
/// with T = K + 1.
const LONG_ROUND: f64 = 1e9;
const LONG_ROUNDS: usize = 2;

/// In how many places of the stack the rounds are made.
const PLACES: usize = 61;

/// The times of one call in nanoseconds, over all frames, one for each round.
#[derive(Clone, Debug, Default, PartialEq)]
pub struct Times(Vec<f64>);

impl Times {
    /// Adds the times of more rounds.
    pub fn add(&mut self, more: Times) {
        self.0.extend(more.0);
    }

    pub fn rounds(&self) -> usize {
        self.0.len()
    }

    pub fn median(&self) -> f64 {
        median(self.0.clone())
    }

    /// The median of the rounds' ratios: what slows a round down mostly slows both.
    pub fn ratio(&self, other: &Times) -> f64 {
        median(self.0.iter().zip(&other.0).map(|(a, b)| a / b).collect())
    }
}

/// Of the rounds of some codecs, the half that took all of them together the least time: in the other
/// half the machine had more to do, which slows one codec more than another.
pub fn quiet_half(times: &[Times]) -> Vec<Times> {
    let rounds = times[0].rounds();
    let sum = |round: usize| -> f64 { times.iter().map(|times| times.0[round]).sum() };
    let mut order: Vec<usize> = (0..rounds).collect();
    order.sort_by(|&a, &b| sum(a).total_cmp(&sum(b)));
    let quiet = &order[..rounds.div_ceil(2)];
    let of = |times: &Times| Times(quiet.iter().map(|&round| times.0[round]).collect());
    times.iter().map(of).collect()
}

/// The numbers, with spaces between.
impl Display for Times {
    fn fmt(&self, to: &mut Formatter) -> fmt::Result {
        let numbers: Vec<String> = self.0.iter().map(f64::to_string).collect();
        to.write_str(&numbers.join(" "))
    }
}

impl FromStr for Times {
    type Err = ParseFloatError;

    fn from_str(text: &str) -> Result<Times, ParseFloatError> {
        let numbers = text.split(' ').map(str::parse);
        numbers.collect::<Result<_, _>>().map(Times)
    }
}

fn median(mut numbers: Vec<f64>) -> f64 {
    numbers.sort_by(f64::total_cmp);
    numbers[numbers.len() / 2]
}

/// The times of each codec: this process's share of so many rounds, or as the budget allows.
pub fn take(task: Task, codecs: &[Codec], frames: &[Frame], rounds: Option<usize>) -> Vec<Times> {
    let sweep = time(task, &codecs[0], frames, 1).max(1.0);
    let sweeps = (TURN / sweep).ceil();
    let part = (COUNT as f64 * TURN / sweep).ceil() as usize;
    let within = rounds_within_budget(sweep * sweeps * codecs.len() as f64);
    let rounds = rounds.map_or(within, |rounds| rounds.div_ceil(PROCESSES));
    let mut times = vec![Vec::with_capacity(rounds); codecs.len()];
    for index in 0..rounds {
        let parts = frames.chunks(part);
        let sums = deeper(7 * index % PLACES, || {
            round(task, codecs, parts, sweeps as usize, index)
        });
        for (times, sum) in times.iter_mut().zip(sums) {
            times.push(sum / (sweeps * COUNT as f64));
        }
    }
    times.into_iter().map(Times).collect()
}

/// How many rounds a process makes of a row whose rounds take so long.
fn rounds_within_budget(round: f64) -> usize {
    if round > LONG_ROUND {
        LONG_ROUNDS
    } else {
        ((BUDGET / round) as usize).clamp(*ROUNDS.start(), *ROUNDS.end())
    }
}

/// Makes a call further down the stack, by about a hundred bytes for each unit of depth: where a
/// codec's arrays lie changes its time by some percent, so each round puts them at another place.
#[inline(never)]
fn deeper<R>(depth: usize, call: impl FnOnce() -> R) -> R {
    let mut room = [0u8; 64];
    black_box(&mut room);
    let result = match depth {
        0 => call(),
        _ => deeper(depth - 1, call),
    };
    black_box(&mut room);
    result
}

/// The time of each codec for all frames. The codecs take turns at each part of the frames, and
/// another one begins in each round.
fn round<'a>(
    task: Task,
    codecs: &[Codec],
    parts: impl Iterator<Item = &'a [Frame]>,
    sweeps: usize,
    index: usize,
) -> Vec<f64> {
    let mut sums = vec![0.0; codecs.len()];
    for frames in parts {
        for turn in 0..codecs.len() {
            let which = (index + turn) % codecs.len();
            sums[which] += time(task, &codecs[which], frames, sweeps);
        }
    }
    sums
}

/// The time of some sweeps over frames.
fn time(task: Task, codec: &Codec, frames: &[Frame], sweeps: usize) -> f64 {
    if task.changes_state() {
        return time_on_states(task, codec, frames, sweeps);
    }
    let mut room = [0; LONGEST];
    let start = thread_time();
    for _ in 0..sweeps {
        for frame in frames {
            black_box(task.call(codec, frame, &mut room));
        }
    }
    thread_time() - start
}

/// The same on a state of each frame, which is made anew before each sweep while the clock stands.
fn time_on_states(task: Task, codec: &Codec, frames: &[Frame], sweeps: usize) -> f64 {
    let mut states: Vec<Vec<u8>> = vec![vec![]; frames.len()];
    let sweep = |_| {
        let pairs = states.iter_mut().zip(frames);
        pairs.for_each(|(state, frame)| state.clone_from(&frame.held().once));
        let start = thread_time();
        for (state, frame) in states.iter_mut().zip(frames) {
            black_box(task.call(codec, frame, state));
        }
        thread_time() - start
    };
    (0..sweeps).map(sweep).sum()
}

#[repr(C)]
struct TimeSpec {
    seconds: i64,
    nanoseconds: i64,
}

extern "C" {
    fn clock_gettime(clock: i32, time: *mut TimeSpec) -> i32;
}

/// Linux's number of the clock.
const CLOCK_THREAD_CPUTIME_ID: i32 = 3;

/// The processor time of this thread, in nanoseconds.
fn thread_time() -> f64 {
    let mut time = TimeSpec {
        seconds: 0,
        nanoseconds: 0,
    };
    // SAFETY: the call writes one such struct.
    let status = unsafe { clock_gettime(CLOCK_THREAD_CPUTIME_ID, &mut time) };
    assert_eq!(status, 0, "no clock of this thread");
    time.seconds as f64 * 1e9 + time.nanoseconds as f64
}

#[cfg(test)]
mod tests {
    use super::*;

    #[test]
    fn the_middle_of_an_odd_number() {
        assert_eq!(median(vec![3.0, 1.0, 2.0]), 2.0);
        assert_eq!(median(vec![9.0, 1.0, 2.0, 4.0, 3.0]), 3.0);
    }

    #[test]
    fn longer_rounds_are_fewer() {
        let rounds = [1e6, 2e7, 1e9, 2e9].map(rounds_within_budget);
        assert_eq!(rounds, [41, 20, 5, 2]);
    }

    #[test]
    fn times_are_read_as_they_were_written() {
        let times = Times(vec![1.0, 0.1, 1e9 / 3.0]);
        assert_eq!(times.to_string().parse(), Ok(times));
    }

    #[test]
    fn quiet_rounds_are_kept() {
        let times = [
            Times(vec![5.0, 1.0, 2.0, 9.0]),
            Times(vec![1.0, 1.0, 1.0, 0.0]),
        ];
        let quiet = [Times(vec![1.0, 2.0]), Times(vec![1.0, 1.0])];
        assert_eq!(quiet_half(&times), quiet);
    }

    #[test]
    fn rounds_are_compared_one_by_one() {
        let fast = Times(vec![1.0, 10.0, 2.0]);
        let slow = Times(vec![2.0, 20.0, 3.0]);
        assert_eq!((fast.median(), slow.median()), (2.0, 3.0));
        assert_eq!(fast.ratio(&slow), 0.5);
    }
}
