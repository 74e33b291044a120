//! What a decoder answers for a frame, sums of it over frames, and the threads that make them.

use std::array::from_fn;
use std::ops::Range;
use std::thread;

/// Refusal 16: all trials fail.
const ALL_FAILED: u64 = 16;

/// A decoder's answer: the payload, or none where all trials failed.
#[derive(Clone, Debug, PartialEq, Eq)]
pub struct Outcome {
    pub payload: Option<Vec<u8>>,
    pub trials: u64,
    pub steps: u64,
}

impl Outcome {
    /// From the number that the library gave, and what it wrote.
    pub fn of(answer: u64, payload: Vec<u8>) -> Outcome {
        let refusal = answer & 0xFF;
        assert!(refusal == 0 || refusal == ALL_FAILED, "refusal {refusal}");
        Outcome {
            payload: (refusal == 0).then_some(payload),
            trials: answer >> 8 & 0xFF_FFFF,
            steps: answer >> 32,
        }
    }
}

/// The sums over frames of one decoder. An error is a frame that is refused, or accepted with
/// another payload than was sent; the latter are the undetected ones.
#[derive(Clone, Copy, Debug, Default, PartialEq, Eq)]
pub struct Tally {
    pub frames: u64,
    pub errors: u64,
    pub undetected: u64,
    pub trials: u64,
    pub steps: u64,
}

impl Tally {
    pub fn of(outcome: &Outcome, sent: &[u8]) -> Tally {
        let payload = outcome.payload.as_deref();
        Tally {
            frames: 1,
            errors: u64::from(payload != Some(sent)),
            undetected: u64::from(payload.is_some_and(|payload| payload != sent)),
            trials: outcome.trials,
            steps: outcome.steps,
        }
    }

    /// A sum's part for one frame.
    pub fn mean(&self, sum: u64) -> f64 {
        sum as f64 / self.frames as f64
    }

    pub fn error_rate(&self) -> f64 {
        self.mean(self.errors)
    }
}

/// What can be added up.
pub trait Plus {
    fn plus(self, other: Self) -> Self;
}

impl Plus for Tally {
    fn plus(self, other: Tally) -> Tally {
        Tally {
            frames: self.frames + other.frames,
            errors: self.errors + other.errors,
            undetected: self.undetected + other.undetected,
            trials: self.trials + other.trials,
            steps: self.steps + other.steps,
        }
    }
}

impl<S: Plus + Copy, const COUNT: usize> Plus for [S; COUNT] {
    fn plus(self, other: Self) -> Self {
        from_fn(|place| self[place].plus(other[place]))
    }
}

/// Deals frames out to threads, and adds up what each frame gives. There is a frame at least.
pub fn sum<S: Plus + Send>(
    frames: Range<u64>,
    threads: u64,
    of_frame: impl Fn(u64) -> S + Sync,
) -> S {
    let part = |thread: u64| {
        let dealt = (frames.start + thread..frames.end).step_by(threads as usize);
        dealt.map(&of_frame).reduce(S::plus)
    };
    let part = &part;
    thread::scope(|scope| {
        let running: Vec<_> = (0..threads)
            .map(|thread| scope.spawn(move || part(thread)))
            .collect();
        let parts = running.into_iter().map(|thread| thread.join());
        parts
            .filter_map(|part| part.expect("a thread that ends"))
            .reduce(S::plus)
            .expect("a frame")
    })
}
