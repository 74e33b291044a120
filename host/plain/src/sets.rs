//! Flip decoding with sets of up to three indices, full, with half restart and restarted.

use crate::answer::{number, refuse_if, Answer};
use crate::code::{check_channel, Code};
use crate::decode::{accepts, Restart};
use crate::message::pack;
use crate::pass::Pass;
use crate::{LARGEST_N, SIZE};

const MOST_FLIPS: usize = 3;
const MOST_LIMIT: usize = 512;
const DOUBTFUL: u64 = 20;
const PENALTY: u64 = 6;

/// Declares a decoder, which writes the packed payload.
macro_rules! decoder {
    ($name:ident, $restart:ident) => {
        pub fn $name(
            description: &[u8],
            channel: &[u8],
            most_flips: u32,
            limit: u32,
            payload: &mut [u8],
        ) -> u64 {
            let plan = Plan::new(most_flips, limit, Restart::$restart);
            number(try_decode(description, channel, plan, payload))
        }
    };
}

decoder!(decode_sets_full, Full);
decoder!(decode_sets_half, Half);
decoder!(decode_sets_restarted, Restarted);

/// How a frame is decoded.
struct Plan {
    most_flips: usize,
    limit: usize,
    restart: Restart,
}

impl Plan {
    fn new(most_flips: u32, limit: u32, restart: Restart) -> Self {
        Plan {
            most_flips: most_flips as usize,
            limit: limit as usize,
            restart,
        }
    }

    /// Refusals 26 and 14.
    fn check(&self, code: &Code) -> Result<(), u64> {
        refuse_if(self.most_flips < 1 || self.most_flips > MOST_FLIPS, 26)?;
        let most = match self.most_flips {
            1 => code.information() + 1,
            _ => MOST_LIMIT,
        };
        refuse_if(self.limit < 1 || self.limit > most, 14)
    }
}

/// A set's key has its metric, then a field for each of three indices, the first in the highest
/// bits, with one more than the index, or 0 where there is none. Keys compare as sets do: by metric,
/// then by the indices from the first on.
const FIELD: usize = LARGEST_N as usize + 1;
const FIELDS: usize = MOST_FLIPS * FIELD;

#[derive(Default)]
struct Set {
    indices: [usize; MOST_FLIPS],
    count: usize,
    key: u64,
}

impl Set {
    fn of(key: u64) -> Self {
        let mut set = Set {
            key,
            ..Set::default()
        };
        for place in (0..MOST_FLIPS).rev() {
            let field = (key >> (place * FIELD)) as usize % (2 * SIZE);
            if field > 0 {
                set.indices[set.count] = field - 1;
                set.count += 1;
            }
        }
        set
    }

    fn indices(&self) -> &[usize] {
        &self.indices[..self.count]
    }
}

/// The sets of later trials, ascending, in room for as many as there may be: those tried, then
/// untried ones.
struct Queue {
    keys: [u64; SIZE],
    tried: usize,
    count: usize,
    room: usize,
}

impl Queue {
    fn new(room: usize) -> Self {
        Queue {
            keys: [0; SIZE],
            tried: 0,
            count: 0,
            room,
        }
    }

    /// Puts a key into its place among the untried ones. In a full room the last one gives way, or
    /// the key is turned away.
    fn insert(&mut self, key: u64) {
        if self.count == self.room {
            if key >= self.keys[self.count - 1] {
                return;
            }
        } else {
            self.count += 1;
        }
        let mut place = self.count - 1;
        while place > self.tried && self.keys[place - 1] > key {
            self.keys[place] = self.keys[place - 1];
            place -= 1;
        }
        self.keys[place] = key;
    }

    /// Adds the sets with one information index more, above the others, by the leaf values of the
    /// set's trial. Up to its largest index these are those of the trial that gave it its metric.
    fn extend(&mut self, pass: &Pass, size: usize, set: &Set) {
        let mut metric = set.key >> FIELDS;
        let fields = set.key % (1 << FIELDS);
        let shift = (MOST_FLIPS - 1 - set.count) * FIELD;
        let from = set.indices().last().map_or(0, |largest| largest + 1);
        let leaves = pass.leaves[..size].iter().zip(&pass.rules);
        for (index, (leaf, rule)) in leaves.enumerate().skip(from) {
            if *rule == 0 {
                continue;
            }
            let magnitude = u64::from(leaf.unsigned_abs());
            metric += if magnitude <= DOUBTFUL { PENALTY } else { 0 };
            self.insert((metric + magnitude) << FIELDS | fields | (index as u64 + 1) << shift);
        }
    }

    /// The set of the next trial, after the one that failed.
    fn next(&mut self, pass: &Pass, size: usize, most_flips: usize, set: &Set) -> Option<Set> {
        if set.count < most_flips {
            self.extend(pass, size, set);
        }
        if self.tried == self.count {
            return None;
        }
        self.tried += 1;
        Some(Set::of(self.keys[self.tried - 1]))
    }
}

fn try_decode(description: &[u8], channel: &[u8], plan: Plan, payload: &mut [u8]) -> Answer {
    let code = Code::read(description)?;
    check_channel(&code, channel)?;
    plan.check(&code)?;
    refuse_if(payload.len() != code.k.div_ceil(8), 15)?;
    let mut pass = Pass::new(&code);
    let mut message = [0; SIZE];
    let (trial, passes) = make_trials(&mut pass, &code, channel, &plan, &mut message);
    let made = ((trial as u64) << 8) + ((pass.steps as u64) << 32);
    if !passes {
        return Err(16 + made);
    }
    pack(&message[..code.k], payload);
    Ok(made)
}

/// Makes trials until one passes, and leaves the last one's message; gives its number, and whether it
/// passes.
fn make_trials(
    pass: &mut Pass,
    code: &Code,
    channel: &[u8],
    plan: &Plan,
    message: &mut [u8; SIZE],
) -> (usize, bool) {
    pass.run(channel, 0);
    if accepts(code, pass, message) {
        return (1, true);
    }
    if plan.limit == 1 {
        return (1, false);
    }
    let first = pass.bits;
    let mut queue = Queue::new(plan.limit - 1);
    let mut set = Set::default();
    for trial in 2..=plan.limit {
        let Some(next) = queue.next(pass, code.size, plan.most_flips, &set) else {
            return (trial - 1, false);
        };
        set = next;
        later_trial(pass, code, channel, plan, &first, &set);
        if accepts(code, pass, message) {
            return (trial, true);
        }
    }
    (plan.limit, false)
}

fn later_trial(
    pass: &mut Pass,
    code: &Code,
    channel: &[u8],
    plan: &Plan,
    first: &[u8; SIZE],
    set: &Set,
) {
    let q = plan.restart.force(pass, code, first, set.indices[0]);
    for &index in set.indices() {
        pass.rules[index] = 3;
    }
    pass.run(channel, q);
    for &index in set.indices() {
        pass.rules[index] = 1;
    }
}
