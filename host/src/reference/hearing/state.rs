//! The state of a hearing, as bytes that C lends. Their layout is the codec's own, and
//! docs/DECISIONS.md has it: the description, then zeros up to the longest one; the count; the values
//! as bytes in two's complement, then zeros up to the longest code. Refusal 40 comes before all
//! others: another number of bytes, or, where a hearing is read, bytes that no list of calls leaves.

use crate::reference::channel::read_channel;
use crate::reference::description::{word, LONGEST_DESCRIPTION};
use crate::reference::flip::Accepted;
use crate::reference::hearing::Hearing;
use crate::reference::refusal::Refusal;
use crate::reference::restart::Restart;
use crate::reference::sizes::HEARING_SIZE;

impl Hearing {
    pub fn to_bytes(&self) -> Vec<u8> {
        let mut state = self.description.clone();
        state.resize(LONGEST_DESCRIPTION, 0);
        state.push(self.count.try_into().expect("a count"));
        state.extend(self.channel());
        state.resize(HEARING_SIZE, 0);
        state
    }

    pub fn from_bytes(state: &[u8]) -> Result<Hearing, Refusal> {
        check_size(state)?;
        let hearing = read(state).filter(|hearing| hearing.to_bytes() == state);
        hearing
            .filter(Hearing::is_left_by_calls)
            .ok_or(Refusal::Number(40))
    }

    /// With count 0 the values are zero, after opening and after clearing. Other counts have any
    /// values: those of the last vector, where all before it were zeros.
    fn is_left_by_calls(&self) -> bool {
        self.count > 0 || self.values.iter().all(|&value| value == 0)
    }
}

/// What bytes say, whatever stands between the parts; nothing where a description or a value is
/// refused.
fn read(state: &[u8]) -> Option<Hearing> {
    let (description, rest) = state.split_at(LONGEST_DESCRIPTION);
    let length = usize::from(word(description, 0));
    let fresh = Hearing::open(description.get(..length)?).ok()?;
    let size = fresh.values.len();
    Some(Hearing {
        count: rest[0].into(),
        values: read_channel(&rest[1..=size], size).ok()?,
        ..fresh
    })
}

fn check_size(state: &[u8]) -> Result<(), Refusal> {
    match state.len() {
        HEARING_SIZE => Ok(()),
        _ => Err(Refusal::Number(40)),
    }
}

/// Writes a fresh hearing, whatever the state was. Gives the count, as the calls below that change a
/// state; a refusal changes nothing.
pub fn open_in(description: &[u8], state: &mut [u8]) -> Result<usize, Refusal> {
    check_size(state)?;
    let hearing = Hearing::open(description)?;
    state.copy_from_slice(&hearing.to_bytes());
    Ok(hearing.count)
}

pub fn add_in(state: &mut [u8], channel: &[u8]) -> Result<usize, Refusal> {
    let mut hearing = Hearing::from_bytes(state)?;
    hearing.add(channel)?;
    state.copy_from_slice(&hearing.to_bytes());
    Ok(hearing.count)
}

pub fn clear_in(state: &mut [u8]) -> Result<usize, Refusal> {
    let mut hearing = Hearing::from_bytes(state)?;
    hearing.clear();
    state.copy_from_slice(&hearing.to_bytes());
    Ok(hearing.count)
}

/// Writes the packed payload; a refusal writes nothing.
pub fn decode_in(
    restart: Restart,
    state: &[u8],
    limit: u32,
    output: &mut [u8],
) -> Result<Accepted, Refusal> {
    Hearing::from_bytes(state)?.decode(restart, limit, output)
}

/// Writes the packed payload; a refusal writes nothing.
pub fn preview_in(
    state: &[u8],
    channel: &[u8],
    limit: u32,
    output: &mut [u8],
) -> Result<Accepted, Refusal> {
    Hearing::from_bytes(state)?.preview(channel, limit, output)
}

#[cfg(test)]
mod tests {
    use super::*;
    use crate::reference::description::record_with_start;
    use crate::reference::hearing::MOST_HEARINGS;
    use crate::reference::sizes::{LARGEST_N, LAYERS, LONGEST};
    use crate::testing::paper::{D, D_WITH_START, RIGHT, V};
    use crate::testing::samples;

    const COUNT: usize = LONGEST_DESCRIPTION;
    const VALUES: usize = COUNT + 1;

    /// The state of a hearing of these values.
    fn state(description: &[u8], values: &[i64], count: usize) -> Vec<u8> {
        let hearing = Hearing {
            description: description.to_vec(),
            values: values.to_vec(),
            count,
        };
        hearing.to_bytes()
    }

    /// D after V.
    fn d_after_v() -> Vec<u8> {
        state(&D, &[-1, 3, 2, 2, -2, -2, 3, 2], 1)
    }

    fn with(state: &[u8], place: usize, byte: u8) -> Vec<u8> {
        let mut state = state.to_vec();
        state[place] = byte;
        state
    }

    fn refused(state: &[u8]) {
        assert_eq!(Hearing::from_bytes(state), Err(Refusal::Number(40)));
    }

    /// That these bytes are a hearing whose calls go on from them.
    fn accepted(state: &[u8]) {
        let hearing = Hearing::from_bytes(state).expect("a hearing");
        assert_eq!(hearing.to_bytes(), state);
        assert_eq!(replayed(&hearing), hearing);
    }

    /// What calls leave that are to leave this hearing.
    fn replayed(hearing: &Hearing) -> Hearing {
        let mut replayed = Hearing::open(&hearing.description).expect("a hearing");
        let (zeros, last) = (vec![0; hearing.values.len()], hearing.channel());
        for count in 1..=hearing.count {
            let is_last = count == hearing.count;
            let vector = if is_last { &last } else { &zeros };
            assert_eq!(replayed.add(vector), Ok(count));
        }
        replayed
    }

    #[test]
    fn the_parts_have_their_places() {
        let state = d_after_v();
        assert_eq!(state.len(), HEARING_SIZE);
        assert_eq!(state[..9], D);
        assert_eq!(state[9..COUNT], [0; COUNT - 9]);
        assert_eq!(state[COUNT], 1);
        assert_eq!(state[VALUES..VALUES + 8], V);
        assert_eq!(state[VALUES + 8..], [0; LONGEST - 8]);
        accepted(&state);
    }

    #[test]
    fn the_longest_code_fills_the_state() {
        let longest = record_with_start(LARGEST_N, 16, 0x8005, 0xFFFF, &[true; LONGEST]);
        let state = state(&longest, &[-31; LONGEST], MOST_HEARINGS);
        assert_eq!(state[..COUNT], longest);
        assert_eq!(state[COUNT], 255);
        assert!(state[VALUES..].iter().all(|&byte| byte == 0xE1));
        accepted(&state);
    }

    #[test]
    fn other_sizes_are_refused() {
        let state = d_after_v();
        for size in [0, 1, 9, VALUES + 8, HEARING_SIZE - 1] {
            refused(&state[..size]);
        }
        refused(&[&state[..], &[0]].concat());
        refused(&[&state[..], &state].concat());
    }

    #[test]
    fn zeros_and_ones_are_refused() {
        refused(&[0; HEARING_SIZE]);
        refused(&[0xFF; HEARING_SIZE]);
    }

    #[test]
    fn descriptions_that_are_refused() {
        let state = d_after_v();
        for (place, byte) in [
            (0, 8),
            (0, 10),
            (1, 1),
            (2, 4),
            (4, 4),
            (5, 0),
            (6, 0),
            (8, 8),
        ] {
            refused(&with(&state, place, byte));
        }
        let with_start = state_of_d_with_start();
        refused(&with(&with_start, 8, 2));
        refused(&with(&with_start, 2, 1));
        accepted(&with(&with_start, 8, 0));
        accepted(&with(&state, 8, 0xFF));
    }

    fn state_of_d_with_start() -> Vec<u8> {
        state(&D_WITH_START, &[31; 8], 2)
    }

    /// Values from −31 to 31 are those of some vector; where the count is 0, only zero is.
    #[test]
    fn values_and_counts() {
        let state = d_after_v();
        for byte in 0..=255 {
            let changed = with(&state, VALUES + 7, byte);
            match byte {
                0..=31 | 225.. => accepted(&changed),
                _ => refused(&changed),
            }
            match byte {
                0 => refused(&with(&state, COUNT, byte)),
                _ => accepted(&with(&state, COUNT, byte)),
            }
        }
    }

    #[test]
    fn zeros_have_any_count() {
        let fresh = state(&D, &[0; 8], 0);
        for count in 0..=255 {
            accepted(&with(&fresh, COUNT, count));
        }
        refused(&with(&fresh, VALUES, 1));
        refused(&with(&fresh, VALUES + 7, 255));
    }

    #[test]
    fn nothing_stands_between_the_parts() {
        for (state, length) in [(d_after_v(), 9), (state_of_d_with_start(), 11)] {
            for place in (length..COUNT).chain(VALUES + 8..HEARING_SIZE) {
                refused(&with(&state, place, 1));
            }
        }
    }

    /// Calls on a state are those on its hearing, and what they leave is a state.
    #[test]
    fn lists_of_calls() {
        samples::for_descriptions(2, LAYERS, 8, |random, d, code| {
            let mut state = random.bytes(HEARING_SIZE);
            assert_eq!(open_in(d, &mut state), Ok(0));
            let mut hearing = Hearing::open(d).expect("a hearing");
            for _ in 0..20 {
                assert_eq!(state, hearing.to_bytes());
                assert_eq!(Hearing::from_bytes(&state), Ok(hearing.clone()));
                if random.below(8) == 0 {
                    hearing.clear();
                    assert_eq!(clear_in(&mut state), Ok(0));
                }
                let mut channel = samples::channel(random, code.size(), 31);
                samples::spoil_channel(random, &mut channel);
                assert_eq!(add_in(&mut state, &channel), hearing.add(&channel));
            }
        });
    }

    /// Right signs would settle V; then they do.
    #[test]
    fn a_preview_and_the_add() {
        let mut state = d_after_v();
        let [mut tried, mut decoded] = [[0xEE]; 2];
        let answer = preview_in(&state, &RIGHT, 1, &mut tried);
        assert_eq!(answer.map(|accepted| accepted.trial), Ok(1));
        assert_eq!(add_in(&mut state, &RIGHT), Ok(2));
        let by = Restart::AfterFlip;
        assert_eq!(decode_in(by, &state, 1, &mut decoded), answer);
        assert_eq!([tried, decoded], [[0xA0]; 2]);
    }

    /// Before all others, with nothing changed; `open_in` alone takes any bytes.
    #[test]
    fn refusal_40_comes_first() {
        let damaged = with(&d_after_v(), COUNT, 0);
        let short = d_after_v()[1..].to_vec();
        for before in [damaged.clone(), short.clone()] {
            let mut state = before.clone();
            assert_eq!(add_in(&mut state, &[0x80; 7]), Err(Refusal::Number(40)));
            assert_eq!(clear_in(&mut state), Err(Refusal::Number(40)));
            let decoded = decode_in(Restart::Full, &state, 0, &mut []);
            assert_eq!(decoded, Err(Refusal::Number(40)));
            let previewed = preview_in(&state, &[0x80; 7], 0, &mut []);
            assert_eq!(previewed, Err(Refusal::Number(40)));
            assert_eq!(state, before);
        }
        let mut state = short;
        assert_eq!(open_in(&D[..3], &mut state), Err(Refusal::Number(40)));
        let mut state = damaged;
        assert_eq!(open_in(&D[..3], &mut state), Err(Refusal::Number(1)));
        assert_eq!(open_in(&D, &mut state), Ok(0));
        accepted(&state);
    }
}
