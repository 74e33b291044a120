//! What the command prints.

use crate::reference::description::Code;
use crate::reference::receive::hexadecimal;
use crate::silence::search::Acceptance;

/// How many starts are named in a row.
const NAMED: usize = 4;

/// The code, and when silence is accepted under it.
pub fn own(code: &Code, accepted: Option<&Acceptance>) -> String {
    let (size, information) = (code.size(), code.information());
    let Code {
        r,
        polynomial,
        start,
        k,
        ..
    } = code;
    format!(
        "N = {size}, K = {information}, k = {k}, r = {r}, polynomial {polynomial:04x}, \
         start {start:04x}\n\
         Silence, {size} zero values, {}.\n",
        when(accepted, information + 1)
    )
}

fn when(accepted: Option<&Acceptance>, most: usize) -> String {
    let Some(Acceptance { trial, payload }) = accepted else {
        return format!("is refused (16) at every T, up to K + 1 = {most}");
    };
    let payload = hexadecimal(payload);
    match trial {
        1 => format!("is accepted on trial 1, so at every T, as payload {payload}"),
        _ => format!(
            "is accepted on trial {trial}, so at every T from {trial} on, as payload {payload}; \
             a smaller T refuses it (16)"
        ),
    }
}

/// A table of the starts by the least T at which silence is accepted with them, and what to take from
/// it; `limits` has this T for each start from 0 on, as many as were tried.
pub fn starts(code: &Code, limits: &[Option<u32>]) -> String {
    let most = code.information() as u32 + 1;
    let heading = format!("{:<12}{:>7}  the smallest\n", "least T", "starts");
    let rows = ranges(most).into_iter().map(|(low, high)| {
        let found = having(limits, |limit| {
            limit.is_some_and(|limit| (low..=high).contains(&limit))
        });
        row(&name(low, high), &found)
    });
    let never = having(limits, |limit| limit.is_none());
    [
        tried(limits.len(), 1 << code.r, most),
        heading,
        rows.collect(),
        row("never", &never),
        advice(limits, &never),
    ]
    .concat()
}

/// How many starts were tried, and where not all, what is known of the others: a trial's bits do not
/// depend on the start, and z is invertible modulo the divisor, so it passes with at most one start.
fn tried(count: usize, all: usize, most: u32) -> String {
    let of = "The same code as kind 4 with other starts";
    match count == all {
        true => format!("{of}; all {all} were tried.\n\n"),
        false => format!(
            "{of}; the {count} smallest of {all} were tried.\n\
             A trial passes with at most one start, so at most {most} of all accept silence.\n\n"
        ),
    }
}

/// The trial limits 1 to `most` in ranges: 1, 2, 3 to 4, 5 to 8 and so on.
fn ranges(most: u32) -> Vec<(u32, u32)> {
    let mut ranges = vec![(1, 1)];
    let mut high = 1;
    while high < most {
        ranges.push((high + 1, most.min(2 * high)));
        high *= 2;
    }
    ranges
}

fn name(low: u32, high: u32) -> String {
    match low == high {
        true => low.to_string(),
        false => format!("{low} to {high}"),
    }
}

/// The starts whose limit is so.
fn having(limits: &[Option<u32>], wanted: impl Fn(&Option<u32>) -> bool) -> Vec<usize> {
    let starts = 0..limits.len();
    starts.filter(|&start| wanted(&limits[start])).collect()
}

/// A row; nothing where there is no such start.
fn row(name: &str, starts: &[usize]) -> String {
    let more = if starts.len() > NAMED { " .." } else { "" };
    match starts.len() {
        0 => String::new(),
        count => format!("{name:<12}{count:>7}  {}{more}\n", smallest(starts, " ")),
    }
}

/// The smallest of these starts.
fn smallest(starts: &[usize], between: &str) -> String {
    let some = starts.iter().take(NAMED);
    let names: Vec<String> = some.map(|start| format!("{start:04x}")).collect();
    names.join(between)
}

/// Starts that never accept silence, or else those that accept it latest.
fn advice(limits: &[Option<u32>], never: &[usize]) -> String {
    if !never.is_empty() {
        let starts = smallest(never, ", ");
        return format!("\nStarts that keep silence out whatever T is: {starts}.\n");
    }
    let latest = limits.iter().flatten().max().expect("a start");
    let start = smallest(&having(limits, |limit| *limit == Some(*latest)), ", ");
    format!(
        "\nNo start tried keeps silence out whatever T is; \
         {start} does where T is below {latest}.\n"
    )
}

#[cfg(test)]
mod tests {
    use super::*;
    use crate::reference::description::describe;
    use crate::testing::paper::{D, D_WITH_START};

    fn code(d: &[u8]) -> Code {
        describe(d).expect("a code")
    }

    /// What is said of silence that a trial accepts.
    fn on_trial(trial: u32) -> String {
        let payload = vec![0x80];
        let accepted = Acceptance { trial, payload };
        own(&code(&D_WITH_START), Some(&accepted))
    }

    #[test]
    fn silence_that_is_accepted() {
        let heading = "N = 8, K = 4, k = 3, r = 1, polynomial 0001, start 0001\n";
        let first =
            "Silence, 8 zero values, is accepted on trial 1, so at every T, as payload 80.\n";
        assert_eq!(on_trial(1), [heading, first].concat());
        let second = "is accepted on trial 2, so at every T from 2 on, as payload 80; \
                      a smaller T refuses it (16).\n";
        assert!(on_trial(2).ends_with(second), "{}", on_trial(2));
    }

    #[test]
    fn silence_that_is_never_accepted() {
        let expected = "Silence, 8 zero values, is refused (16) at every T, up to K + 1 = 5.\n";
        assert!(own(&code(&D), None).ends_with(expected));
    }

    #[test]
    fn a_start_that_accepts_latest() {
        let expected = "\
The same code as kind 4 with other starts; all 2 were tried.

least T      starts  the smallest
1                 1  0000
2                 1  0001

No start tried keeps silence out whatever T is; 0001 does where T is below 2.
";
        assert_eq!(starts(&code(&D), &[Some(1), Some(2)]), expected);
    }

    #[test]
    fn starts_that_never_accept() {
        let wide = Code {
            r: 8,
            k: 6,
            ..code(&D)
        };
        let limits = [vec![Some(1), None, Some(7)], vec![None; 5]].concat();
        let expected = "\
The same code as kind 4 with other starts; the 8 smallest of 256 were tried.
A trial passes with at most one start, so at most 15 of all accept silence.

least T      starts  the smallest
1                 1  0000
5 to 8            1  0002
never             6  0001 0003 0004 0005 ..

Starts that keep silence out whatever T is: 0001, 0003, 0004, 0005.
";
        assert_eq!(starts(&wide, &limits), expected);
    }

    #[test]
    fn ranges_of_limits() {
        assert_eq!(ranges(1), [(1, 1)]);
        assert_eq!(ranges(5), [(1, 1), (2, 2), (3, 4), (5, 5)]);
        assert_eq!(ranges(8), [(1, 1), (2, 2), (3, 4), (5, 8)]);
    }
}
