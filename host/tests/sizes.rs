//! The largest n stands in one place of each language, and what follows from it is named and not
//! spelt out.

use host::reference::description::{record, LONGEST_DESCRIPTION};
use host::reference::sizes::{
    HEARING_SIZE, LARGEST_N, LAYERS, LONGEST, LONGEST_BYTES, MOST_STEPS, MOST_TRIALS,
};
use host::testing::files::{below, text};

/// The largest n, the longest code, its mask, its steps and trials, the longest description of each
/// kind, and a hearing's state, as they could be spelt out.
fn spellings() -> Vec<String> {
    let least = LAYERS.start();
    let sizes = [
        LONGEST_BYTES,
        record(LARGEST_N, 1, 1, &[true; LONGEST]).len(),
        LONGEST_DESCRIPTION,
        LONGEST - 1,
        LONGEST,
        MOST_TRIALS,
        MOST_STEPS,
        MOST_TRIALS * MOST_STEPS,
        HEARING_SIZE,
    ];
    let mut spellings: Vec<String> = sizes.iter().map(usize::to_string).collect();
    spellings.extend([
        format!("{least} {LARGEST_N}"),
        format!("{least}, {LARGEST_N}"),
        format!("≤ {LARGEST_N}"),
        format!("..={LARGEST_N}"),
        format!("{LARGEST_N} * 2 ^"),
        format!("2 ^ {LARGEST_N}"),
        format!("2 ^ {}", LARGEST_N - 1),
    ]);
    spellings
}

/// Lines that may say so: where their path starts, and what they have.
const ALLOWED: [(&str, &str); 14] = [
    // the one place of each language, and this test
    ("crates/arrays/src/lib.rt", ""),
    ("crates/arrays/specs/Sizes.antt", ""),
    ("host/src/reference/sizes.rs", ""),
    ("host/tests/sizes.rs", ""),
    // the largest trial limit where sets may have two indices
    ("crates/decoder/", "512"),
    ("crates/sets_decoder/", "512"),
    ("crates/decoder_demands/proofs/", "512"),
    ("crates/vectors/proofs/Sets.antt", "512"),
    ("host/src/reference/sets.rs", "LIMITS_OF_SETS: "),
    ("host/bench/plain/sets.h", "MOST_LIMIT = 512"),
    ("host/plain/src/sets.rs", "MOST_LIMIT: usize = 512"),
    ("host/tests/", "no set passes, w = 2, T = 512"),
    // other codes and other things
    ("host/src/simulation.rs", "k: 512"),
    ("host/tests/receive.rs", "PAGE: usize = 4_096"),
];

/// A line without the marks that may stand between digits.
fn plain(line: &str) -> String {
    let chars: Vec<char> = line.chars().collect();
    let is_digit = |index: usize| chars.get(index).is_some_and(char::is_ascii_digit);
    let is_mark = |index: usize| {
        index > 0 && "_,".contains(chars[index]) && is_digit(index - 1) && is_digit(index + 1)
    };
    let kept = (0..chars.len()).filter(|&index| !is_mark(index));
    kept.map(|index| chars[index]).collect()
}

/// A number from 1,000 on with a mark between its digits.
fn with_mark(number: usize, mark: char) -> String {
    format!("{}{mark}{:03}", number / 1000, number % 1000)
}

/// Whether a line has a text that is no part of a longer word or number.
fn has(line: &str, text: &str) -> bool {
    let is_part = |c: char| c.is_alphanumeric() || c == '_';
    line.match_indices(text).any(|(start, _)| {
        let mut after = line[start + text.len()..].chars();
        let next = after.next().unwrap_or(' ');
        let is_float = next == '.' && after.next().is_some_and(|c| c.is_ascii_digit());
        !line[..start].ends_with(is_part) && !is_part(next) && !is_float
    })
}

/// Which of these a line spells out, if its file may not.
fn spelt<'a>(spellings: &'a [String], path: &str, line: &str) -> Option<&'a str> {
    let allows = |(start, text): &(&str, &str)| path.starts_with(start) && line.contains(text);
    let line_is_allowed = ALLOWED.iter().any(allows);
    let plain = plain(line);
    let found = spellings.iter().find(|text| has(&plain, text));
    found.filter(|_| !line_is_allowed).map(String::as_str)
}

/// The files below a folder whose names have one of these ends, as paths from the repository.
fn files(folder: &str, ends: &[&str]) -> Vec<String> {
    let has_end = |path: &String| {
        let (_, of) = path.rsplit_once('.').unwrap_or_default();
        ends.contains(&of)
    };
    below(folder).into_iter().filter(has_end).collect()
}

#[test]
fn sizes_are_named_and_not_spelt_out() {
    let mut paths = files("crates", &["rt", "antt"]);
    for folder in ["src", "tests", "plain", "bench"] {
        paths.extend(files(&format!("host/{folder}"), &["rs", "c", "h"]));
    }
    let spellings = spellings();
    let mut found = Vec::new();
    for path in paths {
        for (index, line) in text(&path).lines().enumerate() {
            if let Some(spelt) = spelt(&spellings, &path, line) {
                found.push(format!(
                    "{path}:{} spells `{spelt}`: {}",
                    index + 1,
                    line.trim()
                ));
            }
        }
    }
    assert!(
        found.is_empty(),
        "name these as crates/arrays or host/src/reference/sizes.rs do, or allow them in host/tests/sizes.rs \
         where they mean something else:\n{}",
        found.join("\n")
    );
}

#[test]
fn the_largest_n_is_the_same_everywhere() {
    let with_comma = with_mark(LONGEST, ',');
    let least = LAYERS.start();
    let said = [
        (
            "crates/arrays/src/lib.rt",
            format!("LARGEST_N: u32 = {LARGEST_N};"),
        ),
        (
            "crates/arrays/specs/Sizes.antt",
            format!("largest_n = {LARGEST_N}\n"),
        ),
        (
            "host/plain/src/lib.rs",
            format!("LARGEST_N: u8 = {LARGEST_N};"),
        ),
        (
            "host/bench/plain/code.h",
            format!("#define LARGEST_N {LARGEST_N}\n"),
        ),
        (
            "include/polar.h",
            format!("n outside {least}..{LARGEST_N}\n"),
        ),
        ("include/polar.h", format!("at most {with_comma};")),
        (
            "include/polar.h",
            format!("at most {LONGEST_DESCRIPTION} bytes"),
        ),
        ("README.md", format!("n lies outside {least}..{LARGEST_N} ")),
    ];
    for (path, words) in said {
        assert!(text(path).contains(&words), "{path} does not say `{words}`");
    }
}

#[test]
fn what_is_spelt_is_found() {
    let spellings = spellings();
    let found = |path, line: &str| spelt(&spellings, path, line).is_some();
    let (proof, marked) = ("crates/pass/proofs/A.antt", with_mark(LONGEST, '_'));
    for line in [
        format!("length mask ≤ {LONGEST_BYTES}"),
        format!("[0; {marked}]"),
        format!("at most {} bits", with_mark(LONGEST, ',')),
        format!("inside n {} {LARGEST_N}", LAYERS.start()),
        format!("n ≤ {LARGEST_N}"),
    ] {
        assert!(found(proof, &line), "{line}");
        assert!(!found("crates/arrays/src/lib.rt", &line), "{line}");
    }
    for line in [
        format!("≤ {}2", LARGEST_N),
        format!("{LONGEST}.0"),
        format!("x{LONGEST}"),
        format!("1{} {LARGEST_N}", LAYERS.start()),
    ] {
        assert!(!found(proof, &line), "{line}");
    }
}
