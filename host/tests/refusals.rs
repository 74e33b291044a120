//! The refusals as README.md and include/polar.h list them are those of documents 01 and 02, in their
//! order.

use host::reference::description::REFUSALS as DESCRIPTION;
use host::testing::files::text;

/// Words of the documents for each refusal; of the codec's own those of README.md.
const WORDS: [(usize, &str); 28] = [
    (
        1,
        "fewer than 8 bytes, or fewer than 10 where bytes 2 and 3 say kind 4",
    ),
    (2, "length field"),
    (3, "neither 1 nor 4"),
    (4, "outside 3.."),
    (5, "not 8 + N/8, or of kind 4 not 10 + N/8"),
    (6, "outside 1..16"),
    (7, "polynomial bit 0"),
    (8, "less than r + 1"),
    (9, "not ceil(k/8) bytes"),
    (10, "unused payload bit"),
    (11, "not N/8 bytes"),
    (12, "channel length"),
    (13, "outside -31..31"),
    (14, "outside 1..K + 1"),
    (15, "not ceil(k/8) bytes"),
    (16, "the steps made"),
    (17, "longer than N"),
    (18, "or a 1 at a frozen index"),
    (19, "not N bytes"),
    (20, "lengths differ"),
    (21, "finite and above zero"),
    (22, "not a number"),
    (23, "is held"),
    (24, "shorter than 6 bytes"),
    (25, "start bit at r or above"),
    (26, "outside 1..3"),
    (27, "the count is 255"),
    (40, "no list of calls leaves"),
];

/// The refusals of each operation, after those of a description, in their order.
const ENCODE: [usize; 3] = [9, 10, 11];
const RESUME: [usize; 5] = [12, 13, 17, 18, 19];
const DECODERS: [usize; 5] = [12, 13, 14, 15, 16];
const SET_DECODERS: [usize; 6] = [12, 13, 26, 14, 15, 16];
const QUANTISER: [usize; 3] = [20, 21, 22];
const RECEIVE: [usize; 2] = [23, 24];

/// The refusals of each call on a hearing, in their order; `open` has those of a description after its
/// own.
const HEARING_OPEN: [usize; 1] = [40];
const HEARING_ADD: [usize; 4] = [40, 12, 13, 27];
const HEARING_CLEAR: [usize; 1] = [40];
const HEARING_DECODERS: [usize; 4] = [40, 14, 15, 16];
const HEARING_PREVIEW: [usize; 7] = [40, 12, 13, 27, 14, 15, 16];

/// These carry the first index at fault.
const WITH_INDEX: [usize; 3] = [13, 18, 22];

/// That a text about a refusal says what its document says.
fn check(number: usize, text: &str) {
    let entry = WORDS.iter().find(|(of, _)| *of == number);
    let (_, words) = entry.unwrap_or_else(|| panic!("no refusal {number}"));
    assert!(text.contains(words), "{number}: `{text}` has no `{words}`");
    let has_index = text.contains("with its first index");
    assert_eq!(has_index, WITH_INDEX.contains(&number), "{number}: {text}");
}

/// The operations that give a refusal, as README.md names them.
fn givers(number: usize) -> String {
    if DESCRIPTION.contains(&number) {
        return "all".to_string();
    }
    let hearings = [&HEARING_ADD[..], &HEARING_DECODERS].concat();
    let operations: [(&str, &[usize]); 7] = [
        ("encode", &ENCODE),
        ("resume", &RESUME),
        ("decoders", &DECODERS),
        ("decoders with flip sets", &[26]),
        ("hearings", &hearings),
        ("quantiser", &QUANTISER),
        ("`receive`", &RECEIVE),
    ];
    let of = operations.iter().filter(|(_, of)| of.contains(&number));
    of.map(|(name, _)| *name).collect::<Vec<_>>().join(", ")
}

/// The comment before a function of the header, in one line.
fn comment(header: &str, function: &str) -> String {
    let before = header.split(&format!("{function}(")).next();
    let comment = before.and_then(|before| before.rsplit("/*").next());
    let comment = comment.and_then(|comment| comment.split("*/").next());
    let lines = comment.unwrap_or_default().lines();
    let words = lines.map(|line| line.trim().trim_start_matches("* "));
    words.collect::<Vec<_>>().join(" ")
}

/// The refusals in a comment of the header, after those of a description; those with words are held
/// to them.
fn listed(comment: &str) -> Vec<usize> {
    let (_, list) = comment
        .split_once("Refusals of the description")
        .expect("refusals");
    let (known, others) = list.split_once("then").expect("refusals of its own");
    let known = known
        .split(',')
        .filter_map(|number| number.trim().parse().ok());
    let mut numbers: Vec<usize> = known.collect();
    for entry in others.split(';') {
        let (number, words) = entry.trim().split_once(' ').expect("a number and words");
        let number = number.parse().expect("a number");
        check(number, words);
        numbers.push(number);
    }
    numbers
}

#[test]
fn readme() {
    let text = text("README.md");
    let (_, table) = text
        .split_once("| number | refused if | by |")
        .expect("a table");
    let rows = table
        .lines()
        .skip(2)
        .take_while(|line| line.starts_with('|'));
    let rows: Vec<&str> = rows.collect();
    assert_eq!(rows.len(), WORDS.len());
    for (row, (number, _)) in rows.into_iter().zip(WORDS) {
        let cells: Vec<&str> = row.split('|').map(str::trim).collect();
        assert_eq!(cells[1], number.to_string(), "{row}");
        check(number, cells[2]);
        assert_eq!(cells[3], givers(number), "{row}");
    }
    assert_eq!(DESCRIPTION, [1, 2, 3, 4, 5, 6, 7, 25, 8]);
    assert!(text.contains("Their order is 1 to 7, then 25, then 8,"));
}

/// One on each line, in their order.
#[test]
fn descriptions_in_the_header() {
    let header = text("include/polar.h");
    let (_, list) = header
        .split_once("come first, in this order:\n")
        .expect("a list");
    let entries: Vec<&str> = list.lines().take(DESCRIPTION.len()).collect();
    assert_eq!(entries.len(), DESCRIPTION.len());
    for (entry, number) in entries.into_iter().zip(DESCRIPTION) {
        let words = entry.strip_prefix(&format!(" *   {number:<3}"));
        check(number, words.unwrap_or_else(|| panic!("{number}: {entry}")));
    }
}

#[test]
fn operations_in_the_header() {
    let header = text("include/polar.h");
    let of = |function: &str| listed(&comment(&header, function));
    assert_eq!(of("polar_encode"), ENCODE);
    assert_eq!(of("polar_resume"), RESUME);
    for restart in ["full", "half", "restarted"] {
        assert_eq!(of(&format!("polar_decode_{restart}")), DECODERS);
        assert_eq!(of(&format!("polar_decode_sets_{restart}")), SET_DECODERS);
    }
}

/// The refusals that the paragraph of a call on a hearing lists, and what stands after "then".
fn listed_for_hearing<'a>(comment: &'a str, start: &str) -> (Vec<usize>, &'a str) {
    let mut paragraphs = comment.split(" * ");
    let paragraph = paragraphs.find(|paragraph| paragraph.trim_start().starts_with(start));
    let paragraph = paragraph.unwrap_or_else(|| panic!("no paragraph `{start}`"));
    let list = paragraph.split("Refusal").nth(1).expect("refusals");
    let (_, list) = list.split_once(": ").expect("a list");
    let (numbers, own) = list.split_once("then").unwrap_or((list, ""));
    let numbers = numbers.trim().trim_end_matches(['.', ',']).split(", ");
    let numbers = numbers.map(|number| number.parse().expect("a number"));
    (numbers.collect(), own.trim())
}

/// One comment for all, with a paragraph for each call.
#[test]
fn hearings_in_the_header() {
    let header = text("include/polar.h");
    let comment = comment(&header, "polar_hearing_open");
    assert!(comment.contains("Refusal 40 comes before all others"));
    assert!(comment.contains("40 state not POLAR_HEARING_SIZE bytes"));
    assert!(comment.contains("one that no list of calls leaves"));
    let of = |start| listed_for_hearing(&comment, start);
    let (numbers, own) = of("open makes");
    assert_eq!(numbers, HEARING_OPEN);
    assert!(own.starts_with("those of the description"), "{own}");
    let (mut numbers, own) = of("add adds");
    let (number, words) = own.split_once(' ').expect("a number and words");
    numbers.push(number.parse().expect("a number"));
    assert_eq!(numbers, HEARING_ADD);
    check(27, words);
    assert_eq!(of("clear returns"), (HEARING_CLEAR.to_vec(), ""));
    let decoders = of("decode_full and decode_restarted");
    assert_eq!(decoders, (HEARING_DECODERS.to_vec(), ""));
    assert_eq!(of("preview tries"), (HEARING_PREVIEW.to_vec(), ""));
}
