//! What asks for the definitions that are to be believed, and how many lines each of these may have.
//!
//! A file belongs to what its first comment names first, "document 01" or "document 02, request 2.N".

use std::collections::BTreeMap;
use std::fmt::{self, Display, Formatter};
use std::ops::RangeInclusive;

use crate::testing::belief::name::Place;
use crate::testing::belief::spec::Spec;

/// The most lines of document 01 and of requests 2.1 to 2.7 together.
const BASE: usize = 800;

/// The requests of document 02, by what follows "2.".
const REQUESTS: RangeInclusive<usize> = 1..=14;

/// Those that share a bound with document 01.
const BASE_REQUESTS: RangeInclusive<usize> = 1..=7;

/// How a first comment names document 01, and a request up to its number, in small letters.
const FIRST: &str = "document 01";
const LATER: &str = "document 02, request 2.";

/// What asks for a definition.
#[derive(Clone, Copy, Debug, PartialEq, Eq, PartialOrd, Ord)]
pub enum Request {
    /// Document 01.
    First,
    /// Request 2.N of document 02, by N.
    Later(usize),
}

impl Request {
    /// What the first comment of a file names first.
    pub fn of(text: &str) -> Option<Request> {
        let comment = first_comment(text);
        let places = [FIRST, LATER].map(|name| comment.find(name));
        let named = &comment[places.into_iter().flatten().min()?..];
        let Some(number) = named.strip_prefix(LATER) else {
            return Some(Request::First);
        };
        let digits = number.split(|c: char| !c.is_ascii_digit()).next()?;
        let number = digits.parse().ok()?;
        REQUESTS.contains(&number).then_some(Request::Later(number))
    }

    /// Whether it shares the bound of document 01.
    fn is_base(self) -> bool {
        match self {
            Request::First => true,
            Request::Later(number) => BASE_REQUESTS.contains(&number),
        }
    }

    /// The most lines of its own.
    fn most(self) -> Option<usize> {
        match self {
            _ if self.is_base() => None,
            Request::Later(13) => Some(60),
            Request::Later(14) => Some(85),
            _ => Some(40),
        }
    }
}

impl Display for Request {
    fn fmt(&self, f: &mut Formatter) -> fmt::Result {
        match self {
            Request::First => write!(f, "document 01"),
            Request::Later(number) => write!(f, "2.{number}"),
        }
    }
}

/// The comment at the beginning of a file as one line, in small letters.
fn first_comment(text: &str) -> String {
    let lines = text.lines().map_while(|line| line.strip_prefix("--"));
    let words: Vec<&str> = lines.flat_map(str::split_whitespace).collect();
    words.join(" ").to_lowercase()
}

/// How many lines of definitions belong to each request, and the files that belong to none.
#[derive(Debug)]
pub struct Requests {
    lines: BTreeMap<Request, usize>,
    nameless: Vec<String>,
}

/// A row of the table.
struct Row {
    name: String,
    lines: usize,
    /// The most lines, where it has a bound.
    most: Option<usize>,
}

impl Requests {
    /// Adds the lines of files up.
    pub fn sum<'a>(files: impl Iterator<Item = (&'a Place, &'a Spec)>) -> Requests {
        let base = BASE_REQUESTS.map(Request::Later);
        let none = [Request::First].into_iter().chain(base);
        let mut requests = Requests {
            lines: none.map(|request| (request, 0)).collect(),
            nameless: Vec::new(),
        };
        for (place, spec) in files {
            match spec.request {
                Some(request) => *requests.lines.entry(request).or_default() += spec.lines,
                None => requests.nameless.push(place.file()),
            }
        }
        requests
    }

    /// Files that name no request, and bounds that do not hold.
    pub fn faults(&self) -> Vec<String> {
        let nameless = self.nameless.iter();
        let nameless = nameless.map(|file| format!("{file}: its first comment names no request"));
        let above = self.rows().into_iter().filter_map(|row| {
            let most = row.most.filter(|&most| row.lines > most)?;
            Some(format!("{}: {} lines, at most {most}", row.name, row.lines))
        });
        nameless.chain(above).collect()
    }

    /// Document 01 and the requests that share its bound, their sum, each later request, the sum of
    /// all.
    fn rows(&self) -> Vec<Row> {
        let row = |(request, &lines): (&Request, &usize)| Row {
            name: request.to_string(),
            lines,
            most: request.most(),
        };
        let (base, later): (Vec<_>, Vec<_>) = self
            .lines
            .iter()
            .partition(|(request, _)| request.is_base());
        let together = Row {
            name: format!("document 01 and 2.1 to 2.{}", BASE_REQUESTS.end()),
            lines: base.iter().map(|(_, &lines)| lines).sum(),
            most: Some(BASE),
        };
        let all = Row {
            name: "all".to_string(),
            lines: self.lines.values().sum(),
            most: None,
        };
        let mut rows: Vec<Row> = base.into_iter().map(row).collect();
        rows.push(together);
        rows.extend(later.into_iter().map(row));
        rows.push(all);
        rows
    }
}

/// The table, as README.md has it.
impl Display for Requests {
    fn fmt(&self, f: &mut Formatter) -> fmt::Result {
        writeln!(f, "| request | lines | at most |\n|---|--:|--:|")?;
        for row in self.rows() {
            let most = row.most.map_or(String::new(), |most| format!("{most} "));
            writeln!(f, "| {} | {} | {most}|", row.name, row.lines)?;
        }
        Ok(())
    }
}

#[cfg(test)]
mod tests {
    use super::*;

    #[test]
    fn what_a_first_comment_names_first() {
        for (text, request) in [
            ("-- Document 01, \"Resume\": bits.\nuse a\n", Request::First),
            ("-- Lists, as document 01\n-- has them.\n", Request::First),
            ("-- Document\n-- 01: a list.\n", Request::First),
            (
                "-- Document 02, request 2.3: n. Document 01 says 10.\n",
                Request::Later(3),
            ),
            (
                "-- Document 02, request\n-- 2.14: lists.\n",
                Request::Later(14),
            ),
            (
                "-- Document 01, after document 02, request 2.3.\n",
                Request::First,
            ),
        ] {
            assert_eq!(Request::of(text), Some(request), "{text}");
        }
    }

    #[test]
    fn first_comments_that_name_nothing() {
        for text in [
            "",
            "use a\n\n-- Document 01: a sum.\nabbrev pub sum : ℕ\n",
            "-- Lists in order.\nuse a\n",
            "-- Document 000, section II-A.\n",
            "-- Document 02, request 2.15: more.\n",
            "-- Document 02, request 2.: more.\n",
        ] {
            assert_eq!(Request::of(text), None, "{text}");
        }
    }

    /// Files with so many lines that name these.
    fn requests(files: &[(&str, usize)]) -> Requests {
        let spec = |&(named, lines): &(&str, usize)| {
            let definition = "\n\npub one : ℕ".repeat(lines);
            let place = Place::new("a", "Sum");
            (
                place.clone(),
                Spec::read(&place, &format!("-- {named}{definition}\n")),
            )
        };
        let files: Vec<(Place, Spec)> = files.iter().map(spec).collect();
        Requests::sum(files.iter().map(|(place, spec)| (place, spec)))
    }

    #[test]
    fn the_table() {
        let expected = "\
| request | lines | at most |
|---|--:|--:|
| document 01 | 5 | |
| 2.1 | 0 | |
| 2.2 | 1 | |
| 2.3 | 0 | |
| 2.4 | 0 | |
| 2.5 | 0 | |
| 2.6 | 0 | |
| 2.7 | 4 | |
| document 01 and 2.1 to 2.7 | 10 | 800 |
| 2.8 | 2 | 40 |
| 2.13 | 6 | 60 |
| all | 18 | |
";
        let requests = requests(&[
            ("Document 01.", 2),
            ("Document 02, request 2.8.", 2),
            ("Document 02, request 2.7.", 4),
            ("Document 01.", 3),
            ("Document 02, request 2.2.", 1),
            ("Document 02, request 2.13.", 6),
        ]);
        assert_eq!(requests.to_string(), expected);
        assert_eq!(requests.faults(), [""; 0]);
    }

    #[test]
    fn a_file_without_a_request_is_noticed() {
        let faults = requests(&[("A sum.", 1), ("Document 01.", 1)]).faults();
        assert_eq!(
            faults,
            ["a/specs/Sum.antt: its first comment names no request"]
        );
    }

    #[test]
    fn a_request_above_its_bound_is_noticed() {
        for (number, most) in [(8, 40), (12, 40), (13, 60), (14, 85)] {
            let named = format!("Document 02, request 2.{number}.");
            assert_eq!(requests(&[(&named, most)]).faults(), [""; 0]);
            let fault = format!("2.{number}: {} lines, at most {most}", most + 1);
            assert_eq!(requests(&[(&named, most), (&named, 1)]).faults(), [fault]);
        }
    }

    #[test]
    fn the_bound_that_document_01_shares_is_noticed() {
        let files = [("Document 01.", 795), ("Document 02, request 2.7.", 5)];
        assert_eq!(requests(&files).faults(), [""; 0]);
        let more = [&files[..], &[("Document 02, request 2.1.", 1)]].concat();
        let fault = "document 01 and 2.1 to 2.7: 801 lines, at most 800";
        assert_eq!(requests(&more).faults(), [fault]);
    }
}
