//! What the static libraries export, and what they need.

use std::process::Command;

use host::testing::files::{repository, text};

/// All that a library may need.
const NEEDED: [&str; 2] = ["memcpy", "memset"];

/// The symbols of a library, each with the letter that `nm` gives it.
fn symbols(library: &str) -> Vec<(String, char)> {
    let output = Command::new("nm")
        .args(["--format=posix", library])
        .current_dir(repository().join("target/staticlib"))
        .output()
        .expect("nm");
    assert!(output.status.success(), "{output:?}");
    let text = String::from_utf8(output.stdout).expect("text");
    text.lines().filter_map(symbol).collect()
}

/// The name and the letter on a line; other lines name a member.
fn symbol(line: &str) -> Option<(String, char)> {
    let mut words = line.split_whitespace();
    let name = words.next()?;
    let letter = words.next()?.chars().next()?;
    Some((name.to_string(), letter))
}

fn is_undefined(letter: char) -> bool {
    ['U', 'v', 'w'].contains(&letter)
}

/// Letters of symbols that other files see are capitals, but for one.
fn is_exported(letter: char) -> bool {
    letter == 'u' || letter.is_ascii_uppercase() && !is_undefined(letter)
}

fn names(symbols: &[(String, char)], wanted: fn(char) -> bool) -> Vec<&str> {
    let wanted = symbols.iter().filter(|(_, letter)| wanted(*letter));
    let mut names: Vec<&str> = wanted.map(|(name, _)| name.as_str()).collect();
    names.sort();
    names
}

/// A header's text without comments.
fn without_comments(text: &str) -> String {
    let mut parts = text.split("/*");
    let first = parts.next().unwrap_or_default().to_string();
    parts.fold(first, |code, part| {
        let (_, after) = part.split_once("*/").expect("the end of a comment");
        code + " " + after
    })
}

/// The functions that a header declares: names that start with `polar_` and stand before a bracket.
fn declared(header: &str) -> Vec<String> {
    let code = without_comments(header);
    let is_part = |c: char| c.is_ascii_alphanumeric() || c == '_';
    let mut names: Vec<String> = code
        .split('(')
        .filter_map(|before| before.trim_end().rsplit(|c| !is_part(c)).next())
        .filter(|name| name.starts_with("polar_"))
        .map(str::to_string)
        .collect();
    names.sort();
    names
}

#[test]
fn libraries_need_two_functions_at_most() {
    for library in ["libpolar.a", "libprobe.a"] {
        let symbols = symbols(library);
        for name in names(&symbols, is_undefined) {
            assert!(NEEDED.contains(&name), "{library} needs {name}");
        }
    }
}

#[test]
fn polar_exports_what_the_header_declares() {
    let declared = declared(&text("include/polar.h"));
    assert!(!declared.is_empty());
    assert_eq!(names(&symbols("libpolar.a"), is_exported), declared);
}

#[test]
fn declarations_are_found() {
    let header = "/* polar_a(x) */\n#define POLAR_B(x) (x)\nint polar_c(void); /* polar_d */\n\
                  int *polar_b (int polar_e);\nint polar_f;";
    assert_eq!(declared(header), ["polar_b", "polar_c"]);
}
