//! include/polar.h is C11 and C++17 without a warning, programs get the answers of document 01 by it,
//! and its sizes are those of the longest code.

use std::io::{stderr, Write};
use std::path::Path;
use std::process::{Command, Stdio};

use host::reference::description::LONGEST_DESCRIPTION;
use host::reference::packing::packed_length;
use host::reference::sizes::{HEARING_SIZE, LONGEST, LONGEST_BYTES};
use host::testing::files::{repository, text};

/// A language as gcc is told of it: its name, its standard.
type Language = (&'static str, &'static str);
const C: Language = ("c", "-std=c11");
const CPP: Language = ("c++", "-std=c++17");

/// The compiler for source files of a language.
fn compiler((name, standard): Language) -> Command {
    let mut gcc = Command::new("gcc");
    gcc.args(["-x", name, standard]);
    gcc.args(["-Wall", "-Wextra", "-Werror", "-pedantic"]);
    gcc
}

/// The languages that gcc compiles; it may come without C++.
fn languages() -> Vec<Language> {
    let mut nothing = compiler(CPP);
    nothing.args(["-fsyntax-only", "-"]).stderr(Stdio::null());
    let has_cpp = nothing.stdin(Stdio::null()).status();
    if has_cpp.is_ok_and(|status| status.success()) {
        return vec![C, CPP];
    }
    // The test harness would capture what `eprintln!` prints.
    let _ = writeln!(stderr(), "gcc has no C++: polar.h is tried in C alone");
    vec![C]
}

/// Compiles the program of a folder with the header and the library, runs it, and gives what it
/// prints.
fn run(language: Language, folder: &str, name: &str) -> String {
    let program = Path::new(env!("CARGO_TARGET_TMPDIR")).join(format!("{name}.{}", language.0));
    let built = compiler(language)
        .arg("-I")
        .arg(repository().join("include"))
        .arg(repository().join(format!("{folder}/{name}.c")))
        .args(["-x", "none"])
        .arg(repository().join("target/staticlib/libpolar.a"))
        .arg("-o")
        .arg(&program)
        .output()
        .expect("gcc");
    let messages = String::from_utf8_lossy(&built.stderr);
    assert!(built.status.success(), "{messages}");
    let output = Command::new(&program).output().expect("the program");
    assert!(output.status.success(), "{output:?}");
    String::from_utf8(output.stdout).expect("text")
}

/// What encode and resume give for rows of the paper.
const ENCODED_AND_RESUMED: &str = "\
encode A0: refusal 0, value 0, steps 0, 5a
encode 80: refusal 0, value 0, steps 0, 0f
encode B0: refusal 10, value 0, steps 0, ee
mask 80: refusal 8, value 0, steps 0, ee
start 1: refusal 0, value 0, steps 0, a5
start 2: refusal 25, value 0, steps 0, ee
right signs: refusal 0, value 0, steps 24, 00 00 00 01 00 00 01 00
six zeros: refusal 0, value 0, steps 8, 00 00 00 00 00 00 00 00
q = 0: refusal 0, value 0, steps 24, 00 00 00 00 00 01 00 00
q = 1: refusal 0, value 0, steps 23, 00 00 00 00 00 01 00 00
q = 7: refusal 0, value 0, steps 7, 00 00 00 00 00 00 00 00
q = 8: refusal 0, value 0, steps 0, 00 00 00 00 00 00 00 00
31: refusal 0, value 0, steps 24, 00 00 00 00 00 00 00 00
32: refusal 13, value 7, steps 0, ee ee ee ee ee ee ee ee
-32: refusal 13, value 7, steps 0, ee ee ee ee ee ee ee ee
";

/// What full decoding gives.
const DECODED: &str = "\
right signs: refusal 0, value 1, steps 24, a0
V, T = 1: refusal 16, value 1, steps 24, ee
V, T = 2: refusal 0, value 2, steps 48, 00
V, T = 0: refusal 14, value 0, steps 0, ee
V, T = 5: refusal 0, value 2, steps 48, 00
V, T = 6: refusal 14, value 0, steps 0, ee
zeros: refusal 0, value 1, steps 24, 00
32: refusal 13, value 7, steps 0, ee
start 1, zeros, T = 1: refusal 16, value 1, steps 24, ee
start 1, zeros, T = 2: refusal 0, value 2, steps 48, 80
flips 3, 4, 5: refusal 0, value 4, steps 96, 10
";

/// What full decoding with flip sets gives.
const DECODED_BY_SETS: &str = "\
V, w = 1, T = 1: refusal 16, value 1, steps 24, ee
V, w = 1, T = 2: refusal 0, value 2, steps 48, c0
a pair, w = 1, T = 2: refusal 16, value 2, steps 48, ee
a pair, w = 2, T = 3: refusal 0, value 3, steps 72, 80
no set passes, w = 2, T = 512: refusal 16, value 11, steps 264, ee
lowest indices 4, 3, 3, 4, 5, 4: refusal 0, value 7, steps 168, 90
w = 0, T = 0: refusal 26, value 0, steps 0, ee
w = 4, T = 1: refusal 26, value 0, steps 0, ee
w = 1, T = 6: refusal 14, value 0, steps 0, ee
w = 2, T = 513: refusal 14, value 0, steps 0, ee
";

/// What a hearing gives, decoded in full; before the clear it has V, then V and right signs.
const HEARD: &str = "\
open: refusal 0, value 0, steps 0,
nothing heard, T = 1: refusal 0, value 1, steps 24, 00
add V: refusal 0, value 1, steps 0,
V heard, T = 1: refusal 16, value 1, steps 24, ee
V heard, T = 2: refusal 0, value 2, steps 48, 00
V heard, T = 6: refusal 14, value 0, steps 0, ee
add 32: refusal 13, value 7, steps 0,
add seven values: refusal 12, value 0, steps 0,
add right signs: refusal 0, value 2, steps 0,
both heard, T = 1: refusal 0, value 1, steps 24, a0
clear: refusal 0, value 0, steps 0,
cleared, T = 1: refusal 0, value 1, steps 24, 00
add 255 times: refusal 0, value 255, steps 0,
add once more: refusal 27, value 0, steps 0,
mask 80: refusal 8, value 0, steps 0,
full, T = 1: refusal 0, value 1, steps 24, a0
a byte less: refusal 40, value 0, steps 0,
no bytes: refusal 40, value 0, steps 0,
damaged: refusal 40, value 0, steps 0, ee
";

/// What previews give where nothing is held, where V is, in a full hearing and in a damaged one.
const PREVIEWED: &str = "\
open: refusal 0, value 0, steps 0,
right signs tried, T = 1: refusal 0, value 1, steps 24, a0
add V: refusal 0, value 1, steps 0,
right signs tried, T = 1: refusal 0, value 1, steps 24, a0
V tried, T = 1: refusal 16, value 1, steps 24, ee
V tried, T = 2: refusal 0, value 2, steps 32, 00
V tried, T = 6: refusal 14, value 0, steps 0, ee
32 tried, T = 6: refusal 13, value 7, steps 0, ee
seven values tried, T = 6: refusal 12, value 0, steps 0, ee
nothing tried, T = 6: refusal 12, value 0, steps 0, ee
V heard, T = 1: refusal 16, value 1, steps 24, ee
add right signs: refusal 0, value 2, steps 0,
both heard, T = 1: refusal 0, value 1, steps 24, a0
add 255 times: refusal 0, value 255, steps 0,
V tried, T = 6: refusal 27, value 0, steps 0, ee
32 tried, T = 6: refusal 13, value 7, steps 0, ee
damaged, seven values tried, T = 6: refusal 40, value 0, steps 0, ee
nothing lent: refusal 40, value 0, steps 0,
";

/// What is printed with fewer steps.
fn fewer(text: &str, steps: &[(&str, &str)]) -> String {
    let replace = |text: String, (full, fewer): &(&str, &str)| text.replace(full, fewer);
    steps.iter().fold(text.to_string(), replace)
}

#[test]
fn rows_of_the_paper() {
    let expected = [
        ENCODED_AND_RESUMED,
        DECODED,
        &fewer(DECODED, &[("48, 00", "36, 00"), ("96, 10", "72, 10")]),
        &fewer(
            DECODED,
            &[
                ("48, 00", "32, 00"),
                ("48, 80", "35, 80"),
                ("96, 10", "55, 10"),
            ],
        ),
        DECODED_BY_SETS,
        &fewer(DECODED_BY_SETS, &[("264,", "192,"), ("168,", "120,")]),
        &fewer(
            DECODED_BY_SETS,
            &[
                ("48,", "35,"),
                ("72,", "46,"),
                ("264,", "106,"),
                ("168,", "89,"),
            ],
        ),
        HEARD,
        &fewer(HEARD, &[("48,", "32,")]),
        PREVIEWED,
    ]
    .concat();
    for language in languages() {
        assert_eq!(run(language, "host/tests/c", "rows"), expected);
    }
}

#[test]
fn the_example() {
    assert_eq!(run(C, "examples", "frame"), text("examples/frame.out"));
}

#[test]
fn the_example_of_a_repeat() {
    assert_eq!(run(C, "examples", "repeat"), text("examples/repeat.out"));
}

#[test]
fn the_example_of_a_preview() {
    assert_eq!(run(C, "examples", "preview"), text("examples/preview.out"));
}

#[test]
fn sizes_of_the_longest_code() {
    let longest_payload = packed_length(LONGEST - 1);
    let expected = format!(
        "code {LONGEST}, description {LONGEST_DESCRIPTION}, codeword {LONGEST_BYTES}, \
         payload {longest_payload}, hearing {HEARING_SIZE}\n\
         encode: refusal 0\n\
         resume: refusal 0\n\
         decode: refusal 0, trial 1, the payload sent\n\
         hearing: refusal 0\n\
         preview: refusal 0, trial 1, the payload sent\n\
         add: refusal 0, count 1\n\
         decode: refusal 0, trial 1, the payload sent\n"
    );
    for language in languages() {
        assert_eq!(run(language, "host/tests/c", "longest"), expected);
    }
}
