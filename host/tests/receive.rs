//! The program `receive`, held to the reference: the cases of tests/cases, the recordings, random
//! streams, long outputs, pipes that are written and read in pieces, and reads and writes that fail.

use std::collections::BTreeSet;
use std::fs::{self, File};
use std::io::ErrorKind;
use std::ops::RangeInclusive;
use std::process::Stdio;
use std::thread;
use std::time::Duration;

use host::reference::description::record;
use host::reference::receive::receive;
use host::reference::sizes::{
    LARGEST_N, LAYERS, LONGEST, LONGEST_BYTES, LONGEST_RECORD, MOST_STEPS, MOST_TRIALS,
};
use host::testing::files::{repository, text};
use host::testing::paper::{D, D_WITH_START, V};
use host::testing::program::{
    at_once, in_pieces, interrupt, piecewise, run, run_into, run_on, run_without_end, whole,
};
use host::testing::random::Random;
use host::testing::streams;

/// A pause in which the program may do what it can.
const PAUSE: Duration = Duration::from_micros(50);

/// The bytes of a page.
const PAGE: usize = 4_096;

/// What a pipe holds of an output before the program has to wait, and a time after which it does.
const PIPE: usize = 65_536;
const FILLED: Duration = Duration::from_millis(20);

/// A shorter time, after which it mostly does.
const MOSTLY_FILLED: Duration = Duration::from_millis(4);

/// Compares what was printed with what the reference prints, byte by byte.
fn compare(printed: &str, input: &[u8]) {
    let expected = receive(input);
    let pairs = printed.bytes().zip(expected.bytes());
    let same = pairs.take_while(|(a, b)| a == b).count();
    assert!(
        printed == expected,
        "{} bytes instead of {}, the first {same} the same; input {:02x?}",
        printed.len(),
        expected.len(),
        &input[..input.len().min(2_000)]
    );
}

/// Runs an input at once; gives what is printed.
fn check(input: &[u8]) -> String {
    let printed = run(at_once(input), whole);
    compare(&printed, input);
    printed
}

/// The files in tests/cases whose names end so, without the end.
fn names(end: &str) -> BTreeSet<String> {
    let files = fs::read_dir(repository().join("tests/cases")).expect("the cases");
    files
        .map(|file| file.expect("a file").file_name().into_string())
        .filter_map(|name| Some(name.expect("a name").strip_suffix(end)?.to_string()))
        .collect()
}

#[test]
fn cases() {
    let folder = repository().join("tests/cases");
    let cases = streams::cases();
    let expected: BTreeSet<String> = cases.iter().map(|(name, _)| name.clone()).collect();
    assert_eq!((names(".in"), names(".out")), (expected.clone(), expected));
    assert!(cases.len() > 20);
    for (name, stream) in cases {
        let input = fs::read(folder.join(format!("{name}.in"))).expect("an input");
        let output = fs::read_to_string(folder.join(format!("{name}.out"))).expect("an output");
        assert_eq!(input, stream, "{name}");
        assert_eq!(check(&input), output, "{name}");
    }
}

/// What is printed for a recording, which must be the stream given.
fn check_recording(name: &str, stream: &[u8]) -> String {
    let path = repository().join(format!("recordings/{name}"));
    let recording = fs::read(path).expect("a recording");
    assert!(recording == stream, "{name} is another stream");
    check(&recording)
}

/// How many frames are accepted on trial 1, on a later one, and how many on none.
fn outcomes(printed: &str) -> [usize; 3] {
    let count = |start: &str| printed.lines().filter(|of| of.starts_with(start)).count();
    let first = count("ok 1 ");
    [first, count("ok ") - first, count("no 16")]
}

#[test]
fn recording() {
    let printed = check_recording("run.bin", &streams::recording());
    assert_eq!(outcomes(&printed), [202, 42, 56]);
    check_readme(&printed);
}

#[test]
fn survey() {
    let printed = check_recording("survey.bin", &streams::survey());
    assert_eq!(outcomes(&printed), [10, 3, 7]);
    let first = printed.lines().next().expect("a line");
    assert_eq!(first, format!("code {LONGEST} 1024 16"));
}

/// README.md shows the first three lines and the last one of the recording's output as a block, and
/// the line of the first frame that a later trial decodes.
fn check_readme(printed: &str) {
    let readme = text("README.md");
    let lines: Vec<&str> = printed.lines().collect();
    let [first, second, third, .., last] = lines[..] else {
        panic!("few lines");
    };
    let block = [first, second, third, "..", last].map(|line| format!("    {line}\n"));
    let block = block.concat();
    assert!(readme.contains(&format!("\n\n{block}\n")), "{block}");
    let is_later = |line: &&&str| line.starts_with("ok ") && !line.starts_with("ok 1 ");
    let later = lines.iter().find(is_later).expect("a later trial");
    assert!(readme.contains(&format!("`{later}`")), "{later}");
}

/// Request 2.1: silence under D with start 1 at T = 1 and T = 2, and under D.
#[test]
fn silence() {
    let [once, twice] = [1, 2].map(|limit| streams::channel(limit, &[0; 8]));
    let printed = check(&[&D_WITH_START[..], &once, &twice, &D, &once].concat());
    let expected = "code 8 3 1\nno 16\nok 2 35 80\ncode 8 3 1\nok 1 24 00\nend 5\n";
    assert_eq!(printed, expected);
}

/// Checks so many random streams whole, and again in pieces; gives all that is printed.
fn check_random(seed: u64, count: usize, layers: RangeInclusive<usize>) -> String {
    let mut random = Random::new(seed);
    let mut all = String::new();
    for _ in 0..count {
        let stream = streams::random_stream(&mut random, layers.clone(), 30);
        all += &check(&stream);
        let piece = random.between(1, 1 + stream.len());
        compare(&run(in_pieces(&stream, piece, PAUSE), whole), &stream);
    }
    all
}

#[test]
fn random_streams() {
    check_random(71, 800, *LAYERS.start()..=7);
}

/// Among their lines are all that a frame may get but for 23.
#[test]
fn random_streams_of_long_codes() {
    let printed = check_random(72, 40, 11..=LARGEST_N);
    let least = outcomes(&printed).into_iter().min();
    assert!(least >= Some(5), "{:?}", outcomes(&printed));
    for line in ["no 12", "no 13", "no 14", "no 24"] {
        assert!(printed.lines().any(|of| of == line), "{line}");
    }
}

/// All indices are information indices: T is at most K + 1, and the line has the longest payload.
#[test]
fn limits_of_the_longest_code() {
    let mut random = Random::new(73);
    let d = record(LARGEST_N, 1, 1, &[true; LONGEST]);
    let most = MOST_TRIALS as u16;
    let frames =
        [0, 1, most, most + 1, u16::MAX].map(|limit| streams::clear(&mut random, &d, limit));
    let printed = check(&[d, frames.concat()].concat());
    let lines: Vec<&str> = printed.lines().collect();
    let k = LONGEST - 1;
    assert_eq!(lines[0], format!("code {LONGEST} {k} 1"));
    assert_eq!([lines[1], lines[4], lines[5]], ["no 14"; 3]);
    for line in &lines[2..4] {
        let payload = line.strip_prefix(&format!("ok 1 {MOST_STEPS} "));
        assert_eq!(payload.expect("trial 1").len(), 2 * LONGEST_BYTES);
    }
}

#[test]
fn every_beginning_of_a_stream() {
    let stream = streams::every_sort();
    for length in 0..=stream.len() {
        check(&stream[..length]);
    }
}

#[test]
fn input_in_pieces_of_every_size() {
    let stream = streams::every_sort();
    for piece in 1..=stream.len() {
        compare(&run(in_pieces(&stream, piece, PAUSE), whole), &stream);
    }
}

#[test]
fn long_input_in_pieces() {
    let long = streams::blank(LONGEST_RECORD, 2);
    let stream = [&D[..], &long, &streams::channel(2, &V), &long, &long].concat();
    for piece in (PAGE - 1..=PAGE + 1).chain(LONGEST_RECORD - 1..=LONGEST_RECORD + 2) {
        compare(&run(in_pieces(&stream, piece, PAUSE), whole), &stream);
    }
}

/// Lengths below 4 end the reading, 4 and 5 do not.
#[test]
fn records_of_the_least_lengths() {
    for kind in [0, 1, 2, 4, 7] {
        for length in 0..=5 {
            let record = [&[length, 0, kind, 0][..], &[9]].concat();
            let record = &record[..usize::from(length.max(4))];
            let printed = check(&[&D[..], record, &D].concat());
            assert_eq!(printed.contains("cut\nend 1\n"), length < 4);
            assert_eq!(printed.ends_with("end 3\n"), length >= 4);
        }
    }
}

#[test]
fn records_of_the_largest_length() {
    for kind in [1, 2, 4, 7] {
        let long = streams::blank(LONGEST_RECORD, kind);
        let frame = streams::channel(2, &V);
        let printed = check(&[&D[..], &long, &frame].concat());
        assert!(printed.ends_with("\nok 2 32 00\nend 3\n"), "{printed}");
        let printed = check(&[&D[..], &long[..LONGEST_RECORD - 1]].concat());
        assert_eq!(printed, "code 8 3 1\ncut\nend 1\n");
    }
}

/// The program ends although its input does not, and heeds nothing behind a length below 4.
#[test]
fn nothing_is_read_after_a_cut() {
    for length in 0..4 {
        for after in [&[][..], &D, &streams::blank(4, 7).repeat(100)] {
            let input = [&D[..], &[length, 0, 1, 0], after].concat();
            let printed = run_without_end(&input);
            assert_eq!(printed, "code 8 3 1\ncut\nend 1\n");
        }
    }
}

#[test]
fn many_records() {
    for count in [5_000, 10_000, 99_999, 200_000] {
        let printed = check(&streams::blank(4, 7).repeat(count));
        assert_eq!(printed.lines().count(), count + 1);
        assert_eq!(printed.len(), 7 * count + format!("end {count}\n").len());
    }
}

/// With up to six longer lines in front a line ends at each place of some output: before, at and
/// behind the end of any buffer.
#[test]
fn lines_that_end_at_every_place() {
    for longer in 0..7 {
        let records = [(longer, 10), (20_000, 7)];
        let stream = records.map(|(count, kind)| streams::blank(4, kind).repeat(count));
        check(&stream.concat());
    }
}

/// Outputs whose length is a buffer's, a little more, and less by up to the longest line.
#[test]
fn outputs_that_fill_a_buffer() {
    for size in [1, 2, 4, 8, 16].map(|pages| pages * PAGE) {
        let short = (size - 2 * LONGEST_BYTES - 40..size - 16).step_by(9);
        for length in short.chain(size - 16..=size + 16) {
            assert_eq!(check(&streams::printing(length)).len(), length);
        }
    }
}

#[test]
fn the_longest_lines() {
    for before in 0..10 {
        let printed = check(&streams::long_lines(4 * before, 80));
        assert_eq!(printed.lines().count(), 4 * before + 82);
        assert!(printed.len() > PIPE);
    }
}

/// Reads the output in pieces of so many bytes, the first after some time.
fn check_output(stream: &[u8], piece: usize, time: Duration) {
    let printed = run(at_once(stream), |pipe, _| {
        thread::sleep(time);
        piecewise(pipe, piece, || ())
    });
    compare(&printed, stream);
}

/// The pipe is full before the first byte is read.
#[test]
fn output_in_pieces() {
    let stream = streams::printing(3 * PIPE + 1);
    let near = [PAGE - 1, PAGE, PAGE + 1, 4 * PAGE, PIPE - 1, PIPE + 1];
    for piece in [1, 2, 7, 100].into_iter().chain(near) {
        check_output(&stream, piece, FILLED);
    }
}

#[test]
fn output_in_pieces_of_every_size() {
    let stream = streams::printing(PIPE + 1_000);
    for piece in 1..=300 {
        check_output(&stream, piece, MOSTLY_FILLED);
    }
}

/// The program waits for room in the pipe when it is stopped, and has written a part of its lines.
#[test]
fn interrupted_writes() {
    let stream = streams::printing(5 * PIPE);
    for piece in [PAGE, 5_000, 9_001, 20_000] {
        let printed = run(at_once(&stream), |pipe, number| {
            thread::sleep(FILLED);
            piecewise(pipe, piece, || {
                interrupt(number);
                thread::sleep(PAUSE);
            })
        });
        compare(&printed, &stream);
    }
}

/// A read of a directory fails, which counts as the end of the input.
#[test]
fn failed_reads() {
    let directory = File::open(repository()).expect("a directory");
    assert_eq!(run_on(directory), "end 0\n");
}

/// Each write to /dev/full fails; the program reads on to the end of its input.
#[test]
fn failed_writes() {
    let full = File::options().write(true).open("/dev/full");
    let (status, written) = run_into(full.expect("a device"), &streams::printing(5 * PIPE));
    assert!(status.success(), "{status}");
    written.expect("an input that is read");
}

/// The first write to a pipe without a reader ends the program with an error.
#[test]
fn output_without_a_reader() {
    let (status, written) = run_into(Stdio::piped(), &streams::printing(5 * PIPE));
    assert_eq!(status.code(), Some(1), "{status}");
    let error = written.expect_err("an input that is not read");
    assert_eq!(error.kind(), ErrorKind::BrokenPipe);
}
