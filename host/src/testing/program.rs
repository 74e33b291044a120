//! Runs the program `receive`, mostly with pipes that the test reads and writes in its own way.

use std::fs::File;
use std::io::{ErrorKind, Read, Result, Write};
use std::process::{Child, ChildStdin, ChildStdout, Command, ExitStatus, Stdio};
use std::thread;
use std::time::{Duration, Instant};

use crate::testing::files::repository;

/// A program has mostly begun to read after this time.
const STARTED: Duration = Duration::from_millis(2);

/// How long a program may take to end by itself.
const PATIENCE: Duration = Duration::from_secs(20);

/// Starts the program with these as standard input and output.
fn start(input: impl Into<Stdio>, output: impl Into<Stdio>) -> Child {
    Command::new(repository().join("target/bin/receive"))
        .stdin(input)
        .stdout(output)
        .spawn()
        .expect("the program")
}

/// Waits for a program that must end by itself.
fn wait(program: &mut Child) -> ExitStatus {
    let start = Instant::now();
    loop {
        if let Some(status) = program.try_wait().expect("a status") {
            return status;
        }
        if start.elapsed() > PATIENCE {
            program.kill().expect("an end");
            panic!("the program does not end");
        }
        thread::sleep(Duration::from_millis(1));
    }
}

/// What a program has printed that ended by itself, with success.
fn printed(mut program: Child) -> String {
    wait(&mut program);
    let output = program.wait_with_output().expect("an output");
    assert!(output.status.success(), "{output:?}");
    String::from_utf8(output.stdout).expect("text")
}

/// What the program prints. `write` gives it its input, on a thread of its own; `read` takes its
/// output, and may stop the process, whose number it gets.
pub fn run(
    write: impl FnOnce(&mut ChildStdin) -> Result<()> + Send,
    read: impl FnOnce(&mut ChildStdout, u32) -> Result<Vec<u8>>,
) -> String {
    let mut program = start(Stdio::piped(), Stdio::piped());
    let mut input = program.stdin.take().expect("a pipe");
    let mut output = program.stdout.take().expect("a pipe");
    let number = program.id();
    let printed = thread::scope(|scope| {
        scope.spawn(move || {
            if let Err(error) = write(&mut input) {
                // After a cut the program reads no more.
                assert_eq!(error.kind(), ErrorKind::BrokenPipe);
            }
        });
        read(&mut output, number).expect("an output")
    });
    let status = program.wait().expect("an end");
    assert!(status.success(), "{status}");
    String::from_utf8(printed).expect("text")
}

/// Writes an input at once.
pub fn at_once(input: &[u8]) -> impl FnOnce(&mut ChildStdin) -> Result<()> + '_ {
    move |pipe| pipe.write_all(input)
}

/// Writes an input in pieces of so many bytes to a program that waits for them, with a pause after
/// each in which it may read what is there.
pub fn in_pieces(
    input: &[u8],
    piece: usize,
    pause: Duration,
) -> impl FnOnce(&mut ChildStdin) -> Result<()> + '_ {
    move |pipe| {
        thread::sleep(STARTED);
        for part in input.chunks(piece) {
            pipe.write_all(part)?;
            thread::sleep(pause);
        }
        Ok(())
    }
}

/// Reads all that is printed.
pub fn whole(pipe: &mut ChildStdout, _number: u32) -> Result<Vec<u8>> {
    let mut printed = Vec::new();
    pipe.read_to_end(&mut printed)?;
    Ok(printed)
}

/// Reads at most so many bytes at a time, and does something before each time.
pub fn piecewise(
    pipe: &mut ChildStdout,
    piece: usize,
    mut before: impl FnMut(),
) -> Result<Vec<u8>> {
    let mut printed = Vec::new();
    let mut room = vec![0; piece];
    loop {
        before();
        match pipe.read(&mut room)? {
            0 => return Ok(printed),
            got => printed.extend(&room[..got]),
        }
    }
}

/// What the program prints for an input that does not end: it must end by itself.
pub fn run_without_end(input: &[u8]) -> String {
    let mut program = start(Stdio::piped(), Stdio::piped());
    let mut pipe = program.stdin.take().expect("a pipe");
    pipe.write_all(input).expect("room in the pipe");
    let printed = printed(program);
    drop(pipe);
    printed
}

/// What the program prints for an input that is opened by the test.
pub fn run_on(input: File) -> String {
    printed(start(input, Stdio::piped()))
}

/// How the program ends whose output goes to `output`, and what came of writing its input. A pipe as
/// `output` has no reader.
pub fn run_into(output: impl Into<Stdio>, input: &[u8]) -> (ExitStatus, Result<()>) {
    let mut program = start(Stdio::piped(), output);
    let mut pipe = program.stdin.take().expect("a pipe");
    drop(program.stdout.take());
    thread::scope(|scope| {
        let writing = scope.spawn(move || pipe.write_all(input));
        let status = wait(&mut program);
        (status, writing.join().expect("a result"))
    })
}

extern "C" {
    fn kill(process: i32, signal: i32) -> i32;
}

/// Linux's numbers of the signals.
const CONTINUE: i32 = 18;
const STOP: i32 = 19;

/// Stops a process and lets it go on. A write that waits for room ends early, with fewer bytes
/// written than it was given.
pub fn interrupt(number: u32) {
    for signal in [STOP, CONTINUE] {
        // SAFETY: the call takes two numbers; the process is a child that was not waited for yet.
        let status = unsafe { kill(number as i32, signal) };
        assert_eq!(status, 0, "no process {number}");
    }
}
