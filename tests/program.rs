//! Runs of the check program, whose path stands in AEDR_CHECK, against the reference's text.

use crate::both::Harness;
use crate::generate;
use crate::random::Random;
use crate::reference::{check_piece, program_text, AEDR_HEADER, AEDR_RECORD, PUBLISHED_SUM_WORD};
use std::fmt::Arguments;
use std::fs::{self, File};
use std::io::{self, Write};
use std::os::fd::OwnedFd;
use std::os::unix::net::UnixStream;
use std::process::{self, Child, Command, Output, Stdio};
use std::thread;

/// The program reads and prints 213 records in a chunk.
const CHUNK: usize = 213 * AEDR_RECORD;

pub fn program(harness: &mut Harness, random: &Random, path: &str) {
    for length in [
        0,
        1,
        149,
        150,
        151,
        1_229,
        1_230,
        1_231,
        1_235,
        2_460,
        CHUNK,
        CHUNK + 1,
    ] {
        compare(harness, random, path, &vec![0; length]);
    }
    for pieces in [1, 2, 3, 10, 100, 212, 213, 214, 426, 500, 1_100] {
        let input = aedr(random, pieces);
        compare(harness, random, path, &input);
        let cut = random.within(1, 1_229) as usize;
        compare(harness, random, path, &input[..input.len() - cut]);
    }
    unreadable(harness, path);
    for length in [0, 1, 1_230, CHUNK - 1, CHUNK, CHUNK + 1, 2 * CHUNK + 5_000] {
        let input = aedr(random, length.div_ceil(AEDR_RECORD));
        break_off(harness, path, &input[..length]);
    }
    for pieces in [0, 1, 213, 214, 1_100] {
        unwritable(harness, path, &aedr(random, pieces));
    }
    cut_off(harness, path);
}

/// Records of which a third is accepted.
fn aedr(random: &Random, pieces: usize) -> Vec<u8> {
    let mut input = Vec::with_capacity(pieces * AEDR_RECORD);
    for _ in 0..pieces {
        input.extend_from_slice(&random.bytes(AEDR_HEADER));
        let (count, time) = (generate::count(random), random.u32());
        let mut packet = generate::packet(random, count, time, PUBLISHED_SUM_WORD);
        if !random.once_in(3) {
            generate::damage(random, &mut packet, PUBLISHED_SUM_WORD);
        }
        input.extend_from_slice(&packet);
        // A packet of another length would move all pieces behind it.
        input.resize(input.len().div_ceil(AEDR_RECORD) * AEDR_RECORD, 0);
    }
    input
}

fn compare(harness: &mut Harness, random: &Random, path: &str, input: &[u8]) {
    let call = format_args!("{path}, input of {} bytes", input.len());
    let output = match run(random, path, input) {
        Ok(output) => output,
        Err(error) => harness.differ(call, format_args!("cannot be run: {error}")),
    };
    let text = String::from_utf8_lossy(&output.stdout);
    let expected = program_text(input);
    let lines: Vec<&str> = text.split_inclusive('\n').collect();
    let expected: Vec<&str> = expected.split_inclusive('\n').collect();
    harness.same_items(call, "line", &lines, &expected);
    harness.same(call, String::from_utf8_lossy(&output.stderr).as_ref(), "");
    harness.same(call, output.status.code(), Some(0));
    harness.program_runs += 1;
    for piece in input.chunks(AEDR_RECORD) {
        harness.printed[usize::from(check_piece(piece))] += 1;
    }
}

/// The input goes through a pipe in parts of any size, so that reads end anywhere.
fn run(random: &Random, path: &str, input: &[u8]) -> io::Result<Output> {
    let mut child = Command::new(path)
        .stdin(Stdio::piped())
        .stdout(Stdio::piped())
        .stderr(Stdio::piped())
        .spawn()?;
    let mut stdin = child.stdin.take().expect("the child's input is a pipe");
    let longest = random.pick(&[100, 3_000, 70_000, 300_000]);
    let random = Random::new(random.next());
    thread::scope(|scope| {
        scope.spawn(move || {
            let mut rest = input;
            while !rest.is_empty() {
                let (part, others) = rest.split_at((1 + random.below(longest)).min(rest.len()));
                // A child that stops reading shows in its output.
                if stdin.write_all(part).is_err() {
                    break;
                }
                rest = others;
            }
        });
        child.wait_with_output()
    })
}

/// An input that cannot be read at all: nothing on standard output, and the failure on standard error.
fn unreadable(harness: &mut Harness, path: &str) {
    let call = format_args!("{path}, a directory as input");
    let run = File::open("/").and_then(|directory| Command::new(path).stdin(directory).output());
    ran(harness, call, run, "", "read: Is a directory\n");
    let call = format_args!("{path}, standard input closed");
    let run = shell(path, "exec \"$0\" <&-").output();
    ran(harness, call, run, "", "read: Bad file descriptor\n");
}

/// An input that can be read so far, and whose next read fails: the lines of the chunks that were read whole, no total, and the failure on
/// standard error.
fn break_off(harness: &mut Harness, path: &str, input: &[u8]) {
    let call = format_args!("{path}, input that breaks off after {} bytes", input.len());
    let whole = program_text(&input[..input.len() / CHUNK * CHUNK]);
    let total = whole.find("records").expect("a text ends with its total");
    let run = run_broken(path, input);
    let errors = "read: Connection reset by peer\n";
    ran(harness, call, run, &whole[..total], errors);
}

/// A socket that is closed with a byte unread resets the connection: the other end can read what was sent, and then gets an error.
fn run_broken(path: &str, input: &[u8]) -> io::Result<Output> {
    let (mut ours, mut theirs) = UnixStream::pair()?;
    theirs.write_all(&[0])?;
    let child = Command::new(path)
        .stdin(OwnedFd::from(theirs))
        .stdout(Stdio::piped())
        .stderr(Stdio::piped())
        .spawn()?;
    thread::scope(|scope| {
        scope.spawn(move || {
            // A child that stops reading shows in its output.
            let _ = ours.write_all(input);
        });
        child.wait_with_output()
    })
}

/// An output that takes nothing: the failure is told once, and no further write is tried. A pipe with no reader is such an output too, whether
/// or not the shell ignores its signal.
fn unwritable(harness: &mut Harness, path: &str, input: &[u8]) {
    for (script, errors) in [
        ("exec \"$0\" >/dev/full", "write: No space left on device\n"),
        ("exec \"$0\" >&-", "write: Bad file descriptor\n"),
        ("trap '' PIPE; exec \"$0\"", "write: Broken pipe\n"),
        ("exec \"$0\"", "write: Broken pipe\n"),
    ] {
        let call = format_args!("{path} by {script}, input of {} bytes", input.len());
        let run = shell(path, script).spawn().and_then(|mut child| {
            // What is written there is gone: nobody reads it.
            drop(child.stdout.take());
            feed(child, input)
        });
        ran(harness, call, run, "", errors);
    }
}

/// A file that may grow to so many blocks: where the text is longer, the last write but one is short and the last fails, in the lines or in the
/// total. What was taken is the start of the text. A block has 512 or 1,024 bytes.
fn cut_off(harness: &mut Harness, path: &str) {
    let file = std::env::temp_dir().join(format!("aedr_check-{}", process::id()));
    let script = "trap '' XFSZ; ulimit -f 1; exec \"$0\" >\"$1\"";
    let mut cut = 0;
    for pieces in 90..=200 {
        let call = format_args!("{path} by {script}, {pieces} pieces");
        let input = vec![0; pieces * AEDR_RECORD];
        let run = shell(path, script)
            .arg(&file)
            .spawn()
            .and_then(|child| feed(child, &input));
        let text = program_text(&input);
        let taken = fs::read_to_string(&file).unwrap_or_default();
        let errors = match taken.len() {
            512 | 1_024 if taken.len() < text.len() => "write: File too large\n",
            _ => "",
        };
        cut += u64::from(!errors.is_empty());
        let expected = if errors.is_empty() {
            &text
        } else {
            &text[..taken.len()]
        };
        harness.same(call, taken.as_str(), expected);
        ran(harness, call, run, "", errors);
    }
    harness.same(format_args!("{path} by {script}"), cut > 0, true);
    // The file is gone where the last run could not make it.
    let _ = fs::remove_file(file);
}

/// The program by a script of the shell, which has its path as $0.
fn shell(path: &str, script: &str) -> Command {
    let mut command = Command::new("sh");
    command
        .args(["-c", script, path])
        .stdin(Stdio::piped())
        .stdout(Stdio::piped())
        .stderr(Stdio::piped());
    command
}

fn feed(mut child: Child, input: &[u8]) -> io::Result<Output> {
    let stdin = child.stdin.take();
    thread::scope(|scope| {
        scope.spawn(move || {
            // A child that stops reading shows in its output.
            stdin.map(|mut stdin| stdin.write_all(input))
        });
        child.wait_with_output()
    })
}

/// What a run wrote to standard output and to standard error. A program that fails ends with status 0 too.
fn ran(harness: &mut Harness, call: Arguments, run: io::Result<Output>, text: &str, errors: &str) {
    let output = match run {
        Ok(output) => output,
        Err(error) => harness.differ(call, format_args!("cannot be run: {error}")),
    };
    harness.same(call, String::from_utf8_lossy(&output.stdout).as_ref(), text);
    harness.same(
        call,
        String::from_utf8_lossy(&output.stderr).as_ref(),
        errors,
    );
    harness.same(call, output.status.code(), Some(0));
    harness.program_runs += 1;
}
