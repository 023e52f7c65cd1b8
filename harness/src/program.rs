//! The programs of `target/bin`, started on an input: the run program and the saving
//! program on a text, the import program on a file, the resuming program on a saved
//! panel, which its argument names, and a text. The environment can name another
//! program in place of each (`.ci/wrong-programs`).
//!
//! Where a program is missing the tests fail; none of them is left out. A run
//! counts only if it ends well: by itself with exit status 0, or by SIGPIPE where
//! the output was closed before its end.

use std::ffi::OsString;
use std::fs::File;
use std::io::{ErrorKind, Read, Write};
use std::os::fd::OwnedFd;
use std::os::unix::net::UnixStream;
use std::os::unix::process::ExitStatusExt;
use std::path::Path;
use std::process::{Child, ChildStdin, ChildStdout, Command, ExitStatus, Stdio};
use std::thread::{scope, sleep};
use std::time::{Duration, Instant};

/// Where `.ci/build` puts the programs.
const FOLDER: &str = concat!(env!("CARGO_MANIFEST_DIR"), "/../target/bin/");

/// A program to test.
pub struct Program {
    /// Its name there, and that of its crate.
    pub name: &'static str,
    /// The environment's name for the path of a program to test in its place.
    pub other: &'static str,
    /// Its arguments.
    pub arguments: Vec<OsString>,
}

/// The run program.
pub const PANEL: Program = Program::new("run", "PANEL_PROGRAM");

/// The import program.
pub const IMPORT: Program = Program::new("edf_import", "IMPORT_PROGRAM");

/// The saving program.
pub const SAVE: Program = Program::new("panel_save", "SAVE_PROGRAM");

/// The resuming program, with no argument.
pub const RESUME: Program = Program::new("panel_resume", "RESUME_PROGRAM");

/// The number of SIGPIPE, which a write to a closed pipe gives.
const SIGPIPE: i32 = 13;

/// A program that runs longer than this is taken not to end. No input needs more
/// than a small part of it: it only turns an endless run into a failed test.
const ENDLESS: Duration = Duration::from_secs(120);

/// What is seen of a run that ended well.
#[derive(Debug)]
pub struct Seen {
    pub output: Vec<u8>,
    /// Whether the pipe took the whole input. It does not if the program ends
    /// with more of the input unread than the pipe holds.
    pub all_taken: bool,
}

impl Program {
    /// A program with no argument.
    pub const fn new(name: &'static str, other: &'static str) -> Program {
        Program {
            name,
            other,
            arguments: Vec::new(),
        }
    }

    /// The program with one argument more.
    pub fn with(mut self, argument: impl Into<OsString>) -> Program {
        self.arguments.push(argument.into());
        self
    }

    /// The whole output on an input, or how the program ended if not well.
    pub fn outcome(&self, input: &[u8]) -> Result<Vec<u8>, String> {
        outcome_of(self.command(), input)
    }

    /// The whole output on an input.
    pub fn run(&self, input: &[u8]) -> Vec<u8> {
        self.seen(input).output
    }

    /// A run on an input that is written at once.
    pub fn seen(&self, input: &[u8]) -> Seen {
        ended_well(finish(start_piped(self.command()), &[input], usize::MAX))
    }

    /// The whole output on an input that comes in pieces. The sizes are used in
    /// turn, over and over.
    pub fn run_in_pieces(&self, input: &[u8], sizes: &[usize]) -> Vec<u8> {
        let mut sizes = sizes.iter().cycle();
        let mut pieces = Vec::new();
        let mut rest = input;
        while !rest.is_empty() {
            let size = *sizes.next().expect("a size");
            let (piece, more) = rest.split_at(rest.len().min(size));
            pieces.push(piece);
            rest = more;
        }
        ended_well(finish(start_piped(self.command()), &pieces, usize::MAX)).output
    }

    /// The whole output with a file as standard input, in place of a pipe.
    pub fn run_on_file(&self, path: &str) -> Vec<u8> {
        let file = File::open(path).unwrap_or_else(|error| panic!("{path}: {error}"));
        self.run_from(file.into())
    }

    /// The whole output where all of the input can be read and the read after it
    /// fails: a socket whose other end is closed before it read everything.
    pub fn run_before_a_failed_read(&self, input: &[u8]) -> Vec<u8> {
        let (mut near, mut far) = UnixStream::pair().expect("a pair of sockets");
        near.write_all(b"not read").expect("input written");
        far.write_all(input).expect("input written");
        drop(far);
        self.run_from(OwnedFd::from(near).into())
    }

    /// The whole output with this standard input.
    fn run_from(&self, input: Stdio) -> Vec<u8> {
        let child = start(self.command().stdin(input));
        ended_well(finish(child, &[], usize::MAX)).output
    }

    /// The program as a command.
    pub fn command(&self) -> Command {
        let mut command = Command::new(self.path());
        command.args(&self.arguments);
        command
    }

    /// A line of the shell as a command, where `"$0"` is the program and `"$@"` are its
    /// arguments.
    pub fn through_shell(&self, line: &str) -> Command {
        let mut command = Command::new("/bin/sh");
        command.args(["-c", line, &self.path()]);
        command.args(&self.arguments);
        command
    }

    /// The path of the program to test, which is there.
    fn path(&self) -> String {
        let path = std::env::var(self.other).unwrap_or(FOLDER.to_string() + self.name);
        let there = Path::new(&path).is_file();
        assert!(there, "{path} is missing; build it: .ci/build {}", self.name);
        path
    }
}

/// The whole output of a command on an input, or how it ended if not well.
pub fn outcome_of(command: Command, input: &[u8]) -> Result<Vec<u8>, String> {
    finish(start_piped(command), &[input], usize::MAX).map(|seen| seen.output)
}

/// The first bytes of the output, at most so many; then the reading end of the
/// output is closed, with 0 bytes before any of the input is written. This comes
/// back only if the program ends all the same.
pub fn run_closing_output(command: Command, input: &[u8], bytes: usize) -> Vec<u8> {
    ended_well(closing_output(command, input, bytes)).output
}

/// The same, or how the program ended if not well.
pub fn closing_output(command: Command, input: &[u8], bytes: usize) -> Result<Seen, String> {
    finish(start_piped(command), &[input], bytes)
}

/// What is seen of a run; one that did not end well fails the test.
fn ended_well(seen: Result<Seen, String>) -> Seen {
    seen.unwrap_or_else(|end| panic!("{end}"))
}

/// Starts a command with pipes for its input and its output.
fn start_piped(mut command: Command) -> Child {
    start(command.stdin(Stdio::piped()))
}

/// Starts a command with a pipe for its output.
fn start(command: &mut Command) -> Child {
    let started = command.stdout(Stdio::piped()).spawn();
    started.unwrap_or_else(|error| panic!("{command:?} does not start: {error}"))
}

/// Writes the input and reads the output at the same time, since either pipe may
/// fill up while the other one is waited for. An output that has so many bytes is
/// closed after them.
fn finish(mut child: Child, pieces: &[&[u8]], bytes: usize) -> Result<Seen, String> {
    let input = child.stdin.take();
    let output = child.stdout.take().filter(|_| bytes > 0);
    let (status, seen) = scope(|threads| {
        let feeding = threads.spawn(|| feed(input, pieces));
        let reading = threads.spawn(|| read_start(output, bytes));
        let status = wait(child);
        let seen = Seen {
            output: reading.join().expect("output read"),
            all_taken: feeding.join().expect("input written"),
        };
        (status, seen)
    });
    let closed = seen.output.len() == bytes;
    match status.success() || closed && status.signal() == Some(SIGPIPE) {
        true => Ok(seen),
        false => Err(bad_end(status, &seen.output)),
    }
}

/// How a program ended, if not well.
fn bad_end(status: ExitStatus, output: &[u8]) -> String {
    let bytes = output.len();
    format!("the program ended with {status}, after {bytes} bytes of output were read")
}

/// Writes the pieces and closes the input. Between two pieces a short sleep
/// gives the program time to read the first alone; what it must answer does not
/// depend on it. A program that has ended takes no more, which is no error.
fn feed(input: Option<ChildStdin>, pieces: &[&[u8]]) -> bool {
    let Some(mut input) = input else {
        return true;
    };
    for (place, piece) in pieces.iter().enumerate() {
        if place > 0 {
            sleep(Duration::from_micros(1));
        }
        match input.write_all(piece).and_then(|()| input.flush()) {
            Err(error) if error.kind() == ErrorKind::BrokenPipe => return false,
            written => written.expect("input written"),
        }
    }
    true
}

/// Reads the output, at most so many bytes, and closes it.
fn read_start(output: Option<ChildStdout>, bytes: usize) -> Vec<u8> {
    let mut read = Vec::new();
    if let Some(output) = output {
        let mut start = output.take(bytes as u64);
        start.read_to_end(&mut read).expect("output read");
    }
    read
}

/// Waits until the program ends.
fn wait(mut child: Child) -> ExitStatus {
    let start = Instant::now();
    loop {
        if let Some(status) = child.try_wait().expect("a child's status") {
            return status;
        }
        if start.elapsed() > ENDLESS {
            child.kill().expect("a child to end");
            child.wait().expect("a child's status");
            panic!("the program did not end within {ENDLESS:?}");
        }
        sleep(Duration::from_micros(100));
    }
}
