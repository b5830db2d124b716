//! Running a program on an input, and what it printed.

use std::env;
use std::ffi::OsString;
use std::io::{ErrorKind, Read, Write};
use std::process::{Child, ChildStdin, Command, ExitStatus, Stdio};
use std::thread::{self, sleep};
use std::time::{Duration, Instant};

/// A program that takes longer for an input is ended, and the test has failed.
const TIME_LIMIT: Duration = Duration::from_secs(20);
/// Between two pieces of an input; by then the program waits for the second.
const PAUSE: Duration = Duration::from_millis(1);

/// The path of a program, from an environment variable. A test whose program is
/// missing has failed.
pub fn program(variable: &str) -> OsString {
    env::var_os(variable).unwrap_or_else(|| panic!("{variable} is not set: there is no program to play"))
}

pub fn start(program: &OsString, input: Stdio) -> Child {
    let mut command = Command::new(program);
    command.stdin(input).stdout(Stdio::piped()).stderr(Stdio::piped());
    command.spawn().unwrap_or_else(|error| panic!("{}: {error}", program.to_string_lossy()))
}

/// Each piece is written alone, with a pause after it. The program may stop
/// reading once it has seen that the text is too long.
fn feed(mut stdin: ChildStdin, pieces: &[&[u8]]) {
    for piece in pieces {
        match stdin.write_all(piece).and_then(|()| stdin.flush()) {
            Err(error) if error.kind() == ErrorKind::BrokenPipe => return,
            written => written.expect("the program reads on"),
        }
        sleep(PAUSE);
    }
}

pub struct Printed {
    pub status: ExitStatus,
    pub output: Vec<u8>,
    pub errors: Vec<u8>,
}

pub fn finish(mut child: Child) -> Printed {
    let mut stdout = child.stdout.take().expect("standard output is a pipe");
    let mut stderr = child.stderr.take().expect("standard error is a pipe");
    let output = thread::spawn(move || all_of(&mut stdout));
    let errors = thread::spawn(move || all_of(&mut stderr));
    let status = wait(&mut child);
    let bytes = |reader: thread::JoinHandle<Vec<u8>>| reader.join().expect("the reader does not fail");
    Printed { status, output: bytes(output), errors: bytes(errors) }
}

fn all_of(pipe: &mut impl Read) -> Vec<u8> {
    let mut bytes = Vec::new();
    pipe.read_to_end(&mut bytes).expect("the pipe can be read");
    bytes
}

fn wait(child: &mut Child) -> ExitStatus {
    let start = Instant::now();
    loop {
        if let Some(status) = child.try_wait().expect("the program was started") {
            return status;
        }
        if start.elapsed() > TIME_LIMIT {
            child.kill().expect("the program was started");
        }
        sleep(Duration::from_micros(300));
    }
}

/// Gives an input piece by piece; the program must print this.
pub fn assert_prints(program: &OsString, pieces: &[&[u8]], wanted: &[u8]) {
    assert_printed(printed(program, pieces), wanted, &pieces.concat());
}

/// What a program prints for an input that is given piece by piece.
pub fn printed(program: &OsString, pieces: &[&[u8]]) -> Printed {
    let mut child = start(program, Stdio::piped());
    let stdin = child.stdin.take().expect("standard input is a pipe");
    thread::scope(|scope| {
        scope.spawn(|| feed(stdin, pieces));
        finish(child)
    })
}

pub fn assert_printed(printed: Printed, wanted: &[u8], input: &[u8]) {
    let Printed { status, output, errors } = printed;
    let is_right = output == wanted && status.success();
    assert!(
        is_right,
        "input: b\"{}\"\nshould print: \"{}\"\nprints: \"{}\"\n{status}\nstandard error: {}",
        input.escape_ascii(),
        wanted.escape_ascii(),
        output.escape_ascii(),
        String::from_utf8_lossy(&errors)
    );
}
