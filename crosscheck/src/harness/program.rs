//! Runs a built program: feeds its standard input piece by piece and gathers what it prints,
//! within a time limit.

use std::io::{BufReader, ErrorKind, Read, Write};
use std::path::Path;
use std::process::{Child, ChildStdin, Command, Stdio};
use std::sync::mpsc::{self, Receiver, RecvTimeoutError};
use std::thread;
use std::time::{Duration, Instant};

const LIMIT: Duration = Duration::from_secs(5);
const PAUSE: Duration = Duration::from_millis(300);

/// Pieces to be written with a pause between them.
pub struct Input {
    pub pieces: Vec<Vec<u8>>,
    pub stays_open: bool,
}

impl Input {
    /// All of it at once, and the end of the input behind it.
    pub fn whole(text: impl Into<Vec<u8>>) -> Input {
        Input {
            pieces: vec![text.into()],
            stays_open: false,
        }
    }
}

/// What is seen of a run, each byte of its texts as one character. `lines_in_time`: the awaited lines came within the limit, while an input
/// that stays open was still open. `exit` is none if the program had to be stopped.
#[derive(Debug, PartialEq)]
pub struct Run {
    pub output: String,
    pub errors: String,
    pub lines_in_time: bool,
    pub exit: Option<i32>,
}

pub fn run(program: &Path, arguments: &[&str], input: Input, awaited_lines: usize) -> Run {
    let mut child = Command::new(program)
        .args(arguments)
        .stdin(Stdio::piped())
        .stdout(Stdio::piped())
        .stderr(Stdio::piped())
        .spawn()
        .unwrap_or_else(|error| panic!("cannot start {}: {error}", program.display()));
    let stdin = child.stdin.take().expect("standard input is piped");
    let stdout = gathered(child.stdout.take().expect("standard output is piped"));
    let stderr = gathered(child.stderr.take().expect("standard error is piped"));
    let (may_close, closing) = mpsc::channel();
    let feeder = thread::spawn(move || feed(stdin, input, closing));

    let mut output = Vec::new();
    let lines = |text: &[u8]| text.iter().filter(|&&byte| byte == b'\n').count();
    let lines_in_time = take_until(&stdout, &mut output, |text| lines(text) >= awaited_lines);
    drop(may_close);
    let exit = ended(&mut child);
    take_until(&stdout, &mut output, |_| false);
    let mut errors = Vec::new();
    take_until(&stderr, &mut errors, |_| false);
    feeder.join().expect("the input can be written");
    Run {
        output: as_characters(&output),
        errors: as_characters(&errors),
        lines_in_time,
        exit,
    }
}

/// Each byte as the character of that number, so that different bytes are different texts.
pub fn as_characters(bytes: &[u8]) -> String {
    bytes.iter().map(|&byte| char::from(byte)).collect()
}

/// Writes the pieces; a program that ends before it has read them all is within its rights.
fn feed(mut stdin: ChildStdin, input: Input, closing: Receiver<()>) {
    for (n, piece) in input.pieces.iter().enumerate() {
        if n > 0 {
            thread::sleep(PAUSE);
        }
        match stdin.write_all(piece) {
            Err(error) if error.kind() == ErrorKind::BrokenPipe => return,
            written => written.expect("a pipe takes bytes or is broken"),
        }
    }
    if input.stays_open {
        let _released_when_the_sender_is_dropped = closing.recv();
    }
}

/// The bytes of a stream, read as they come.
fn gathered(stream: impl Read + Send + 'static) -> Receiver<u8> {
    let (sender, receiver) = mpsc::sync_channel(4096);
    thread::spawn(move || {
        for byte in BufReader::new(stream).bytes().map_while(Result::ok) {
            if sender.send(byte).is_err() {
                return;
            }
        }
    });
    receiver
}

/// Takes bytes until there are enough or the stream ends; false if the limit passes before.
fn take_until(bytes: &Receiver<u8>, taken: &mut Vec<u8>, enough: impl Fn(&[u8]) -> bool) -> bool {
    let end = Instant::now() + LIMIT;
    while !enough(taken) {
        let left = end.saturating_duration_since(Instant::now());
        match bytes.recv_timeout(left) {
            Ok(byte) => taken.push(byte),
            Err(RecvTimeoutError::Disconnected) => return true,
            Err(RecvTimeoutError::Timeout) => return false,
        }
        if left.is_zero() {
            return false;
        }
    }
    true
}

/// The exit status of a program that ends within the limit; another one is stopped.
fn ended(child: &mut Child) -> Option<i32> {
    let end = Instant::now() + LIMIT;
    while Instant::now() < end {
        let status = child.try_wait().expect("a child can be waited for");
        if let Some(status) = status {
            return status.code();
        }
        thread::sleep(Duration::from_millis(1));
    }
    child.kill().expect("a child can be stopped");
    child.wait().expect("a stopped child ends");
    None
}
