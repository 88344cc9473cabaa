//! The program that works through a capture, as the tests run it: on a file, and on a pipe whose bytes arrive piece by piece.

use std::fs::File;
use std::io::{self, Write};
use std::os::fd::AsRawFd;
use std::os::raw::{c_int, c_ulong};
use std::path::{Path, PathBuf};
use std::process::{ChildStdin, Command, Output, Stdio};
use std::sync::atomic::{AtomicBool, Ordering};
use std::time::Duration;
use std::{env, thread};

/// The program's file: RLC8681_CAPTURE where that is set, else a copy of the one that `rt run` in crates/capture writes.
fn file() -> PathBuf {
    let file = match env::var_os("RLC8681_CAPTURE") {
        Some(file) => PathBuf::from(file),
        None => Path::new(env!("CARGO_MANIFEST_DIR")).join("../target/bin/capture"),
    };
    assert!(file.is_absolute(), "RLC8681_CAPTURE is {}; it must be an absolute path", file.display());
    assert!(
        file.is_file(),
        "{} is not there: copy out/capture there after `rt run` in crates/capture, as tests/run does, or set RLC8681_CAPTURE to the program's file",
        file.display()
    );
    file
}

/// What it printed; it must have ended well.
fn output_of(output: io::Result<Output>) -> Vec<u8> {
    let Output { status, stdout, .. } = output.expect("the program's output");
    assert!(status.success(), "the program ended with {status}");
    stdout
}

/// What the program prints where its standard input is a file.
pub fn printed_of_file(input: &Path) -> Vec<u8> {
    let input = File::open(input).unwrap_or_else(|why| panic!("{}: {why}", input.display()));
    output_of(Command::new(file()).stdin(input).stderr(Stdio::inherit()).output())
}

/// What the program prints where its standard input is a pipe to which all of this is written.
pub fn printed(input: &[u8]) -> Vec<u8> {
    printed_when_fed(|pipe| pipe.write(input))
}

/// What the program prints where its standard input is a pipe, and this writes to it. What is left to write when the program has ended is not
/// missed: it need not read on after a bad first line, or after the last packet line that it may read.
pub fn printed_when_fed(feed: impl FnOnce(&mut Pipe) -> io::Result<()> + Send) -> Vec<u8> {
    let mut command = Command::new(file());
    let mut child = command.stdin(Stdio::piped()).stdout(Stdio::piped()).spawn().expect("the program started");
    let stdin = child.stdin.take().expect("its standard input");
    let ended = AtomicBool::new(false);
    thread::scope(|scope| {
        let feeding = scope.spawn(|| feed(&mut Pipe { stdin, ended: &ended }));
        let output = child.wait_with_output();
        ended.store(true, Ordering::Relaxed);
        match feeding.join().expect("the input") {
            Err(why) if why.kind() != io::ErrorKind::BrokenPipe => panic!("the input: {why}"),
            _ => output_of(output),
        }
    })
}

/// What the program prints where its standard input is a pipe to which this is written and that stays open: it must end all the same.
pub fn printed_while_open(input: &[u8]) -> Vec<u8> {
    let mut command = Command::new(file());
    let mut child = command.stdin(Stdio::piped()).stdout(Stdio::piped()).spawn().expect("the program started");
    let mut stdin = child.stdin.take().expect("its standard input");
    thread::scope(|scope| {
        let feeding = scope.spawn(move || {
            let _ = stdin.write_all(input); // the program may have ended before all is written
            stdin
        });
        let output = output_of(child.wait_with_output());
        drop(feeding.join().expect("the input"));
        output
    })
}

/// What the program writes to standard output and to standard error, run on these files.
pub fn written(input: File, output: Stdio) -> (Vec<u8>, Vec<u8>) {
    let mut command = Command::new(file());
    let child = command.stdin(input).stdout(output).stderr(Stdio::piped()).spawn().expect("the program started");
    let Output { status, stdout, stderr } = child.wait_with_output().expect("the program's output");
    assert!(status.success(), "the program ended with {status}");
    (stdout, stderr)
}

/// The pipe to a running program.
pub struct Pipe<'a> {
    stdin: ChildStdin,
    ended: &'a AtomicBool,
}

extern "C" {
    fn ioctl(file: c_int, request: c_ulong, ...) -> c_int;
}

impl Pipe<'_> {
    pub fn write(&mut self, bytes: &[u8]) -> io::Result<()> {
        self.stdin.write_all(bytes)
    }

    /// Writes a piece after the program has read all pieces before it, so that none of its reads gets more than one.
    pub fn write_alone(&mut self, bytes: &[u8]) -> io::Result<()> {
        for turn in 0.. {
            if self.unread() == 0 || self.ended.load(Ordering::Relaxed) {
                break;
            }
            if turn < 100 {
                thread::yield_now();
            } else {
                thread::sleep(Duration::from_micros(20));
            }
        }
        self.write(bytes)
    }

    /// How many bytes of the pipe were not read yet.
    fn unread(&self) -> c_int {
        const FIONREAD: c_ulong = 0x541B; // Linux
        let mut count: c_int = 0;
        // The request writes the count to the number that is lent, and nothing else
        let answer = unsafe { ioctl(self.stdin.as_raw_fd(), FIONREAD, &mut count) };
        assert_eq!(answer, 0, "FIONREAD: {}", io::Error::last_os_error());
        count
    }
}
