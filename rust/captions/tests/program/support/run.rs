//! The program run with some arguments, and what came of it.

use std::ffi::OsStr;
use std::io::Write;
use std::path::Path;
use std::process::{Child, Command, Output, Stdio};
use std::thread;
use std::time::{Duration, Instant};

/// The program as cargo built it.
pub const PROGRAM: &str = env!("CARGO_BIN_EXE_captions");

/// A run to come.
pub struct Run {
    command: Command,
    input: Option<Vec<u8>>,
}

/// What came of a run.
#[derive(Debug)]
pub struct Ran {
    /// The exit status.
    pub status: i32,
    /// What stands on standard output.
    pub out: Vec<u8>,
    /// What stands on standard error.
    pub err: String,
}

/// The program with the words of this text as its first arguments.
pub fn captions(words: &str) -> Run {
    Run::of(Command::new(PROGRAM)).words(words)
}

/// A line for the shell in which `"$@"` stands for the program and what is given
/// after it.
pub fn shell(line: &str) -> Run {
    let mut command = Command::new("sh");
    command.args(["-c", line, "sh", PROGRAM]);
    Run::of(command)
}

/// The program with these words, and with no more memory than it should ever need:
/// one that reads on and on comes to an end.
pub fn frugal(words: &str) -> Run {
    shell("ulimit -v 1000000; exec \"$@\"").words(words)
}

/// A line for the shell that runs in a terminal, which the command `script` gives;
/// the terminal's output comes on standard output.
pub fn in_terminal(line: &str) -> Run {
    let mut command = Command::new("script");
    command.args(["-q", "-e", "-c", line, "/dev/null"]);
    Run::of(command)
}

impl Run {
    /// The command in an environment of its own: UTF-8, and nothing that asks for
    /// colours or a width.
    fn of(mut command: Command) -> Run {
        let path = std::env::var_os("PATH").unwrap_or_default();
        command.env_clear().env("PATH", path);
        command.env("LC_ALL", "C.UTF-8").env("TERM", "xterm");
        Run {
            command,
            input: None,
        }
    }

    /// Adds an argument.
    pub fn with(mut self, argument: impl AsRef<OsStr>) -> Run {
        self.command.arg(argument);
        self
    }

    /// Adds the words of this text as arguments.
    pub fn words(mut self, words: &str) -> Run {
        self.command.args(words.split_whitespace());
        self
    }

    /// Sets an environment variable.
    pub fn set(mut self, name: &str, value: &str) -> Run {
        self.command.env(name, value);
        self
    }

    /// Removes an environment variable.
    pub fn unset(mut self, name: &str) -> Run {
        self.command.env_remove(name);
        self
    }

    /// Runs in this folder.
    pub fn within(mut self, folder: &Path) -> Run {
        self.command.current_dir(folder);
        self
    }

    /// Hands these bytes over on standard input, which is empty otherwise.
    pub fn input(mut self, bytes: &[u8]) -> Run {
        self.input = Some(bytes.to_vec());
        self
    }

    /// Starts the run with this standard input; the other two streams are pipes.
    pub fn start(mut self, input: Stdio) -> Child {
        self.command.stdin(input);
        self.command.stdout(Stdio::piped()).stderr(Stdio::piped());
        self.command.spawn().expect("the program starts")
    }

    /// Runs to the end.
    pub fn run(mut self) -> Ran {
        let input = self.input.take();
        let Some(bytes) = input else {
            let output = self.start(Stdio::null()).wait_with_output();
            return Ran::of(&output.expect("the program ends"));
        };
        let mut child = self.start(Stdio::piped());
        let mut pipe = child.stdin.take().expect("a pipe");
        // A program that has seen enough stops reading.
        let feeding = thread::spawn(move || drop(pipe.write_all(&bytes)));
        let output = child.wait_with_output().expect("the program ends");
        feeding.join().expect("the feeding ends");
        Ran::of(&output)
    }

    /// Runs to the end, which has to come within some seconds although standard
    /// input never ends: it gives these bytes over and over.
    pub fn run_endless(self, over_and_over: &[u8]) -> Ran {
        let mut child = self.start(Stdio::piped());
        let mut pipe = child.stdin.take().expect("a pipe");
        let bytes = over_and_over.to_vec();
        let feeding = thread::spawn(move || while pipe.write_all(&bytes).is_ok() {});
        end_in_time(&mut child);
        feeding.join().expect("the feeding ends");
        Ran::of(&child.wait_with_output().expect("the program ends"))
    }
}

/// Waits for a child; one that takes too long is ended, and fails the test.
fn end_in_time(child: &mut Child) {
    let start = Instant::now();
    while child.try_wait().expect("a child").is_none() {
        if start.elapsed() > Duration::from_secs(20) {
            child.kill().expect("a child that runs");
        }
        thread::sleep(Duration::from_millis(2));
    }
}

impl Ran {
    /// What came of it; a run that ended by a signal, by a panic or with another
    /// status than 0, 1 and 2 fails the test.
    pub fn of(output: &Output) -> Ran {
        let err = String::from_utf8_lossy(&output.stderr).into_owned();
        let status = output.status.code();
        let status = status.unwrap_or_else(|| panic!("ended by a signal: {err}"));
        assert!((0..=2).contains(&status), "status {status}: {err}");
        assert!(!err.contains("panicked"), "{err}");
        Ran {
            status,
            out: output.stdout.clone(),
            err,
        }
    }

    /// Standard output as text.
    pub fn text(&self) -> &str {
        std::str::from_utf8(&self.out).expect("text on standard output")
    }

    /// The text on standard output of a run with status 0 and no message.
    pub fn whole(self) -> String {
        assert_eq!((self.status, self.err.as_str()), (0, ""));
        self.text().to_string()
    }

    /// The message of a run that refused: status 1 and nothing on standard output.
    pub fn refused(self) -> String {
        assert_eq!(self.status, 1, "{}", self.err);
        assert_eq!(self.text(), "", "{}", self.err);
        self.message()
    }

    /// The message of a wrong call: status 2 and nothing on standard output.
    pub fn called_wrongly(self) -> String {
        assert_eq!(self.status, 2, "{}", self.err);
        assert_eq!(self.text(), "", "{}", self.err);
        let message = self.message();
        assert!(message.contains("--help explains"), "{message}");
        message
    }

    /// The message on standard error.
    pub fn message(&self) -> String {
        assert!(self.err.starts_with("captions: "), "{:?}", self.err);
        self.err.clone()
    }
}
