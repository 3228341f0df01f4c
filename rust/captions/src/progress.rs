//! A line on standard error that tells how far long work is.

use std::io::{self, IsTerminal, Read, Write};
use std::sync::{Arc, Condvar, Mutex, MutexGuard, PoisonError};
use std::thread;
use std::time::Duration;

/// Work that is over by then shows no line.
const FIRST: Duration = Duration::from_secs(1);

/// How often the line is renewed.
const AGAIN: Duration = Duration::from_millis(250);

/// What is being done.
#[derive(Clone, Copy, Debug, PartialEq, Eq)]
pub enum Work {
    /// Nothing that is worth a line.
    Nothing,
    /// A file is read, of so many bytes if that is known.
    Bytes(Option<u64>),
    /// So many stores are worked on.
    Stores(u64),
    /// Something that can't be counted.
    Doing(&'static str),
}

#[derive(Debug)]
struct State {
    work: Work,
    done: u64,
    /// The length of the line that stands on the terminal.
    shown: usize,
    over: bool,
}

impl State {
    fn line(&self) -> Option<String> {
        match (self.work, self.done) {
            (Work::Nothing, _) | (Work::Bytes(None), 0) => None,
            (Work::Bytes(None), done) => Some(format!("captions: {done} bytes")),
            (Work::Bytes(Some(all)), done) => Some(format!("captions: {done} of {all} bytes")),
            (Work::Stores(all), done) => Some(format!("captions: {done} of {all} stores")),
            (Work::Doing(what), _) => Some(format!("captions: {what}")),
        }
    }

    fn wipe(&mut self) {
        if self.shown > 0 {
            draw(&format!("\r{:1$}\r", "", self.shown));
            self.shown = 0;
        }
    }

    /// Draws the line over the one before, in one go so that it doesn't flicker.
    fn renew(&mut self) {
        match self.line() {
            None => self.wipe(),
            Some(line) => {
                draw(&format!("\r{line:0$}", self.shown));
                self.shown = self.shown.max(line.len());
            }
        }
    }
}

/// Nothing is lost where the line can't be drawn.
fn draw(text: &str) {
    let mut error = io::stderr().lock();
    let _ = error.write_all(text.as_bytes());
    let _ = error.flush();
}

#[derive(Debug)]
struct Shared {
    state: Mutex<State>,
    over: Condvar,
}

impl Shared {
    fn lock(&self) -> MutexGuard<'_, State> {
        self.state.lock().unwrap_or_else(PoisonError::into_inner)
    }

    /// Renews the line until the work is over.
    fn watch(&self) {
        let mut state = self.lock();
        let mut pause = FIRST;
        loop {
            let waited = self
                .over
                .wait_timeout_while(state, pause, |state| !state.over);
            state = waited.unwrap_or_else(PoisonError::into_inner).0;
            if state.over {
                return;
            }
            state.renew();
            pause = AGAIN;
        }
    }
}

/// The line. Only where standard error is a terminal there is one.
#[derive(Clone, Debug)]
pub struct Progress {
    shared: Option<Arc<Shared>>,
}

impl Progress {
    /// Watches the work from now on.
    pub fn start() -> Progress {
        if !io::stderr().is_terminal() {
            return Progress { shared: None };
        }
        let shared = Arc::new(Shared {
            state: Mutex::new(State {
                work: Work::Nothing,
                done: 0,
                shown: 0,
                over: false,
            }),
            over: Condvar::new(),
        });
        let watched = Arc::clone(&shared);
        let watcher = thread::Builder::new().spawn(move || watched.watch());
        Progress {
            shared: watcher.is_ok().then_some(shared),
        }
    }

    /// Whether there is a terminal for it.
    pub fn is_shown(&self) -> bool {
        self.shared.is_some()
    }

    /// Begins with this work.
    pub fn begin(&self, work: Work) {
        if let Some(shared) = &self.shared {
            let mut state = shared.lock();
            state.work = work;
            state.done = 0;
        }
    }

    /// So many more bytes are read.
    pub fn add_bytes(&self, bytes: u64) {
        self.add(bytes, |work| matches!(work, Work::Bytes(_)));
    }

    /// One more store is done.
    pub fn add_store(&self) {
        self.add(1, |work| matches!(work, Work::Stores(_)));
    }

    /// So many more things are done, if they are those that are counted.
    fn add(&self, done: u64, counted: impl Fn(Work) -> bool) {
        if let Some(shared) = &self.shared {
            let mut state = shared.lock();
            if counted(state.work) {
                state.done = state.done.saturating_add(done);
            }
        }
    }

    /// Takes the line away while this is done, so that the two don't mix.
    pub fn without<T>(&self, task: impl FnOnce() -> T) -> T {
        let state = self.shared.as_ref().map(|shared| shared.lock());
        let held = state.map(|mut state| {
            state.wipe();
            state
        });
        let result = task();
        drop(held);
        result
    }

    /// Takes the line away for good.
    pub fn end(&self) {
        if let Some(shared) = &self.shared {
            let mut state = shared.lock();
            state.over = true;
            state.wipe();
            shared.over.notify_all();
        }
    }
}

/// A reader whose bytes are counted.
pub struct Counting<'a, R> {
    /// Where they come from.
    pub from: R,
    /// Where they are counted.
    pub progress: &'a Progress,
}

impl<R: Read> Read for Counting<'_, R> {
    fn read(&mut self, to: &mut [u8]) -> io::Result<usize> {
        let read = self.from.read(to)?;
        self.progress.add_bytes(read as u64);
        Ok(read)
    }
}

#[cfg(test)]
mod tests {
    use super::*;

    fn line(work: Work, done: u64) -> Option<String> {
        let state = State {
            work,
            done,
            shown: 0,
            over: false,
        };
        state.line()
    }

    #[test]
    fn the_line_tells_how_far_it_is() {
        let stores = line(Work::Stores(200), 37);
        assert_eq!(stores.as_deref(), Some("captions: 37 of 200 stores"));
        let bytes = line(Work::Bytes(None), 70);
        assert_eq!(bytes.as_deref(), Some("captions: 70 bytes"));
        let bytes = line(Work::Bytes(Some(588)), 70);
        assert_eq!(bytes.as_deref(), Some("captions: 70 of 588 bytes"));
        let doing = line(Work::Doing("repairing"), 0);
        assert_eq!(doing.as_deref(), Some("captions: repairing"));
    }

    #[test]
    fn nothing_is_shown_of_nothing() {
        assert_eq!(line(Work::Nothing, 7), None);
        // Whoever types the input in would be disturbed.
        assert_eq!(line(Work::Bytes(None), 0), None);
    }

    #[test]
    fn what_is_done_without_the_line_is_done() {
        let progress = Progress { shared: None };
        progress.begin(Work::Doing("repairing"));
        assert_eq!(progress.without(|| 7), 7);
        progress.end();
    }
}
