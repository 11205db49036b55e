//! What is said on standard error: refusals and failures always; on a terminal also what is being done, once it takes over a second, and
//! what was written.
use std::io::{self, IsTerminal, Write};
use std::sync::mpsc::{self, RecvTimeoutError, Sender};
use std::sync::{Arc, Mutex};
use std::thread::{self, JoinHandle};
use std::time::{Duration, Instant};

/// What is being done, and whether a line of it stands on the terminal.
#[derive(Default)]
struct Shown {
    doing: String,
    stands: bool,
}

pub struct Progress {
    shown: Arc<Mutex<Shown>>,
    quiet: bool,
    clock: Option<(Sender<()>, JoinHandle<()>)>,
}

/// Standard error may be closed: then nothing is said.
fn put(text: &str) {
    let _ = io::stderr().write_all(text.as_bytes());
}

/// The thread that shows the line, and what ends it; none where the system gives none.
fn clock(shown: Arc<Mutex<Shown>>) -> Option<(Sender<()>, JoinHandle<()>)> {
    let (stop, stopped) = mpsc::channel();
    let begun = Instant::now();
    let ticking = move || {
        let mut wait = Duration::from_secs(1);
        while stopped.recv_timeout(wait) == Err(RecvTimeoutError::Timeout) {
            wait = Duration::from_millis(200);
            let mut shown = shown.lock().unwrap_or_else(|poisoned| poisoned.into_inner());
            if !shown.doing.is_empty() {
                put(&format!("\r\x1b[K{}, {} s", shown.doing, begun.elapsed().as_secs()));
                shown.stands = true;
            }
        }
    };
    thread::Builder::new().spawn(ticking).ok().map(|ticking| (stop, ticking))
}

impl Progress {
    pub fn new(quiet: bool) -> Progress {
        let quiet = quiet || !io::stderr().is_terminal();
        let shown = Arc::new(Mutex::new(Shown::default()));
        let clock = if quiet { None } else { clock(Arc::clone(&shown)) };
        Progress { shown, quiet, clock }
    }

    /// The end of a long name stands for it: a line wider than the terminal could not be taken away.
    pub fn now(&self, doing: String) {
        let long = doing.chars().count();
        let end = if long > 60 { format!("..{}", doing.chars().skip(long - 58).collect::<String>()) } else { doing };
        self.shown.lock().unwrap_or_else(|poisoned| poisoned.into_inner()).doing = end;
    }

    /// Takes the line away that stands.
    fn clear(&self) {
        let mut shown = self.shown.lock().unwrap_or_else(|poisoned| poisoned.into_inner());
        shown.doing.clear();
        if std::mem::take(&mut shown.stands) {
            put("\r\x1b[K");
        }
    }

    /// A line that has to be said; an empty one is not.
    pub fn say(&self, line: &str) {
        self.clear();
        if !line.is_empty() {
            put(&format!("postlapse: {line}\n"));
        }
    }

    /// What went well, in words if there are any.
    pub fn done(&self, line: &str) {
        self.clear();
        if !self.quiet && !line.is_empty() {
            put(&format!("{line}\n"));
        }
    }
}

impl Drop for Progress {
    fn drop(&mut self) {
        if let Some((stop, ticking)) = self.clock.take() {
            drop(stop);
            let _ = ticking.join();
        }
        self.clear();
    }
}
