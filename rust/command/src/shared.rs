//! What the work on several files has in common: how far it has come, and whether it is still asked for.
use crate::usage::Input;
use std::io::{self, IsTerminal, Write};
use std::sync::atomic::{AtomicBool, AtomicU64, Ordering};
use std::sync::{Mutex, MutexGuard};
use std::time::Duration;

/// How often the line of progress is written anew.
const PAUSE: Duration = Duration::from_millis(200);

/// How far the work has come.
pub struct Shared {
    command: &'static str,
    /// Bytes of all files together, where that is known beforehand.
    total: Option<u64>,
    read: AtomicU64,
    is_over: AtomicBool,
    /// Whether a line of progress stands on the terminal.
    is_shown: Mutex<bool>,
}

impl Shared {
    pub fn new(command: &'static str, inputs: &[Input]) -> Shared {
        let size = |input: &Input| match input {
            Input::Standard => None,
            Input::File(path) => path.metadata().ok().filter(|file| file.is_file()).map(|file| file.len()),
        };
        let total = inputs.iter().map(size).sum();
        Shared { command, total, read: AtomicU64::new(0), is_over: AtomicBool::new(false), is_shown: Mutex::new(false) }
    }

    /// So many bytes more were read.
    pub fn count(&self, bytes: usize) {
        self.read.fetch_add(bytes as u64, Ordering::Relaxed);
    }

    /// Nothing more is asked for.
    pub fn stop(&self) {
        self.is_over.store(true, Ordering::Relaxed);
    }

    fn is_stopped(&self) -> bool {
        self.is_over.load(Ordering::Relaxed)
    }

    /// Takes the line of progress off the terminal, so that another line can be written there. It stays off as long as this is held.
    pub fn clear(&self) -> MutexGuard<'_, bool> {
        let mut is_shown = self.is_shown.lock().unwrap_or_else(|poisoned| poisoned.into_inner());
        if *is_shown {
            let _ = io::stderr().write_all(b"\r\x1b[K");
            *is_shown = false;
        }
        is_shown
    }

    /// Shows the progress on standard error until the work is over, where that is a terminal.
    pub fn show_progress(&self) {
        while io::stderr().is_terminal() && !self.is_stopped() {
            std::thread::park_timeout(PAUSE);
            let mut is_shown = self.is_shown.lock().unwrap_or_else(|poisoned| poisoned.into_inner());
            if !self.is_stopped() {
                let _ = write!(io::stderr(), "\r\x1b[K{}", self.line());
                *is_shown = true;
            }
        }
        drop(self.clear());
    }

    fn line(&self) -> String {
        let megabytes = |bytes: u64| bytes / 1_000_000;
        let read = self.read.load(Ordering::Relaxed);
        match self.total {
            Some(total) if total > 0 => {
                let percent = (100 * read / total).min(100);
                format!("gmti {}: {percent} %, {} of {} MB", self.command, megabytes(read), megabytes(total))
            }
            _ => format!("gmti {}: {} MB", self.command, megabytes(read)),
        }
    }
}
