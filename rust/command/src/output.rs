//! Where a command's words and bytes go: standard output and standard error, at once or, where several files are worked on side by side,
//! by way of the thread that keeps the files' order.
use crate::failure::Failure;
use crate::shared::Shared;
use std::fs::File;
use std::io::{self, IsTerminal, Write};
use std::os::fd::AsFd;
use std::sync::mpsc::SyncSender;
use std::sync::Arc;

/// A part of what a file's work gives.
pub enum Part {
    /// For standard output.
    Out(Vec<u8>),
    /// For standard error.
    Words(Vec<u8>),
}

enum Way {
    /// Written at once.
    Streams(Streams),
    /// Handed to the thread that writes.
    Thread(SyncSender<Part>),
}

/// As many bytes are gathered before they are written.
const FULL: usize = 1 << 16;

/// The output of one file's work.
pub struct Output {
    gathered: Vec<u8>,
    way: Way,
    failure: Option<Failure>,
}

impl Output {
    /// An output to the streams themselves.
    pub fn direct(streams: Streams) -> Output {
        Output { gathered: Vec::with_capacity(2 * FULL), way: Way::Streams(streams), failure: None }
    }

    /// An output to the thread that writes.
    pub fn by_thread(sender: SyncSender<Part>) -> Output {
        Output { gathered: Vec::with_capacity(2 * FULL), way: Way::Thread(sender), failure: None }
    }

    /// What is gathered for standard output, to be added to.
    pub fn gathered(&mut self) -> &mut Vec<u8> {
        &mut self.gathered
    }

    /// Writes what is gathered once that is enough to be worth a call.
    pub fn write_full(&mut self) -> Result<(), Failure> {
        if self.gathered.len() < FULL {
            return Ok(());
        }
        self.flush()
    }

    /// Writes what is gathered.
    pub fn flush(&mut self) -> Result<(), Failure> {
        if self.gathered.is_empty() {
            return Ok(());
        }
        let written = match &mut self.way {
            Way::Streams(streams) => streams.write(&self.gathered),
            Way::Thread(sender) => sender.send(Part::Out(std::mem::take(&mut self.gathered))).map_err(|_| Failure::Stopped),
        };
        self.gathered.clear();
        written
    }

    /// Says something on standard error, behind all that was written before.
    pub fn say(&mut self, words: &str) -> Result<(), Failure> {
        self.flush()?;
        match &mut self.way {
            Way::Streams(streams) => streams.say(words.as_bytes()),
            Way::Thread(sender) => sender.send(Part::Words(words.as_bytes().to_vec())).map_err(|_| Failure::Stopped)?,
        }
        Ok(())
    }

    /// Writes what is gathered before a read that may wait. A failure is kept, since it is none of the file that is read.
    pub fn flush_before_read(&mut self) -> io::Result<()> {
        match self.flush() {
            Ok(()) => Ok(()),
            Err(failure) => {
                self.failure = Some(failure);
                Err(io::Error::other("the output has failed"))
            }
        }
    }

    /// The failure that was kept.
    pub fn take_failure(&mut self) -> Option<Failure> {
        self.failure.take()
    }
}

/// Standard output and standard error.
#[derive(Clone)]
pub struct Streams {
    out: Arc<File>,
    shared: Arc<Shared>,
}

impl Streams {
    /// Standard output without Rust's own buffer, which would look for line ends in all that passes.
    pub fn new(shared: Arc<Shared>) -> Result<Streams, Failure> {
        let descriptor = io::stdout().as_fd().try_clone_to_owned().map_err(Failure::Output)?;
        Ok(Streams { out: Arc::new(File::from(descriptor)), shared })
    }

    /// Writes all of this to standard output.
    pub fn write(&self, bytes: &[u8]) -> Result<(), Failure> {
        let _cleared = self.out.is_terminal().then(|| self.shared.clear());
        (&*self.out).write_all(bytes).map_err(Failure::Output)
    }

    /// Says this on standard error. Where that is closed too, nobody can be told.
    pub fn say(&self, words: &[u8]) {
        let _cleared = self.shared.clear();
        let _ = io::stderr().write_all(words);
    }
}
