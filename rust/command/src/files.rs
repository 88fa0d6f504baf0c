//! The work on the files that are named: one after another, or several side by side, with what they give in the files' order.
use crate::failure::Failure;
use crate::output::{Output, Part, Streams};
use crate::shared::Shared;
use crate::usage::{Asked, Input, Status};
use gmti::{Found, RecordingAhead, RecordingReader};
use std::cell::RefCell;
use std::collections::VecDeque;
use std::fs::File;
use std::io::{self, Read};
use std::os::fd::AsFd;
use std::sync::mpsc::{sync_channel, Receiver, SyncSender};
use std::sync::Arc;
use std::thread;

/// How many parts of a file's output wait at most until it is its turn.
const WAITING: usize = 64;

/// A file whose bytes are counted as they are read.
struct Counted {
    file: File,
    shared: Arc<Shared>,
}

impl Read for Counted {
    fn read(&mut self, to: &mut [u8]) -> io::Result<usize> {
        let length = self.file.read(to)?;
        self.shared.count(length);
        Ok(length)
    }
}

/// Such a file of which a read may wait: all that was told so far is written before.
struct Live<'w> {
    file: Counted,
    output: &'w RefCell<Output>,
}

impl Read for Live<'_> {
    fn read(&mut self, to: &mut [u8]) -> io::Result<usize> {
        self.output.borrow_mut().flush_before_read()?;
        self.file.read(to)
    }
}

/// A recording that is walked through, as it comes or ahead.
trait Walked {
    fn next_found(&mut self) -> io::Result<Option<Found<'_>>>;
}

impl<R: Read> Walked for RecordingReader<R> {
    #[inline(always)]
    fn next_found(&mut self) -> io::Result<Option<Found<'_>>> {
        RecordingReader::next_found(self)
    }
}

impl Walked for RecordingAhead {
    #[inline(always)]
    fn next_found(&mut self) -> io::Result<Option<Found<'_>>> {
        RecordingAhead::next_found(self)
    }
}

fn open(input: &Input) -> io::Result<File> {
    match input {
        Input::Standard => Ok(io::stdin().as_fd().try_clone_to_owned()?.into()),
        Input::File(path) => File::open(path),
    }
}

/// The work on one file.
pub struct Work<'w> {
    pub input: &'w Input,
    pub output: RefCell<Output>,
    shared: Arc<Shared>,
    /// Whether a processor is free to read ahead.
    reads_ahead: bool,
}

impl Work<'_> {
    fn open(&self) -> Result<Counted, Failure> {
        let file = open(self.input).map_err(|error| self.failure("cannot be opened", error))?;
        Ok(Counted { file, shared: self.shared.clone() })
    }

    /// All bytes of the file, or so many of them where it has more.
    pub fn bytes(&self, most: usize) -> Result<Vec<u8>, Failure> {
        let mut bytes = Vec::new();
        match self.open()?.take(most as u64).read_to_end(&mut bytes) {
            Ok(_) => Ok(bytes),
            Err(error) => Err(self.failure("cannot be read", error)),
        }
    }

    /// The failure of this file or, where it was that which failed, of the output.
    fn failure(&self, what: &'static str, error: io::Error) -> Failure {
        let of_output = self.output.borrow_mut().take_failure();
        of_output.unwrap_or_else(|| Failure::Input { name: self.input.in_line(), what, error })
    }

    /// Hands each packet and each skipped range of the recording to `each`, in order. A file is read ahead; of anything else, such as a
    /// pipe, no more is read than is needed to tell the next.
    pub fn walk(&self, each: impl FnMut(Found<'_>, &mut Output) -> Result<(), Failure>) -> Result<(), Failure> {
        let file = self.open()?;
        let is_file = file.file.metadata().is_ok_and(|metadata| metadata.is_file());
        if is_file && self.reads_ahead {
            return self.walk_through(RecordingAhead::new(file), each);
        }
        self.walk_through(RecordingReader::new(Live { file, output: &self.output }), each)
    }

    fn walk_through(
        &self,
        mut recording: impl Walked,
        mut each: impl FnMut(Found<'_>, &mut Output) -> Result<(), Failure>,
    ) -> Result<(), Failure> {
        loop {
            match recording.next_found() {
                Ok(Some(found)) => each(found, &mut self.output.borrow_mut())?,
                Ok(None) => return self.output.borrow_mut().flush(),
                Err(error) => return Err(self.failure("cannot be read", error)),
            }
        }
    }
}

/// What all files came to, and whether one of them failed.
pub struct Done<T> {
    pub each: Vec<T>,
    has_failed: bool,
    /// For what is told of all files together.
    pub streams: Streams,
}

impl<T> Done<T> {
    /// The status that all come to.
    pub fn status(&self, status_of: impl Fn(&T) -> Status) -> Status {
        let failed = if self.has_failed { Status::Failed } else { Status::Clean };
        self.each.iter().map(status_of).fold(failed, Status::max)
    }
}

/// Does the work on every file. A file that fails is said and passed over; where the output fails, nothing more is done.
pub fn on_each<T: Send>(asked: &Asked, work: impl Fn(&Work<'_>) -> Result<T, Failure> + Sync) -> Result<Done<T>, Failure> {
    let shared = Arc::new(Shared::new(asked.command.name, &asked.inputs));
    let streams = Streams::new(shared.clone())?;
    let jobs = asked.jobs.min(asked.inputs.len());
    thread::scope(|scope| {
        let ticker = scope.spawn(|| shared.show_progress());
        let mut collected = Collected { command: asked.command.name, done: Done { each: Vec::new(), has_failed: false, streams } };
        let ended = match jobs {
            1 => one_by_one(asked, &shared, &work, &mut collected),
            _ => side_by_side(asked, &shared, jobs, &work, &mut collected),
        };
        shared.stop();
        ticker.thread().unpark();
        ended.map(|()| collected.done)
    })
}

/// What the files have come to so far.
struct Collected<T> {
    command: &'static str,
    done: Done<T>,
}

impl<T> Collected<T> {
    /// Adds what a file came to. A failure that is the file's own is said.
    fn add(&mut self, result: Result<T, Failure>) -> Result<(), Failure> {
        match result {
            Ok(came_to) => self.done.each.push(came_to),
            Err(failure) if failure.is_final() => return Err(failure),
            Err(failure) => {
                self.done.streams.say(format!("gmti {}: {failure}\n", self.command).as_bytes());
                self.done.has_failed = true;
            }
        }
        Ok(())
    }
}

fn one_by_one<T>(
    asked: &Asked,
    shared: &Arc<Shared>,
    work: &impl Fn(&Work<'_>) -> Result<T, Failure>,
    collected: &mut Collected<T>,
) -> Result<(), Failure> {
    for input in &asked.inputs {
        let output = RefCell::new(Output::direct(collected.done.streams.clone()));
        let reads_ahead = thread::available_parallelism().is_ok_and(|processors| processors.get() > 1);
        let task = Work { input, output, shared: shared.clone(), reads_ahead };
        let result = work(&task);
        // What a file gave before it failed is told before the failure is.
        task.output.borrow_mut().flush()?;
        collected.add(result)?;
    }
    Ok(())
}

fn side_by_side<T: Send>(
    asked: &Asked,
    shared: &Arc<Shared>,
    jobs: usize,
    work: &(impl Fn(&Work<'_>) -> Result<T, Failure> + Sync),
    collected: &mut Collected<T>,
) -> Result<(), Failure> {
    let mut inputs = asked.inputs.iter();
    thread::scope(|scope| {
        let mut running = VecDeque::new();
        loop {
            running.extend(inputs.by_ref().take(jobs - running.len()).map(|input| {
                let (sender, receiver) = sync_channel(WAITING);
                (receiver, scope.spawn(move || in_thread(input, sender, shared, work)))
            }));
            let Some((receiver, thread)) = running.pop_front() else { return Ok(()) };
            if let Err(failure) = write_parts(receiver, &collected.done.streams) {
                // Whoever waits for its input, as from a silent pipe, cannot be told, so the others are not waited for.
                shared.stop();
                drop(shared.clear());
                failure.end(collected.command);
            }
            collected.add(thread.join().unwrap_or(Err(Failure::Stopped)))?;
        }
    })
}

fn in_thread<T>(
    input: &Input,
    sender: SyncSender<Part>,
    shared: &Arc<Shared>,
    work: &impl Fn(&Work<'_>) -> Result<T, Failure>,
) -> Result<T, Failure> {
    let task = Work { input, output: RefCell::new(Output::by_thread(sender)), shared: shared.clone(), reads_ahead: false };
    let result = work(&task);
    task.output.borrow_mut().flush()?;
    result
}

/// Writes what a file's work hands over, until it is done.
fn write_parts(parts: Receiver<Part>, streams: &Streams) -> Result<(), Failure> {
    for part in parts {
        match part {
            Part::Out(bytes) => streams.write(&bytes)?,
            Part::Words(words) => streams.say(&words),
        }
    }
    Ok(())
}
