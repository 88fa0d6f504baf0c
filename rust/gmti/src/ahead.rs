//! A recording whose source is read and walked through in a thread of its own.
use crate::recording::{Step, Walk, HEADER};
use crate::{Found, LONGEST_PACKET};
use std::io::{Error, ErrorKind, Read, Result};
use std::sync::mpsc::{sync_channel, Receiver, SyncSender};
use std::vec::Vec;

/// How much is read at a time. Handing it over takes some calls of the system, so it is to be worth them.
const FAR: usize = 1024 * 1024;

/// The walk asks for more only while it has less than the longest packet and the header behind it. So much has room before what is read.
const LEFT: usize = LONGEST_PACKET + HEADER;

/// How many batches go round: one that is worked on, one that waits and one that is read into.
const BATCHES: usize = 3;

/// The packets and the skipped ranges of a recording, in order: those that [`RecordingReader`](crate::RecordingReader) finds. A thread of its
/// own reads the source, up to 2 MiB ahead, and finds them while those before are worked on. It is for files: a live source is asked for more
/// than is needed, and what comes of that is waited for. It takes 3.4 MB, and some more for where the packets are.
///
/// ```
/// # fn main() -> std::io::Result<()> {
/// use gmti::{Found, RecordingAhead};
/// let mut recording = RecordingAhead::new(std::fs::File::open("../../samples/recording.gmti")?);
/// let mut lengths = Vec::new();
/// while let Some(found) = recording.next_found()? {
///     match found {
///         Found::Packet { bytes, .. } => lengths.push(bytes.len()),
///         Found::Skipped { offset, length, reason } => panic!("offset {offset}, {length} bytes: {reason}"),
///     }
/// }
/// assert_eq!(lengths, [149, 231, 131, 112, 204, 261]);
/// # Ok(())
/// # }
/// ```
pub struct RecordingAhead {
    full: Receiver<Result<Batch>>,
    empty: SyncSender<Batch>,
    batch: Batch,
    /// The next of the batch.
    next: usize,
    /// Whether the last batch has come, or an error.
    has_ended: bool,
}

/// Bytes that were read, and what was found in them.
struct Batch {
    bytes: Vec<u8>,
    found: Vec<Place>,
    is_last: bool,
}

/// A packet, by where it begins in the recording and among the bytes, or a range that was skipped.
enum Place {
    Packet { offset: u64, start: usize, length: usize },
    Skipped(Found<'static>),
}

impl Batch {
    fn new() -> Batch {
        Batch { bytes: std::vec![0; LEFT + FAR], found: Vec::new(), is_last: false }
    }
}

impl RecordingAhead {
    /// The recording that the source holds, from where it stands. The source is dropped at its end, or soon after this is.
    ///
    /// ```
    /// # fn main() -> std::io::Result<()> {
    /// assert_eq!(gmti::RecordingAhead::new(std::io::empty()).next_found()?, None);
    /// # Ok(())
    /// # }
    /// ```
    pub fn new(source: impl Read + Send + 'static) -> RecordingAhead {
        let (empty, to_fill) = sync_channel(BATCHES);
        let (filled, full) = sync_channel(BATCHES);
        for _ in 1..BATCHES {
            // There is room for as many as go round.
            let _ = empty.send(Batch::new());
        }
        std::thread::spawn(move || fill(source, to_fill, filled));
        RecordingAhead { full, empty, batch: Batch::new(), next: 0, has_ended: false }
    }

    /// The next packet or skipped range, None at the end. The bytes of a packet are lent until the next call. Errors come as those of a
    /// [`RecordingReader`](crate::RecordingReader) do.
    ///
    /// ```
    /// # fn main() -> std::io::Result<()> {
    /// use gmti::{Found, Reason, RecordingAhead};
    /// let mut recording = RecordingAhead::new(&b"30\0\0"[..]);
    /// assert_eq!(recording.next_found()?, Some(Found::Skipped { offset: 0, length: 4, reason: Reason::CutShort }));
    /// assert_eq!(recording.next_found()?, None);
    /// # Ok(())
    /// # }
    /// ```
    #[inline(always)]
    pub fn next_found(&mut self) -> Result<Option<Found<'_>>> {
        while self.next == self.batch.found.len() {
            if !self.take_batch()? {
                return Ok(None);
            }
        }
        let place = &self.batch.found[self.next];
        self.next += 1;
        Ok(Some(match *place {
            Place::Packet { offset, start, length } => Found::Packet { offset, bytes: &self.batch.bytes[start..start + length] },
            Place::Skipped(range) => range,
        }))
    }

    /// Waits for the next batch; false where there is none.
    #[cold]
    fn take_batch(&mut self) -> Result<bool> {
        if self.has_ended {
            return Ok(false);
        }
        let next = self.full.recv().unwrap_or_else(|_| Err(Error::other("the thread that reads the recording has ended")));
        self.has_ended = next.as_ref().map_or(true, |batch| batch.is_last);
        let used = std::mem::replace(&mut self.batch, next?);
        self.next = 0;
        // Where the thread has ended, nobody needs the bytes.
        let _ = self.empty.send(used);
        Ok(true)
    }
}

/// Reads the source and walks through it, until it ends or nobody takes the batches any more.
fn fill(mut source: impl Read, empty: Receiver<Batch>, full: SyncSender<Result<Batch>>) {
    let (mut walk, mut left) = (Walk::default(), Vec::new());
    for mut batch in empty {
        let start = LEFT - left.len();
        batch.bytes[start..LEFT].copy_from_slice(&left);
        let (end, error) = match read(&mut source, &mut batch.bytes[LEFT..]) {
            Ok(count) => (LEFT + count, None),
            Err(error) => (LEFT, Some(error)),
        };
        let is_at_end = end == LEFT;
        left = walk_through(&mut walk, &mut batch, start..end, is_at_end);
        // What was read before an error is told first, as if the recording ended there.
        batch.is_last = is_at_end && error.is_none();
        let is_taken = full.send(Ok(batch)).is_ok();
        error.map(|error| full.send(Err(error)));
        if is_at_end || !is_taken {
            return;
        }
    }
}

/// Reads once. A call that was interrupted is made again.
fn read(source: &mut impl Read, to: &mut [u8]) -> Result<usize> {
    loop {
        match source.read(to) {
            Err(error) if error.kind() == ErrorKind::Interrupted => (),
            read => return read,
        }
    }
}

/// Adds what is found among these bytes of the batch, and gives what is left of them.
fn walk_through(walk: &mut Walk, batch: &mut Batch, bytes: core::ops::Range<usize>, is_last: bool) -> Vec<u8> {
    let mut start = bytes.start;
    batch.found.clear();
    loop {
        match walk.step(&batch.bytes[start..bytes.end], is_last) {
            Step::Packet { offset, length } => {
                batch.found.push(Place::Packet { offset, start, length });
                start += length;
            }
            Step::Passed(count) => start += count,
            Step::Skipped(range) => batch.found.push(Place::Skipped(range)),
            Step::More | Step::End => return batch.bytes[start..bytes.end].to_vec(),
        }
    }
}
