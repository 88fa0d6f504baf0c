//! A recording read from a file, a pipe or any other source.
use crate::recording::{Step, Walk};
use crate::Found;
use std::io::{Error, ErrorKind, Read, Result};
use std::vec::Vec;

/// The most that is read at a time. The longest packet fits, with the header behind it; the processor's cache holds it.
const BUFFER: usize = 256 * 1024;

/// The packets and the skipped ranges of a recording that is read from a source, in order: those that [`Recording`](crate::Recording)
/// finds in the same bytes. It takes one buffer of 256 KiB, however long the recording is or a range in it that is skipped.
///
/// Nothing is read that is not needed: a packet is given as soon as it has arrived where a reading accepts it, and else as soon as six
/// bytes behind it have, or the end.
///
/// ```
/// # fn main() -> std::io::Result<()> {
/// use gmti::{Found, RecordingReader};
/// let mut recording = RecordingReader::new(std::fs::File::open("../../samples/recording.gmti")?);
/// let mut lengths = Vec::new();
/// while let Some(found) = recording.next_found()? {
///     match found {
///         Found::Packet { bytes, .. } => lengths.push(bytes.len()),
///         Found::Skipped { offset, length, reason } => panic!("offset {offset}, {length} bytes: {reason}"),
///     }
/// }
/// assert_eq!(lengths, [149, 231, 131, 112, 204, 261]);
/// # Ok(())
/// # }
/// ```
pub struct RecordingReader<R> {
    source: R,
    buffer: Vec<u8>,
    /// The part of the buffer that is read and not yet walked through.
    start: usize,
    end: usize,
    /// Whether that part reaches the end of the source.
    is_last: bool,
    /// What ended the source in the place of its end.
    error: Option<Error>,
    walk: Walk,
}

impl<R: Read> RecordingReader<R> {
    /// The recording that the source holds, from where it stands. A buffer around the source would only cost time.
    ///
    /// ```
    /// # fn main() -> std::io::Result<()> {
    /// assert_eq!(gmti::RecordingReader::new(std::io::empty()).next_found()?, None);
    /// # Ok(())
    /// # }
    /// ```
    pub fn new(source: R) -> RecordingReader<R> {
        RecordingReader { source, buffer: std::vec![0; BUFFER], start: 0, end: 0, is_last: false, error: None, walk: Walk::default() }
    }

    /// The next packet or skipped range, None at the end. The bytes of a packet are lent until the next call.
    ///
    /// Where the source gives an error, what was read before it is given first, as if the recording ended there; then the error, once, and
    /// None from then on. A call that was interrupted is no error, and is made again.
    ///
    /// ```
    /// # fn main() -> std::io::Result<()> {
    /// use gmti::{Found, Reason, RecordingReader};
    /// let mut recording = RecordingReader::new(&b"30\0\0"[..]);
    /// assert_eq!(recording.next_found()?, Some(Found::Skipped { offset: 0, length: 4, reason: Reason::CutShort }));
    /// assert_eq!(recording.next_found()?, None);
    /// # Ok(())
    /// # }
    /// ```
    #[inline(always)]
    pub fn next_found(&mut self) -> Result<Option<Found<'_>>> {
        loop {
            match self.walk.step(&self.buffer[self.start..self.end], self.is_last) {
                Step::Packet { offset, length } => {
                    let first = self.start;
                    self.start += length;
                    return Ok(Some(Found::Packet { offset, bytes: &self.buffer[first..self.start] }));
                }
                Step::Passed(count) => self.start += count,
                Step::Skipped(range) => return Ok(Some(range)),
                Step::More => self.read_more(),
                Step::End => return self.error.take().map_or(Ok(None), Err),
            }
        }
    }

    /// Reads once. The walk asks again where that is not enough.
    #[cold]
    fn read_more(&mut self) {
        if self.start > 0 {
            self.buffer.copy_within(self.start..self.end, 0);
            self.end -= self.start;
            self.start = 0;
        }
        match self.source.read(&mut self.buffer[self.end..]) {
            Ok(0) => self.is_last = true,
            Ok(count) => self.end += count,
            Err(error) if error.kind() == ErrorKind::Interrupted => (),
            Err(error) => {
                self.error = Some(error);
                self.is_last = true;
            }
        }
    }
}
