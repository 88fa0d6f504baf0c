//! A recording is packets one after another. Damage is passed over, and the packets behind it are found.
use crate::{read, Edition, LONGEST_PACKET};
use core::fmt;
use core::iter::FusedIterator;
use core::ops::RangeInclusive;

/// What a recording holds at an offset. Every byte of it is in exactly one packet or skipped range.
///
/// ```
/// # fn main() -> std::io::Result<()> {
/// use gmti::{Found, Reason, Recording};
/// let packet = std::fs::read("../../samples/header_only.gmti")?;
/// let recording = [&packet[..], b"noise", &packet[..]].concat();
/// let found: Vec<_> = Recording::new(&recording).collect();
/// assert_eq!(found[0], Found::Packet { offset: 0, bytes: &packet });
/// assert_eq!(found[1], Found::Skipped { offset: 32, length: 5, reason: Reason::NoHeader });
/// assert_eq!(found[2], Found::Packet { offset: 37, bytes: &packet });
/// # Ok(())
/// # }
/// ```
#[derive(Clone, Copy, Debug, PartialEq, Eq)]
pub enum Found<'r> {
    /// A packet, for [`read`](crate::read) to accept or refuse.
    Packet {
        /// Where it begins, counted from the beginning of the recording.
        offset: u64,
        /// Its bytes, as many as its P2 says.
        bytes: &'r [u8],
    },
    /// A range in which no packet begins. It ends where the next one does begin, or with the recording.
    Skipped {
        /// Where it begins, counted from the beginning of the recording.
        offset: u64,
        /// How many bytes it has, at least one.
        length: u64,
        /// Why no packet begins at its first byte.
        reason: Reason,
    },
}

/// Why a range of a recording is skipped, by what stands where it begins. It prints as words.
///
/// ```
/// assert_eq!(gmti::Reason::CutShort.to_string(), "cut short");
/// ```
#[derive(Clone, Copy, Debug, PartialEq, Eq, Hash)]
pub enum Reason {
    /// No header: P1 is not two digits, or P2 is under 32 or above 65,536.
    NoHeader,
    /// A header, or as much of one as there is, whose P2 leads past the end of the recording. The range reaches that end.
    CutShort,
    /// A header whose P2 leads neither to another header nor to the end of the recording, and no reading accepts the bytes up to there.
    WrongLength,
}

impl fmt::Display for Reason {
    fn fmt(&self, f: &mut fmt::Formatter<'_>) -> fmt::Result {
        f.write_str(match self {
            Reason::NoHeader => "no header",
            Reason::CutShort => "cut short",
            Reason::WrongLength => "a packet size (P2) that leads to no other packet",
        })
    }
}

/// The packets and the skipped ranges of a recording in memory, in order.
///
/// An offset holds a packet where P1 is two digits and P2 is 32 to 65,536 and leads no further than the end of the recording, and either it
/// leads to that end or to another header, or a reading accepts the bytes up to there. So a packet that is refused loses nothing behind it,
/// and a damaged P2 costs its own packet alone, unless by chance it leads to a header. All other bytes are skipped.
///
/// ```
/// # fn main() -> std::io::Result<()> {
/// use gmti::{Edition, Found, Recording};
/// let recording = std::fs::read("../../samples/recording.gmti")?;
/// let mut sheet = vec![0; gmti::LONGEST_SHEET];
/// let mut refused = Vec::new();
/// for found in Recording::new(&recording) {
///     match found {
///         Found::Packet { offset, bytes } => refused.extend(gmti::read(Edition::Three, bytes, &mut sheet).err().map(|_| offset)),
///         Found::Skipped { offset, length, reason } => panic!("offset {offset}, {length} bytes: {reason}"),
///     }
/// }
/// assert_eq!(refused, [380]);
/// # Ok(())
/// # }
/// ```
#[derive(Clone, Debug)]
pub struct Recording<'r> {
    rest: &'r [u8],
    walk: Walk,
}

impl<'r> Recording<'r> {
    /// The recording of these bytes, from its beginning.
    ///
    /// ```
    /// assert_eq!(gmti::Recording::new(&[]).next(), None);
    /// ```
    pub fn new(bytes: &'r [u8]) -> Recording<'r> {
        Recording { rest: bytes, walk: Walk::default() }
    }
}

impl<'r> Iterator for Recording<'r> {
    type Item = Found<'r>;

    #[inline]
    fn next(&mut self) -> Option<Found<'r>> {
        loop {
            match self.walk.step(self.rest, true) {
                Step::Packet { offset, length } => {
                    let (bytes, rest) = self.rest.split_at(length);
                    self.rest = rest;
                    return Some(Found::Packet { offset, bytes });
                }
                Step::Passed(count) => self.rest = &self.rest[count..],
                Step::Skipped(range) => return Some(range),
                // The window has the whole rest, so no more is asked for.
                Step::More | Step::End => return None,
            }
        }
    }
}

impl FusedIterator for Recording<'_> {}

/// The walk through a recording, a window of it at a time. The window begins where the walk stands, and has as much as its caller has at
/// hand; what is found does not depend on how much that is.
#[derive(Clone, Debug, Default)]
pub(crate) struct Walk {
    offset: u64,
    /// Where the range begins that is being skipped, and why.
    skipped: Option<(u64, Reason)>,
}

/// What a step of the walk comes to.
pub(crate) enum Step {
    /// A packet of so many bytes. They leave the window.
    Packet { offset: u64, length: usize },
    /// So many bytes belong to a range that is skipped. They leave the window.
    Passed(usize),
    /// A skipped range ends before the window, which stays as it is.
    Skipped(Found<'static>),
    /// Only a longer window, or one that reaches the end of the recording, can tell.
    More,
    /// All is walked through.
    End,
}

impl Walk {
    /// The next step; `is_last` says that the window reaches the end of the recording. It is made for every packet, so it is built into the
    /// loop that calls it.
    #[inline(always)]
    pub(crate) fn step(&mut self, window: &[u8], is_last: bool) -> Step {
        match front(window, is_last) {
            Front::Packet(length) => match self.end_range(false) {
                Some(range) => Step::Skipped(range),
                None => {
                    let offset = self.offset;
                    self.offset += length as u64;
                    Step::Packet { offset, length }
                }
            },
            Front::Nothing(reason) => self.pass(window, reason),
            Front::More => Step::More,
            Front::End => self.end_range(true).map_or(Step::End, Step::Skipped),
        }
    }

    /// Passes the front of the window by, up to where a header may begin. The range that it belongs to keeps the reason of its first byte.
    #[cold]
    fn pass(&mut self, window: &[u8], reason: Reason) -> Step {
        self.skipped.get_or_insert((self.offset, reason));
        let count = to_next_beginning(window);
        self.offset += count as u64;
        Step::Passed(count)
    }

    /// The range that is being skipped, which ends here, at a packet or at the end of the recording.
    #[inline]
    fn end_range(&mut self, is_at_end: bool) -> Option<Found<'static>> {
        let (offset, first) = self.skipped.take()?;
        // Where a packet was found behind a header that leads past the end, the recording is whole and that P2 is wrong.
        let reason = if first == Reason::CutShort && !is_at_end { Reason::WrongLength } else { first };
        Some(Found::Skipped { offset, length: self.offset - offset, reason })
    }
}

/// What stands at the front of a window.
enum Front {
    Packet(usize),
    Nothing(Reason),
    More,
    End,
}

#[inline(always)]
fn front(window: &[u8], is_last: bool) -> Front {
    let Some(length) = header(window) else { return without_header(window, is_last) };
    let Some((packet, behind)) = window.split_at_checked(length) else {
        return if is_last { Front::Nothing(Reason::CutShort) } else { Front::More };
    };
    let is_whole = behind.len() >= HEADER;
    // The header behind need not lie within the recording, nor be whole where the recording ends: there it is enough that one may begin.
    // So a packet that is refused is found before one that is cut short.
    let is_followed = if is_whole { header(behind).is_some() } else { is_last && may_begin(behind) };
    // A reading is asked last, since it takes far longer, but before more bytes are: a packet may be the last for a while.
    if is_followed || is_accepted(packet) {
        Front::Packet(length)
    } else if is_whole || is_last {
        Front::Nothing(Reason::WrongLength)
    } else {
        Front::More
    }
}

/// As above, where the window does not begin with a whole header.
#[cold]
fn without_header(window: &[u8], is_last: bool) -> Front {
    match window.len() {
        0..HEADER if !is_last => Front::More,
        0 => Front::End,
        1..HEADER if may_begin(window) => Front::Nothing(Reason::CutShort),
        _ => Front::Nothing(Reason::NoHeader),
    }
}

/// How many bytes of a header tell that it is one: P1 and P2.
pub(crate) const HEADER: usize = 6;

/// The P2 of the header that stands here.
#[inline(always)]
fn header(bytes: &[u8]) -> Option<usize> {
    let [first, second, p2 @ ..] = bytes.first_chunk::<HEADER>()?;
    let length = u32::from_be_bytes(*p2) as usize;
    (first.is_ascii_digit() && second.is_ascii_digit() && (32..=LONGEST_PACKET).contains(&length)).then_some(length)
}

/// What the first bytes of a header can be: two digits, and the upper half of a P2 of at most 65,536.
const BEGINNING: [RangeInclusive<u8>; 4] = [b'0'..=b'9', b'0'..=b'9', 0..=0, 0..=1];

/// Whether a header may begin here, by as many of its first four bytes as there are.
fn may_begin(bytes: &[u8]) -> bool {
    BEGINNING.iter().zip(bytes).all(|(range, byte)| range.contains(byte))
}

/// How far it is from the first byte of a window to the next with which a header may begin, or to the end of the window.
fn to_next_beginning(window: &[u8]) -> usize {
    let blocks = window[1..].windows(BLOCK + BEGINNING.len() - 1).step_by(BLOCK);
    let first = 1 + BLOCK * blocks.take_while(|block| !any_begins(block)).count();
    (first..window.len()).find(|&at| may_begin(&window[at..])).unwrap_or(window.len())
}

/// So many places are looked at together, in few instructions.
const BLOCK: usize = 64;

/// Whether a header may begin with one of the first bytes of these, all but the last three.
fn any_begins(bytes: &[u8]) -> bool {
    let [first, second, third, fourth] = &BEGINNING;
    let places = bytes.windows(BEGINNING.len());
    places
        .fold(false, |any, at| any | (first.contains(&at[0]) & second.contains(&at[1]) & third.contains(&at[2]) & fourth.contains(&at[3])))
}

/// Whether a reading accepts these bytes. Lent no byte, the Edition 3 reading gives 16 where no other row applies, for 16 is the last row
/// and no sheet is empty; and it accepts all that the Edition 1 reading accepts.
#[cold]
fn is_accepted(packet: &[u8]) -> bool {
    matches!(read(Edition::Three, packet, &mut []), Err(refusal) if refusal.number() == 16)
}
