//! The calls of the verified library.
use crate::{Kind, Refusal, Sheet};

extern "C" {
    fn gmti_read(edition: u32, packet: *const u8, packet_len: usize, sheet: *mut u8, sheet_len: usize, answer: *mut Answer);
    fn gmti_write(sheet: *const u8, sheet_len: usize, packet: *mut u8, packet_len: usize, answer: *mut Answer);
    fn gmti_sheet_bound(packet_len: usize) -> usize;
    fn gmti_mode_system(edition: u32, mode: u8, system: *mut u32) -> u32;
}

/// No packet has more bytes than this.
pub const LONGEST_PACKET: usize = 65_536;

/// No packet has a sheet of more bytes than this, which is what [`sheet_bound`] gives for a packet of [`LONGEST_PACKET`] bytes.
pub const LONGEST_SHEET: usize = Kind::Header.length() + Kind::Target.length() * (LONGEST_PACKET - 32) / 4;

/// The seven numbers of an answer, in the order in which the library writes them.
#[repr(C)]
#[derive(Default)]
struct Answer {
    number: u32,
    segment: u32,
    field: u32,
    segments: u32,
    dwells: u32,
    targets: u32,
    length: u32,
}

impl Answer {
    /// The same numbers. The library stores them one by one, and a processor that loads two or four at once, as the compiler likes to, has to
    /// wait until they are written.
    #[inline(always)]
    fn one_by_one(&self) -> Answer {
        // A reference can be read from.
        let number = |place: &u32| unsafe { core::ptr::read_volatile(place) };
        Answer {
            number: number(&self.number),
            segment: number(&self.segment),
            field: number(&self.field),
            segments: number(&self.segments),
            dwells: number(&self.dwells),
            targets: number(&self.targets),
            length: number(&self.length),
        }
    }
}

/// The edition whose tables a packet is read by.
#[derive(Clone, Copy, Debug, PartialEq, Eq, PartialOrd, Ord, Hash)]
pub enum Edition {
    /// Edition 1, of 2005.
    One,
    /// Edition 3, of 2010.
    Three,
}

impl Edition {
    /// 1 or 3.
    ///
    /// ```
    /// assert_eq!(gmti::Edition::Three.number(), 3);
    /// ```
    pub fn number(self) -> u32 {
        match self {
            Edition::One => 1,
            Edition::Three => 3,
        }
    }
}

/// A packet that was accepted: its counts, and its sheet.
#[derive(Clone, Copy, Debug, PartialEq, Eq)]
pub struct Accepted<'s> {
    /// How many segments the packet has.
    pub segments: u32,
    /// How many dwells: different pairs of D2 and D3 in the segments of type 2, so that a dwell split over several counts once.
    pub dwells: u32,
    /// How many targets the segments of type 2 have together.
    pub targets: u32,
    /// The part of the lent bytes that the packet was set out on.
    pub sheet: Sheet<'s>,
}

/// A sheet that was written back: its counts, and its packet.
#[derive(Clone, Copy, Debug, PartialEq, Eq)]
pub struct Written<'p> {
    /// How many segments the packet has.
    pub segments: u32,
    /// How many dwells, as in [`Accepted`].
    pub dwells: u32,
    /// How many targets the segments of type 2 have together.
    pub targets: u32,
    /// The part of the lent bytes that the packet was written to.
    pub packet: &'p [u8],
}

/// Reads a packet of any bytes as Edition 1 or 3 and sets it out on the lent sheet. An accepted packet fills the front of the lent bytes
/// and leaves the rest as it was; a refused one leaves them all as they were.
///
/// ```
/// # fn main() -> std::io::Result<()> {
/// use gmti::{Edition, Record};
/// let packet = std::fs::read("../../samples/printed_trial.gmti")?;
/// let mut lent = vec![0; gmti::sheet_bound(packet.len())];
/// let accepted = gmti::read(Edition::Three, &packet, &mut lent).expect("a sample that is accepted");
/// assert_eq!((accepted.segments, accepted.dwells, accepted.targets), (1, 1, 1));
/// for record in accepted.sheet.records() {
///     if let Record::Target(target) = record {
///         assert_eq!((target.latitude(), target.longitude()), (-351_563, 359_648_438));
///     }
/// }
/// # Ok(())
/// # }
/// ```
#[inline]
pub fn read<'s>(edition: Edition, packet: &[u8], sheet: &'s mut [u8]) -> Result<Accepted<'s>, Refusal> {
    let mut answer = Answer::default();
    // The library reads packet.len() bytes, writes at most sheet.len() bytes and the seven numbers of the answer, and keeps no pointer.
    unsafe { gmti_read(edition.number(), packet.as_ptr(), packet.len(), sheet.as_mut_ptr(), sheet.len(), &mut answer) };
    if answer.number != 0 {
        return Err(Refusal::of_packet([answer.number, answer.segment, answer.field], packet, sheet.len()));
    }
    let Answer { segments, dwells, targets, length, .. } = answer.one_by_one();
    Ok(Accepted { segments, dwells, targets, sheet: Sheet::of_reading(&sheet[..length as usize]) })
}

/// Writes the packet that reads, as Edition 3, to just this sheet. An accepted sheet fills the front of the lent bytes and leaves the rest
/// as it was; a refused one leaves them all as they were. [`LONGEST_PACKET`] bytes are enough for any packet. It takes some 73 kB of stack.
///
/// ```
/// # fn main() -> std::io::Result<()> {
/// let packet = std::fs::read("../../samples/printed_trial.gmti")?;
/// let mut lent = vec![0; gmti::sheet_bound(packet.len())];
/// let accepted = gmti::read(gmti::Edition::Three, &packet, &mut lent).expect("a sample that is accepted");
/// let mut lent = vec![0; gmti::LONGEST_PACKET];
/// let written = gmti::write(accepted.sheet.bytes(), &mut lent).expect("an Edition 3 sheet");
/// assert_eq!(written.packet, packet);
/// # Ok(())
/// # }
/// ```
pub fn write<'p>(sheet: &[u8], packet: &'p mut [u8]) -> Result<Written<'p>, Refusal> {
    let mut answer = Answer::default();
    // As above, with the sheet read and the packet written.
    unsafe { gmti_write(sheet.as_ptr(), sheet.len(), packet.as_mut_ptr(), packet.len(), &mut answer) };
    if answer.number != 0 {
        return Err(Refusal::of_sheet([answer.number, answer.segment, answer.field]));
    }
    let Answer { segments, dwells, targets, length, .. } = answer;
    Ok(Written { segments, dwells, targets, packet: &packet[..length as usize] })
}

/// How many bytes to lend for the sheet of a packet of `packet_length` bytes: lent so many, neither reading refuses it with 16, whatever its
/// bytes are. It is 33 + 45 × (packet_length − 32) / 4, rounded down; 0 for a length under 32 or above [`LONGEST_PACKET`], which no packet
/// has.
///
/// ```
/// assert_eq!(gmti::sheet_bound(92), 708);
/// assert_eq!(gmti::sheet_bound(31), 0);
/// ```
pub fn sheet_bound(packet_length: usize) -> usize {
    // The call is handed no pointer, so nothing is asked of the caller.
    unsafe { gmti_sheet_bound(packet_length) }
}

/// A system that has radar modes.
#[derive(Clone, Copy, Debug, PartialEq, Eq, PartialOrd, Ord, Hash)]
pub struct System(u32);

/// The names of the systems, from number 1 on.
const SYSTEMS: [&str; 12] =
    ["Generic", "Joint STARS", "ASARS-AIP", "ASARS-2", "TUAV", "ARL-M", "HORIZON", "CRESO", "ASTOR", "Lynx I/II", "Global Hawk", "VADER"];

impl System {
    /// Its number, 1 to 12, in the order in which systems first occur in Edition 3's table 2-7.2.
    ///
    /// ```
    /// assert_eq!(gmti::mode_system(gmti::Edition::Three, 101).unwrap().number(), 10);
    /// ```
    pub fn number(self) -> u32 {
        self.0
    }

    /// Its name.
    ///
    /// ```
    /// assert_eq!(gmti::mode_system(gmti::Edition::Three, 101).unwrap().name(), "Lynx I/II");
    /// ```
    pub fn name(self) -> &'static str {
        SYSTEMS[self.0 as usize - 1]
    }
}

/// The system to which an edition's table 2-7.2 gives a radar mode, a value of J14; None where it is given to none.
///
/// ```
/// use gmti::Edition;
/// assert_eq!(gmti::mode_system(Edition::One, 101), None);
/// assert_eq!(gmti::mode_system(Edition::Three, 11).unwrap().name(), "Joint STARS");
/// ```
pub fn mode_system(edition: Edition, mode: u8) -> Option<System> {
    let mut system = 0;
    // The library writes the one number, and keeps no pointer. It refuses no edition but those that `Edition` does not have.
    unsafe { gmti_mode_system(edition.number(), mode, &mut system) };
    (system != 0).then_some(System(system))
}
