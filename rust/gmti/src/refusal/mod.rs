//! A refusal, and what it says in words.
mod fault;
mod look;
mod masked;
mod rows;

use crate::segment_name;
use core::fmt;
use look::Seen;
pub use rows::Row;

/// Why a packet or a sheet was refused: document 01's number, segment and field, and in words what is wrong where they lead. The words are
/// for people; programs go by the numbers.
///
/// ```
/// # fn main() -> std::io::Result<()> {
/// let packet = std::fs::read("../../samples/damaged_height.gmti")?;
/// let mut lent = vec![0; gmti::sheet_bound(packet.len())];
/// let refusal = gmti::read(gmti::Edition::Three, &packet, &mut lent).unwrap_err();
/// assert_eq!(refusal.to_string(), "segment 1 (dwell), target 3: D32.6, height -1001, is under -1000");
/// # Ok(())
/// # }
/// ```
#[derive(Clone, Copy, Debug, PartialEq, Eq)]
pub struct Refusal {
    number: u32,
    segment: u32,
    field: u32,
    /// Looked up when the packet is refused, so that the words need no packet.
    seen: Seen,
}

impl Refusal {
    /// The table of refusals, that of docs/MANUAL.md, in the order of the numbers. 1 and 23 are for callers from C: no [`Edition`] is
    /// refused.
    ///
    /// [`Edition`]: crate::Edition
    ///
    /// ```
    /// assert_eq!(gmti::Refusal::ROWS[3].when, "P2 is not the packet's length.");
    /// ```
    pub const ROWS: &'static [Row; 23] = rows::ROWS;

    /// The refusal of a packet with these numbers, lent so many bytes for its sheet.
    #[cold]
    pub(crate) fn of_packet([number, segment, field]: [u32; 3], packet: &[u8], lent: usize) -> Refusal {
        Refusal { number, segment, field, seen: Seen::in_packet([number, segment, field], packet, lent) }
    }

    /// The refusal of a sheet with these numbers.
    pub(crate) fn of_sheet([number, segment, field]: [u32; 3]) -> Refusal {
        Refusal { number, segment, field, seen: Seen::default() }
    }

    /// The number of the first row of the table of refusals that applies.
    ///
    /// ```
    /// let refusal = gmti::read(gmti::Edition::Three, b"", &mut []).unwrap_err();
    /// assert_eq!(refusal.number(), 2);
    /// ```
    pub fn number(&self) -> u32 {
        self.number
    }

    /// The segment that it applies to, from 1; 0 for the call, the header, the end and the writer.
    ///
    /// ```
    /// # fn main() -> std::io::Result<()> {
    /// let packet = std::fs::read("../../samples/new_radar_mode.gmti")?;
    /// let mut lent = vec![0; gmti::sheet_bound(packet.len())];
    /// let refusal = gmti::read(gmti::Edition::One, &packet, &mut lent).unwrap_err();
    /// assert_eq!((refusal.number(), refusal.segment()), (15, 2));
    /// # Ok(())
    /// # }
    /// ```
    pub fn segment(&self) -> u32 {
        self.segment
    }

    /// The field that the row names, by its [number](crate::Field::number), or 0.
    ///
    /// ```
    /// # fn main() -> std::io::Result<()> {
    /// let packet = std::fs::read("../../samples/damaged_platform_name.gmti")?;
    /// let mut lent = vec![0; gmti::sheet_bound(packet.len())];
    /// let refusal = gmti::read(gmti::Edition::Three, &packet, &mut lent).unwrap_err();
    /// assert_eq!(refusal.field(), 8);
    /// assert_eq!(refusal.to_string(), "character 7 of P8, platform, is 0x0A, not among 0x20 to 0x7E");
    /// # Ok(())
    /// # }
    /// ```
    pub fn field(&self) -> u32 {
        self.field
    }

    /// The three numbers, as the programs print them.
    ///
    /// ```
    /// # fn main() -> std::io::Result<()> {
    /// let packet = std::fs::read("../../samples/damaged_height.gmti")?;
    /// let mut lent = vec![0; gmti::sheet_bound(packet.len())];
    /// let refusal = gmti::read(gmti::Edition::Three, &packet, &mut lent).unwrap_err();
    /// assert_eq!(refusal.numbers().to_string(), "no 13 1 37");
    /// # Ok(())
    /// # }
    /// ```
    pub fn numbers(&self) -> impl fmt::Display {
        Numbers([self.number, self.segment, self.field])
    }

    /// When its number is given, by the table of refusals.
    ///
    /// ```
    /// let refusal = gmti::write(b"", &mut []).unwrap_err();
    /// assert!(refusal.when().starts_with("The sheet is empty, has a kind that is not 1 to 12, "));
    /// ```
    pub fn when(&self) -> &'static str {
        self.row().when
    }

    /// What to do about it, by the table of refusals.
    ///
    /// ```
    /// let refusal = gmti::write(b"", &mut []).unwrap_err();
    /// assert_eq!(refusal.remedy(), "Hand in just the answered length of the sheet, not the whole buffer.");
    /// ```
    pub fn remedy(&self) -> &'static str {
        self.row().remedy
    }

    /// The library gives no number that has no row.
    fn row(&self) -> &'static Row {
        &Refusal::ROWS[self.number as usize - 1]
    }

    /// The segment, and the target of it.
    fn place(&self, f: &mut fmt::Formatter<'_>) -> fmt::Result {
        write!(f, "segment {}", self.segment)?;
        if let Some(name) = self.seen.segment_type.and_then(segment_name) {
            write!(f, " ({name})")?;
        }
        if let Some(target) = self.seen.target {
            write!(f, ", target {target}")?;
        }
        f.write_str(": ")
    }
}

/// The place, where there is one, and what is wrong there. Where nothing was looked up it is what the row says.
impl fmt::Display for Refusal {
    fn fmt(&self, f: &mut fmt::Formatter<'_>) -> fmt::Result {
        if self.segment > 0 {
            self.place(f)?;
        }
        match self.seen.fault {
            Some(fault) => fault.fmt(f),
            None => within_a_line(self.when(), f),
        }
    }
}

/// A sentence as errors have it, with a small letter first and no full stop.
fn within_a_line(sentence: &str, f: &mut fmt::Formatter<'_>) -> fmt::Result {
    let mut letters = sentence.trim_end_matches('.').chars();
    let first = letters.next().map(|letter| letter.to_ascii_lowercase());
    write!(f, "{}{}", first.unwrap_or_default(), letters.as_str())
}

struct Numbers([u32; 3]);

impl fmt::Display for Numbers {
    fn fmt(&self, f: &mut fmt::Formatter<'_>) -> fmt::Result {
        let [number, segment, field] = self.0;
        write!(f, "no {number} {segment} {field}")
    }
}

impl core::error::Error for Refusal {}
