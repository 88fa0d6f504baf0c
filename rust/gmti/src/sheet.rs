//! A sheet as its records, each with an accessor for every field.
use crate::forms::Value;
use crate::layout::{Field, Kind, Presence};
use crate::{write, Refusal};

/// A sheet that a reading made: records one after another, in the packet's order.
#[derive(Clone, Copy, Debug, PartialEq, Eq)]
pub struct Sheet<'s> {
    bytes: &'s [u8],
}

impl<'s> Sheet<'s> {
    /// The sheet of an accepted reading. Records are taken from it as they stand, so it must be one.
    pub(crate) fn of_reading(bytes: &'s [u8]) -> Sheet<'s> {
        Sheet { bytes }
    }

    /// These bytes as a sheet, where they are one that the Edition 3 reading makes of some packet; else the writer's refusal, 17 to 19.
    ///
    /// ```
    /// # fn main() -> std::io::Result<()> {
    /// let packet = std::fs::read("../../samples/mission.gmti")?;
    /// let mut lent = vec![0; gmti::sheet_bound(packet.len())];
    /// let stored = gmti::read(gmti::Edition::Three, &packet, &mut lent).unwrap().sheet.bytes();
    /// let sheet = gmti::Sheet::new(stored).expect("it was read from a packet");
    /// assert_eq!(sheet.records().count(), 2);
    /// assert_eq!(gmti::Sheet::new(&stored[1..]).unwrap_err().number(), 17);
    /// # Ok(())
    /// # }
    /// ```
    pub fn new(bytes: &'s [u8]) -> Result<Sheet<'s>, Refusal> {
        // Lent no byte, the writer gives 20 where none of its other rows applies, and there is no packet of no bytes.
        match write(bytes, &mut []) {
            Err(refusal) if refusal.number() != 20 => Err(refusal),
            _ => Ok(Sheet { bytes }),
        }
    }

    /// Its bytes.
    ///
    /// ```
    /// # fn main() -> std::io::Result<()> {
    /// let packet = std::fs::read("../../samples/header_only.gmti")?;
    /// let mut lent = [0; 64];
    /// let accepted = gmti::read(gmti::Edition::Three, &packet, &mut lent).unwrap();
    /// assert_eq!(accepted.sheet.bytes()[1..], packet);
    /// # Ok(())
    /// # }
    /// ```
    pub fn bytes(self) -> &'s [u8] {
        self.bytes
    }

    /// Its records, in order.
    ///
    /// ```
    /// # fn main() -> std::io::Result<()> {
    /// use gmti::Record;
    /// let packet = std::fs::read("../../samples/dwell_absolute.gmti")?;
    /// let mut lent = vec![0; gmti::sheet_bound(packet.len())];
    /// let accepted = gmti::read(gmti::Edition::Three, &packet, &mut lent).unwrap();
    /// for record in accepted.sheet.records() {
    ///     if let Record::Target(target) = record {
    ///         assert_eq!((target.height(), target.cross_section()), (Some(31), None));
    ///         assert_eq!(target.of_dwell().time(), 37_867_250);
    ///     }
    /// }
    /// # Ok(())
    /// # }
    /// ```
    pub fn records(self) -> Records<'s> {
        Records { rest: self.bytes, dwell: Dwell(&[]), hrr: Hrr(&[]) }
    }
}

/// The records of a sheet.
#[derive(Clone, Debug)]
pub struct Records<'s> {
    rest: &'s [u8],
    /// The dwell that targets belong to, and the HRR record that scatterers belong to, once there was one.
    dwell: Dwell<'s>,
    hrr: Hrr<'s>,
}

impl<'s> Iterator for Records<'s> {
    type Item = Record<'s>;

    #[inline]
    fn next(&mut self) -> Option<Record<'s>> {
        let kind = Kind::ALL[usize::from(*self.rest.first()?) - 1];
        let (bytes, rest) = self.rest.split_at(kind.length());
        self.rest = rest;
        Some(match kind {
            Kind::Header => Record::Header(Header(bytes)),
            Kind::Mission => Record::Mission(Mission(bytes)),
            Kind::Dwell => {
                self.dwell = Dwell(bytes);
                Record::Dwell(self.dwell)
            }
            Kind::Target => Record::Target(Target { bytes, dwell: self.dwell }),
            Kind::Text => Record::Text(Text(bytes)),
            Kind::Piece => Record::Piece(Piece(bytes)),
            Kind::Opaque => Record::Opaque(Opaque(bytes)),
            Kind::Job => Record::Job(Job(bytes)),
            Kind::Test => Record::Test(Test(bytes)),
            Kind::Location => Record::Location(Location(bytes)),
            Kind::Hrr => {
                self.hrr = Hrr(bytes);
                Record::Hrr(self.hrr)
            }
            Kind::Scatterer => Record::Scatterer(Scatterer { bytes, hrr: self.hrr }),
        })
    }
}

macro_rules! plain {
    ($($(#[$doc:meta])* $name:ident;)*) => {$(
        $(#[$doc])*
        #[derive(Clone, Copy, Debug, PartialEq, Eq)]
        pub struct $name<'s>(&'s [u8]);

        impl<'s> $name<'s> {
            pub(crate) fn record(&self) -> &'s [u8] {
                self.0
            }
        }
    )*};
}

plain! {
    /// The packet's header.
    Header;
    /// A mission segment.
    Mission;
    /// A dwell segment. Its targets follow, as many as D5 says.
    Dwell;
    /// A free text segment. Its pieces follow.
    Text;
    /// Up to 32 bytes of the text or body before it.
    Piece;
    /// A segment that is kept as it is. Its pieces follow.
    Opaque;
    /// A job definition segment.
    Job;
    /// A test and status segment.
    Test;
    /// A platform location segment.
    Location;
    /// An HRR segment of a version 3 packet. Its scatterers follow.
    Hrr;
}

/// A target of the dwell before it.
#[derive(Clone, Copy, Debug, PartialEq, Eq)]
pub struct Target<'s> {
    bytes: &'s [u8],
    dwell: Dwell<'s>,
}

/// A scatterer of the HRR record before it.
#[derive(Clone, Copy, Debug, PartialEq, Eq)]
pub struct Scatterer<'s> {
    bytes: &'s [u8],
    hrr: Hrr<'s>,
}

/// Whether a mask announces the field of this number: its first bit announces 2.
#[inline]
fn announces(mask: &[u8], number: u32) -> bool {
    let bit = number.wrapping_sub(2) as usize;
    mask.get(bit / 8).is_some_and(|byte| byte >> (7 - bit % 8) & 1 == 1)
}

impl Dwell<'_> {
    /// Whether the mask announces a field of the dwell or of its targets, by its number: n for Dn, 31 + j for D32.j. Any other number is
    /// announced by none.
    ///
    /// ```
    /// # fn main() -> std::io::Result<()> {
    /// use gmti::Record;
    /// let packet = std::fs::read("../../samples/new_cross_section.gmti")?;
    /// let mut lent = vec![0; gmti::sheet_bound(packet.len())];
    /// let accepted = gmti::read(gmti::Edition::Three, &packet, &mut lent).unwrap();
    /// let Some(Record::Dwell(dwell)) = accepted.sheet.records().nth(1) else { panic!("a dwell") };
    /// assert_eq!((dwell.announces(31 + 18), dwell.announces(28)), (true, false));
    /// # Ok(())
    /// # }
    /// ```
    pub fn announces(&self, number: u32) -> bool {
        announces(&self.mask(), number)
    }

    /// Whether D27 is shown.
    pub(crate) fn is_shown(&self) -> bool {
        self.0[Kind::Dwell.length() - 1] == 1
    }
}

impl<'s> Target<'s> {
    pub(crate) fn record(&self) -> &'s [u8] {
        self.bytes
    }

    pub(crate) fn announces(&self, number: u32) -> bool {
        self.dwell.announces(number)
    }

    /// The dwell that it belongs to, with its mask, its time and its place.
    ///
    /// ```
    /// # let packet = std::fs::read("../../samples/dwell_absolute.gmti").unwrap();
    /// # let mut lent = vec![0; gmti::LONGEST_SHEET];
    /// # let sheet = gmti::read(gmti::Edition::Three, &packet, &mut lent).unwrap().sheet;
    /// let Some(gmti::Record::Target(target)) = sheet.records().nth(2) else { panic!("a target") };
    /// assert_eq!(target.of_dwell().time(), 37_867_250);
    /// ```
    pub fn of_dwell(&self) -> Dwell<'s> {
        self.dwell
    }
}

impl Job<'_> {
    /// Whether J26 is shown.
    pub(crate) fn is_shown(&self) -> bool {
        self.0[Kind::Job.length() - 1] == 1
    }
}

impl Hrr<'_> {
    /// Whether the mask announces a field of the segment or of its scatterers, by its number: n for Hn, 31 + j for H32.j. Any other number
    /// is announced by none.
    ///
    /// ```
    /// # fn main() -> std::io::Result<()> {
    /// use gmti::Record;
    /// let packet = std::fs::read("../../samples/new_range_profile.gmti")?;
    /// let mut lent = vec![0; gmti::sheet_bound(packet.len())];
    /// let accepted = gmti::read(gmti::Edition::Three, &packet, &mut lent).unwrap();
    /// let hrr = accepted.sheet.records().find_map(|record| if let Record::Hrr(hrr) = record { Some(hrr) } else { None }).unwrap();
    /// assert_eq!((hrr.announces(7), hrr.announces(6)), (true, false));
    /// # Ok(())
    /// # }
    /// ```
    pub fn announces(&self, number: u32) -> bool {
        announces(&self.mask(), number)
    }
}

impl<'s> Scatterer<'s> {
    pub(crate) fn record(&self) -> &'s [u8] {
        self.bytes
    }

    pub(crate) fn announces(&self, number: u32) -> bool {
        self.hrr.announces(number)
    }

    /// The HRR record that it belongs to.
    ///
    /// ```
    /// # let packet = std::fs::read("../../samples/new_profile_with_indices.gmti").unwrap();
    /// # let mut lent = vec![0; gmti::LONGEST_SHEET];
    /// # let sheet = gmti::read(gmti::Edition::Three, &packet, &mut lent).unwrap().sheet;
    /// let Some(gmti::Record::Scatterer(scatterer)) = sheet.records().last() else { panic!("a scatterer") };
    /// assert_eq!(scatterer.of_hrr().scatterer_count(), Some(6));
    /// ```
    pub fn of_hrr(&self) -> Hrr<'s> {
        self.hrr
    }
}

impl<'s> Piece<'s> {
    /// The bytes of the text or body that it carries.
    ///
    /// ```
    /// # let packet = std::fs::read("../../samples/free_text.gmti").unwrap();
    /// # let mut lent = vec![0; gmti::LONGEST_SHEET];
    /// # let sheet = gmti::read(gmti::Edition::Three, &packet, &mut lent).unwrap().sheet;
    /// let Some(gmti::Record::Piece(piece)) = sheet.records().nth(2) else { panic!("a piece") };
    /// assert_eq!(piece.bytes(), b"Ice firm from Svea to the mouth ");
    /// ```
    pub fn bytes(&self) -> &'s [u8] {
        &self.0[2..2 + usize::from(self.count())]
    }
}

/// A record of a sheet.
#[derive(Clone, Copy, Debug, PartialEq, Eq)]
pub enum Record<'s> {
    /// The packet's header.
    Header(Header<'s>),
    /// A mission segment.
    Mission(Mission<'s>),
    /// A dwell segment.
    Dwell(Dwell<'s>),
    /// A target.
    Target(Target<'s>),
    /// A free text segment.
    Text(Text<'s>),
    /// A piece of a text or a body.
    Piece(Piece<'s>),
    /// A segment that is kept as it is.
    Opaque(Opaque<'s>),
    /// A job definition segment.
    Job(Job<'s>),
    /// A test and status segment.
    Test(Test<'s>),
    /// A platform location segment.
    Location(Location<'s>),
    /// An HRR segment.
    Hrr(Hrr<'s>),
    /// A scatterer.
    Scatterer(Scatterer<'s>),
}

impl<'s> Record<'s> {
    /// Its kind.
    ///
    /// ```
    /// # fn main() -> std::io::Result<()> {
    /// use gmti::Kind;
    /// let packet = std::fs::read("../../samples/new_radar_mode.gmti")?;
    /// let mut lent = vec![0; gmti::sheet_bound(packet.len())];
    /// let accepted = gmti::read(gmti::Edition::Three, &packet, &mut lent).unwrap();
    /// let kinds: Vec<_> = accepted.sheet.records().map(|record| record.kind()).collect();
    /// assert_eq!(kinds, [Kind::Header, Kind::Mission, Kind::Job]);
    /// # Ok(())
    /// # }
    /// ```
    pub fn kind(&self) -> Kind {
        Kind::ALL[usize::from(self.bytes()[0]) - 1]
    }

    /// The type of the segment that it begins; None for the header and for targets, pieces and scatterers.
    ///
    /// ```
    /// # fn main() -> std::io::Result<()> {
    /// let packet = std::fs::read("../../samples/opaque_processing_history.gmti")?;
    /// let mut lent = vec![0; gmti::sheet_bound(packet.len())];
    /// let accepted = gmti::read(gmti::Edition::Three, &packet, &mut lent).unwrap();
    /// let types: Vec<_> = accepted.sheet.records().filter_map(|record| record.segment_type()).collect();
    /// assert_eq!(types, [12]);
    /// # Ok(())
    /// # }
    /// ```
    pub fn segment_type(&self) -> Option<u8> {
        match self {
            Record::Header(_) | Record::Target(_) | Record::Piece(_) | Record::Scatterer(_) => None,
            Record::Mission(_) => Some(1),
            Record::Dwell(_) => Some(2),
            Record::Hrr(_) => Some(3),
            Record::Job(_) => Some(5),
            Record::Text(_) => Some(6),
            Record::Test(_) => Some(10),
            Record::Location(_) => Some(13),
            Record::Opaque(opaque) => Some(opaque.segment_type()),
        }
    }

    /// Its bytes, the kind byte included.
    ///
    /// ```
    /// # fn main() -> std::io::Result<()> {
    /// let packet = std::fs::read("../../samples/header_only.gmti")?;
    /// let mut lent = [0; 64];
    /// let accepted = gmti::read(gmti::Edition::Three, &packet, &mut lent).unwrap();
    /// assert_eq!(accepted.sheet.records().next().unwrap().bytes().len(), 33);
    /// # Ok(())
    /// # }
    /// ```
    pub fn bytes(&self) -> &'s [u8] {
        match self {
            Record::Header(record) => record.record(),
            Record::Mission(record) => record.record(),
            Record::Dwell(record) => record.record(),
            Record::Target(record) => record.record(),
            Record::Text(record) => record.record(),
            Record::Piece(record) => record.record(),
            Record::Opaque(record) => record.record(),
            Record::Job(record) => record.record(),
            Record::Test(record) => record.record(),
            Record::Location(record) => record.record(),
            Record::Hrr(record) => record.record(),
            Record::Scatterer(record) => record.record(),
        }
    }

    /// What one of its fields holds, a field of its [`Kind::fields`].
    ///
    /// ```
    /// # fn main() -> std::io::Result<()> {
    /// use gmti::Value;
    /// let packet = std::fs::read("../../samples/version_3_dwell_and_job.gmti")?;
    /// let mut lent = vec![0; gmti::sheet_bound(packet.len())];
    /// let accepted = gmti::read(gmti::Edition::One, &packet, &mut lent).unwrap();
    /// let dwell = accepted.sheet.records().nth(1).unwrap();
    /// let held = |label| dwell.kind().fields().iter().find(|field| field.label == label).map(|field| dwell.value(field)).unwrap();
    /// assert_eq!((held("D6"), held("D10"), held("D27")), (Value::Number(37_867_250), Value::Absent, Value::Withheld));
    /// # Ok(())
    /// # }
    /// ```
    pub fn value(&self, field: &Field) -> Value<'s> {
        match field.presence {
            Presence::Masked if !self.announces(field.number()) => Value::Absent,
            Presence::Marked if !self.is_shown() => Value::Withheld,
            _ => (field.value)(self.bytes()),
        }
    }

    /// Whether the mask that it goes by announces this field; so does what has no mask.
    pub(crate) fn announces(&self, number: u32) -> bool {
        match self {
            Record::Dwell(dwell) => dwell.announces(number),
            Record::Target(target) => target.announces(number),
            Record::Hrr(hrr) => hrr.announces(number),
            Record::Scatterer(scatterer) => scatterer.announces(number),
            _ => true,
        }
    }

    /// Whether the field that its mark is about is shown; so is what has no mark.
    pub(crate) fn is_shown(&self) -> bool {
        match self {
            Record::Dwell(dwell) => dwell.is_shown(),
            Record::Job(job) => job.is_shown(),
            _ => true,
        }
    }
}
