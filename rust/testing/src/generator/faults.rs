//! The faults that a packet can be given, by the rows 2 to 15, 21 and 22: where each can stand, and which of two is named.
use super::tables::{ALWAYS, BODY_TEXT, HEADER_TEXT, HRR_ALWAYS, HRR_SPARE, HRR_TYPE};

/// One thing wrong with a packet, or new in Edition 3.
#[derive(Clone, Copy, Debug, PartialEq, Eq, PartialOrd, Ord, Hash)]
pub enum Fault {
    /// Row 2: under 32 bytes.
    Short,
    /// Row 2: above 65,536 bytes.
    Long,
    /// Row 3.
    Version,
    /// Row 4.
    PacketSize,
    /// Row 5, with the field.
    HeaderText(u32),
    /// Row 6.
    Left,
    /// Row 7.
    UnknownType,
    /// Row 8: S2 under 5.
    SizeBelow,
    /// Row 8: S2 past the end.
    SizePast,
    /// Row 15: type 3.
    NewType,
    /// Row 9, with the type.
    BodySize(u8),
    /// Row 10, with the type and the field.
    Text(u8, u32),
    /// Row 11, with the lowest field at fault.
    Mask(u32),
    /// Row 15: some of D28 to D30, with the lowest one that is not set.
    NewAngles(u32),
    /// Row 15: D32.18.
    NewField,
    /// Row 12.
    DwellSize,
    /// Row 13: M6.
    Month,
    /// Row 13: M7.
    Day,
    /// Row 13: D4.
    D4,
    /// Row 13: D5 above 0 with neither position pair.
    NoPair,
    /// Row 13: D32.6, D32.11 or D32.15 of a target, with the field.
    TargetValue(u32),
    /// Row 14.
    Latitude,
    /// Row 15: J14.
    NewMode,
    /// Row 21, with the field that is missing or the number of the spare bit that is set. The answer names neither.
    HrrMask(u32),
    /// Row 22: H25 not 1 or 2.
    MagnitudeBytes,
    /// Row 22: H26 above 2.
    PhaseBytes,
    /// Row 22: S2 not what mask, widths and counts give.
    HrrSize,
}

/// Where a fault can stand.
#[derive(Clone, Copy, Debug, PartialEq, Eq)]
pub enum Host {
    /// In the header.
    Header,
    /// In any segment.
    Any,
    /// In a segment of this type.
    Type(u8),
    /// After the last segment.
    End,
}

impl Fault {
    /// The row that it makes apply.
    pub fn row(self) -> u32 {
        match self {
            Fault::Short | Fault::Long => 2,
            Fault::Version => 3,
            Fault::PacketSize => 4,
            Fault::HeaderText(_) => 5,
            Fault::Left => 6,
            Fault::UnknownType => 7,
            Fault::SizeBelow | Fault::SizePast => 8,
            Fault::BodySize(_) => 9,
            Fault::Text(..) => 10,
            Fault::Mask(_) => 11,
            Fault::DwellSize => 12,
            Fault::Month | Fault::Day | Fault::D4 | Fault::NoPair | Fault::TargetValue(_) => 13,
            Fault::Latitude => 14,
            Fault::NewType | Fault::NewAngles(_) | Fault::NewField | Fault::NewMode => 15,
            Fault::HrrMask(_) => 21,
            Fault::MagnitudeBytes | Fault::PhaseBytes | Fault::HrrSize => 22,
        }
    }

    /// The field that is named.
    pub fn field(self) -> u32 {
        match self {
            Fault::HeaderText(field) | Fault::Text(_, field) | Fault::Mask(field) => field,
            Fault::NewAngles(field) | Fault::TargetValue(field) => field,
            Fault::NewField => 49,
            Fault::Month => 6,
            Fault::Day => 7,
            Fault::D4 => 4,
            Fault::NoPair => 5,
            Fault::Latitude => 35,
            Fault::NewMode => 14,
            _ => 0,
        }
    }

    /// Where it can stand.
    pub fn host(self) -> Host {
        match self {
            Fault::Short | Fault::Long | Fault::Version | Fault::PacketSize | Fault::HeaderText(_) => Host::Header,
            Fault::Left => Host::End,
            Fault::UnknownType | Fault::SizeBelow | Fault::SizePast => Host::Any,
            Fault::NewType => Host::Type(HRR_TYPE),
            _ if self.is_of_hrr() => Host::Type(HRR_TYPE),
            Fault::BodySize(segment_type) | Fault::Text(segment_type, _) => Host::Type(segment_type),
            Fault::Month | Fault::Day => Host::Type(1),
            Fault::NewMode => Host::Type(5),
            _ => Host::Type(2),
        }
    }

    /// The version that it needs.
    pub fn version(self) -> Option<u8> {
        match self {
            Fault::Mask(28..=30 | 49) => Some(1),
            _ if self.is_new() || self.is_of_hrr() => Some(3),
            _ => None,
        }
    }

    /// Whether only an HRR segment has it, and only in the Edition 3 reading: that of Edition 1 names the segment's type.
    fn is_of_hrr(self) -> bool {
        matches!(self, Fault::BodySize(HRR_TYPE) | Fault::HrrMask(_) | Fault::MagnitudeBytes | Fault::PhaseBytes | Fault::HrrSize)
    }

    /// Whether it is one of row 15, which only the Edition 1 reading of a version 3 packet has.
    pub fn is_new(self) -> bool {
        self.row() == 15
    }

    /// Whether it stands in one target of a dwell.
    pub fn is_of_target(self) -> bool {
        matches!(self, Fault::TargetValue(_) | Fault::Latitude)
    }

    /// Its place in the order of the rows of the header or of one segment: of two faults the one with the lesser place is named. The
    /// target is that of a fault that stands in one.
    pub fn place(self, target: usize) -> (u32, usize, u32) {
        let step = match self {
            Fault::Short | Fault::Long => 0,
            Fault::Version => 1,
            Fault::PacketSize => 2,
            Fault::HeaderText(_) => 3,
            Fault::Left => 4,
            Fault::UnknownType => 5,
            Fault::SizeBelow | Fault::SizePast => 6,
            Fault::NewType => 7,
            Fault::BodySize(_) => 8,
            Fault::Text(..) | Fault::HrrMask(_) => 9,
            Fault::Mask(_) | Fault::MagnitudeBytes | Fault::PhaseBytes | Fault::HrrSize => 10,
            Fault::NewAngles(_) => 11,
            Fault::NewField => 12,
            Fault::DwellSize => 13,
            Fault::Month | Fault::Day | Fault::D4 | Fault::NoPair => 14,
            Fault::TargetValue(_) | Fault::Latitude => 15,
            Fault::NewMode => 16,
        };
        let within = if self == Fault::Latitude { 50 } else { self.field() };
        (step, if self.is_of_target() { target } else { 0 }, within)
    }

    /// Every fault.
    pub fn all() -> Vec<Fault> {
        let mut all = vec![Fault::Short, Fault::Long, Fault::Version, Fault::PacketSize];
        all.extend(HEADER_TEXT.map(|field| Fault::HeaderText(field.number)));
        all.extend([Fault::Left, Fault::UnknownType, Fault::SizeBelow, Fault::SizePast, Fault::NewType]);
        all.extend([1, 2, 3, 5, 6, 10, 13].map(Fault::BodySize));
        all.extend(BODY_TEXT.map(|(segment_type, field)| Fault::Text(segment_type, field.number)));
        all.extend(Fault::of_masks());
        all.extend([28, 29, 30].map(Fault::NewAngles));
        all.extend([Fault::NewField, Fault::DwellSize, Fault::Month, Fault::Day, Fault::D4, Fault::NoPair]);
        all.extend([37, 42, 46].map(Fault::TargetValue));
        all.extend([Fault::Latitude, Fault::NewMode]);
        all.extend(HRR_ALWAYS.into_iter().chain(HRR_SPARE).map(Fault::HrrMask));
        all.extend([Fault::MagnitudeBytes, Fault::PhaseBytes, Fault::HrrSize]);
        all
    }

    /// The faults of row 11: every field that can be the lowest at fault. D31, D32.1 and D32.6 to D32.15 never are.
    pub fn of_masks() -> Vec<Fault> {
        let mut fields = ALWAYS.to_vec();
        fields.extend(10..=23);
        fields.extend(28..=30);
        fields.extend(33..=36);
        fields.extend(47..=65);
        fields.into_iter().map(Fault::Mask).collect()
    }
}
