//! The faults that a sheet can be given, by the clauses of the rows 17 to 19.

/// One thing wrong with a sheet.
#[derive(Clone, Copy, Debug, PartialEq, Eq, PartialOrd, Ord, Hash)]
pub enum SheetFault {
    /// Row 17: no byte.
    Empty,
    /// Row 17: a kind that there is not.
    UnknownKind,
    /// Row 17: the last record cut.
    Cut,
    /// Row 17: no kind 1.
    NoHeader,
    /// Row 17: a second kind 1.
    HeaderTwice,
    /// Row 17: kind 1 behind another record.
    HeaderLate,
    /// Row 18: a target fewer than D5.
    TargetMissing,
    /// Row 18: a target more than D5.
    TargetExtra,
    /// Row 18: another D5.
    TargetCount,
    /// Row 18: another record between a dwell and its last target.
    TargetsParted,
    /// Row 18: a target that follows no dwell.
    LoneTarget,
    /// Row 18: a piece in the place of a target.
    PieceForTarget,
    /// Row 18: a piece fewer than the length calls for.
    PieceMissing,
    /// Row 18: a piece more.
    PieceExtra,
    /// Row 18: another count in a piece.
    PieceCount,
    /// Row 18: another length of a text or an opaque body.
    BodyLength,
    /// Row 18: another record between a text or an opaque record and its last piece.
    PiecesParted,
    /// Row 18: a piece that follows neither.
    LonePiece,
    /// Row 18: a target in the place of a piece.
    TargetForPiece,
    /// Row 18: a scatterer fewer than H6, or H7 and H8, call for.
    ScattererMissing,
    /// Row 18: a scatterer more.
    ScattererExtra,
    /// Row 18: another H6, or another H7 where it is absent.
    ScattererCount,
    /// Row 18: H6, or H7, kept without its bit in the mask, so that another number is called for.
    AbsentScattererCount,
    /// Row 18: another record between a kind 11 and its last scatterer.
    ScatterersParted,
    /// Row 18: a scatterer that follows no kind 11.
    LoneScatterer,
    /// Row 18: a piece in the place of a scatterer.
    PieceForScatterer,
    /// Row 18: a scatterer in the place of a target.
    ScattererForTarget,
    /// Row 18: a scatterer in the place of a piece.
    ScattererForPiece,
    /// Row 19: P1 refused.
    Version,
    /// Row 19: P2 not the length.
    PacketSize,
    /// Row 19: a name of the header.
    HeaderText,
    /// Row 19: a name of a mission, a job definition or a free text.
    Text,
    /// Row 19: text in a piece.
    PieceText,
    /// Row 19: M6 or M7.
    Date,
    /// Row 19: D4.
    D4,
    /// Row 19: D32.6, D32.11 or D32.15.
    TargetValue,
    /// Row 19: the latitude out.
    LatitudeOut,
    /// Row 19: a target with neither position pair.
    NoPair,
    /// Row 19: the mark of D27.
    DwellMark,
    /// Row 19: the mark of J26.
    JobMark,
    /// Row 19: filling that is not zero.
    Filling,
    /// Row 19: another latitude or longitude than the computed one.
    Position,
    /// Row 19: an absent field of a dwell that is not zero.
    AbsentField,
    /// Row 19: an absent field of a target that is not zero.
    AbsentTargetField,
    /// Row 19: D5 stored without its bit in the mask.
    AbsentCount,
    /// Row 19: a mask at fault.
    Mask,
    /// Row 19: kind 7 with a type that has records of its own, or is not known.
    OpaqueType,
    /// Row 19: the Edition 1 sheet of a version 3 packet.
    Older,
    /// Row 19: more than 65,536 bytes.
    TooLong,
    /// Row 19: an HRR mask at fault.
    HrrMask,
    /// Row 19: H25.
    MagnitudeBytes,
    /// Row 19: H26.
    PhaseBytes,
    /// Row 19: the high byte of a scatterer's value that has one byte.
    HighByte,
    /// Row 19: an absent field of a scatterer that is not zero.
    AbsentScattererField,
    /// Row 19: an absent field of a kind 11 that is not zero.
    AbsentHrrField,
    /// Row 19: kind 11 behind a header of version 1.
    HrrVersion,
    /// Row 19: kind 7 of type 3 behind a header of version 3.
    OpaqueHrr,
}

impl SheetFault {
    /// Every fault, in the order of the rows.
    pub const ALL: [SheetFault; 57] = [
        SheetFault::Empty,
        SheetFault::UnknownKind,
        SheetFault::Cut,
        SheetFault::NoHeader,
        SheetFault::HeaderTwice,
        SheetFault::HeaderLate,
        SheetFault::TargetMissing,
        SheetFault::TargetExtra,
        SheetFault::TargetCount,
        SheetFault::TargetsParted,
        SheetFault::LoneTarget,
        SheetFault::PieceForTarget,
        SheetFault::PieceMissing,
        SheetFault::PieceExtra,
        SheetFault::PieceCount,
        SheetFault::BodyLength,
        SheetFault::PiecesParted,
        SheetFault::LonePiece,
        SheetFault::TargetForPiece,
        SheetFault::ScattererMissing,
        SheetFault::ScattererExtra,
        SheetFault::ScattererCount,
        SheetFault::AbsentScattererCount,
        SheetFault::ScatterersParted,
        SheetFault::LoneScatterer,
        SheetFault::PieceForScatterer,
        SheetFault::ScattererForTarget,
        SheetFault::ScattererForPiece,
        SheetFault::Version,
        SheetFault::PacketSize,
        SheetFault::HeaderText,
        SheetFault::Text,
        SheetFault::PieceText,
        SheetFault::Date,
        SheetFault::D4,
        SheetFault::TargetValue,
        SheetFault::LatitudeOut,
        SheetFault::NoPair,
        SheetFault::DwellMark,
        SheetFault::JobMark,
        SheetFault::Filling,
        SheetFault::Position,
        SheetFault::AbsentField,
        SheetFault::AbsentTargetField,
        SheetFault::AbsentCount,
        SheetFault::Mask,
        SheetFault::OpaqueType,
        SheetFault::Older,
        SheetFault::TooLong,
        SheetFault::HrrMask,
        SheetFault::MagnitudeBytes,
        SheetFault::PhaseBytes,
        SheetFault::HighByte,
        SheetFault::AbsentScattererField,
        SheetFault::AbsentHrrField,
        SheetFault::HrrVersion,
        SheetFault::OpaqueHrr,
    ];

    /// The row that it makes apply.
    pub fn row(self) -> u32 {
        match self {
            _ if self <= SheetFault::HeaderLate => 17,
            _ if self <= SheetFault::ScattererForPiece => 18,
            _ => 19,
        }
    }

    /// Whether it stands in the records of an HRR segment, which only a sheet of version 3 has.
    pub fn is_of_hrr(self) -> bool {
        let of_order = SheetFault::ScattererMissing..=SheetFault::ScattererForPiece;
        of_order.contains(&self) || self >= SheetFault::HrrMask
    }
}
