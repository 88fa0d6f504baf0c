//! Dwells and HRR segments, whose mask tells which fields stand in them.
use super::fault::{Fault, Named, Side, S2};
use super::look::{field_of, number_of, out_of_range, SEGMENT_HEADER};
use crate::layout::{Field, Kind, Presence};

/// Fields of a dwell and its targets that are announced together or not at all. D28 to D30 are a group to version 1 and to the Edition 1
/// reading.
const GROUPS: [&[u32]; 8] =
    [&[10, 11, 35, 36], &[12, 13, 14], &[15, 16, 17], &[18, 19, 20], &[21, 22, 23], &[28, 29, 30], &[33, 34], &[47, 48]];

/// The number of D32.4.
const DELTA_LATITUDE: u32 = 35;

/// Masks number the fields of a segment from 2, those of its targets or scatterers from 32.
const FIRST: u32 = 2;
const PARTS: u32 = 32;

/// No S2 of a dwell is under this.
const LEAST_DWELL: u32 = 48;

/// The width of H32.3 and of H32.4 in a packet.
const INDEX: i64 = 1;

/// The body of a segment with a mask.
pub struct Masked<'p> {
    kind: Kind,
    /// Bit 65 - n announces the field of number n, whatever the kind.
    mask: u64,
    /// What follows the mask.
    fields: &'p [u8],
    /// How many bytes the mask has.
    width: usize,
}

impl<'p> Masked<'p> {
    /// A kind's first field is its mask.
    pub fn new(kind: Kind, body: &'p [u8]) -> Option<Masked<'p>> {
        let width = kind.fields().first()?.width;
        let (mask, fields) = body.split_at_checked(width)?;
        let number = mask.iter().fold(0, |number: u64, byte| number << 8 | u64::from(*byte));
        Some(Masked { kind, mask: number << (64 - 8 * width), fields, width })
    }

    fn announces(&self, number: u32) -> bool {
        (FIRST..=65).contains(&number) && self.mask >> (65 - number) & 1 == 1
    }

    /// How many bytes those fields of a kind have that are announced and whose numbers are under this one.
    fn width_under(&self, kind: Kind, number: u32) -> usize {
        let is_there = |field: &&Field| field.number() < number && self.announces(field.number());
        kind.fields().iter().filter(is_there).map(|field| field.width).sum()
    }

    /// How many bytes all announced fields of a kind have.
    fn width_of(&self, kind: Kind) -> usize {
        self.width_under(kind, u32::MAX)
    }

    /// The value of a field before the targets or scatterers, where it is announced.
    fn value(&self, number: u32) -> Option<i64> {
        let field = field_of(self.kind, number).filter(|_| self.announces(number))?;
        number_of(field, self.fields.get(self.width_under(self.kind, number)..)?)
    }

    /// The least S2 that holds what is announced before the targets or scatterers.
    fn size_before_parts(&self) -> i64 {
        (SEGMENT_HEADER + self.width + self.width_of(self.kind)) as i64
    }

    /// Another field of the same group that is announced.
    fn other_of_group(&self, number: u32) -> Option<Named> {
        let group = GROUPS.into_iter().find(|group| group.contains(&number))?;
        let other = group.iter().copied().find(|other| self.announces(*other))?;
        dwell_field(other).map(Named::from)
    }

    /// D32.5 beside D32.2 and D32.3 is never the lowest field at fault: it is D32.4 then, or what D32.5 lacks of its group.
    pub fn mask_of_dwell(&self, number: u32) -> Option<Fault> {
        let Some(field) = dwell_field(number) else { return Some(Fault::ReservedBit(number)) };
        let named = Named::from(field);
        Some(match self.announces(number) {
            false if field.presence != Presence::Masked => Fault::Mandatory(named),
            false => Fault::Missing(named, self.other_of_group(number)?),
            true if number == DELTA_LATITUDE => Fault::Beside(named),
            true => Fault::Reserved(named),
        })
    }

    pub fn new_in_dwell(&self, number: u32) -> Option<Fault> {
        let named = dwell_field(number)?.into();
        if self.announces(number) {
            Some(Fault::NewField(named))
        } else {
            Some(Fault::NewAngles(named, self.other_of_group(number)?))
        }
    }

    pub fn size_of_dwell(&self, size: u32) -> Option<Fault> {
        if size < LEAST_DWELL {
            return Some(Fault::Value(S2, size.into(), Side::Under(LEAST_DWELL.into())));
        }
        let targets = self.value(5)?;
        let due = self.size_before_parts() + targets * self.width_of(Kind::Target) as i64;
        Some(Fault::DwellSize { size, due, count: dwell_field(5)?.into(), targets })
    }

    /// D4, or D5 with no position announced, which has no range.
    pub fn value_of_dwell(&self, number: u32) -> Option<Fault> {
        let value = self.value(number)?;
        Some(out_of_range(Kind::Dwell, number, value).unwrap_or(Fault::NoPosition(dwell_field(number)?.into(), value)))
    }

    /// The first target, from 1, of which this field is out of range; of D32.4, the latitude. A target before it with another fault would
    /// have been refused.
    pub fn in_target(&self, number: u32) -> Option<(u32, Fault)> {
        let (field, at) = (field_of(Kind::Target, number)?, self.width_under(Kind::Target, number));
        let (scale, centre) = (self.value(10), self.value(24));
        let fault = |target: &[u8]| match number_of(field, target.get(at..)?)? {
            delta if number == DELTA_LATITUDE => beyond_a_pole(delta * scale? + centre?),
            value => out_of_range(Kind::Target, number, value),
        };
        let targets = self.fields.get(self.width_of(self.kind)..)?.chunks_exact(self.width_of(Kind::Target).max(1));
        (1..).zip(targets).find_map(|(place, target)| Some((place, fault(target)?)))
    }

    /// The first field that is missing, else the first bit that announces nothing.
    pub fn mask_of_hrr(&self) -> Option<Fault> {
        let mut fields = Kind::Hrr.fields().iter().chain(Kind::Scatterer.fields());
        let is_missing = |field: &&Field| field.number() >= FIRST && field.presence == Presence::Always && !self.announces(field.number());
        match fields.find(is_missing) {
            Some(field) => Some(Fault::Mandatory(field.into())),
            None => (36..=41).find(|number| self.announces(*number)).map(Fault::SpareBit),
        }
    }

    /// H25 or H26, where the fields that are announced are there; else the size.
    pub fn size_of_hrr(&self, size: u32) -> Option<Fault> {
        let before = self.size_before_parts();
        if i64::from(size) < before {
            return Some(Fault::HrrFields(size, before));
        }
        let widths = [self.value(25)?, self.value(26)?, INDEX, INDEX];
        let of_widths = out_of_range(Kind::Hrr, 25, widths[0]).or(out_of_range(Kind::Hrr, 26, widths[1]));
        let each: i64 = (PARTS..).zip(widths).filter(|(number, _)| self.announces(*number)).map(|(_, width)| width).sum();
        let scatterers = self.scatterers();
        of_widths.or(Some(Fault::HrrSize { size, due: before + scatterers * each, scatterers }))
    }

    /// H6 where it is announced, else H7 x H8; what is absent counts as zero.
    fn scatterers(&self) -> i64 {
        let counted = |number| self.value(number).unwrap_or(0);
        if self.announces(6) {
            counted(6)
        } else {
            counted(7) * counted(8)
        }
    }
}

/// A field of a dwell or of its targets.
fn dwell_field(number: u32) -> Option<&'static Field> {
    field_of(if number < PARTS { Kind::Dwell } else { Kind::Target }, number)
}

fn beyond_a_pole(steps: i64) -> Option<Fault> {
    (steps.unsigned_abs() > 1 << 31).then_some(Fault::Latitude(steps))
}
