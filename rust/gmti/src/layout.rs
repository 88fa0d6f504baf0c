//! The one table of what stands where on a sheet: each kind of record, its length and its fields. The accessors are made of it.
//! docs/MANUAL.md and include/gmti.h have the same places; tests hold them to this table.
use crate::forms::{Ba16, Ba32, Form, Raw, Sa16, Sa32, Stored, Text as Letters, Value, B16, B32, H32};
use crate::sheet::{Dwell, Header, Hrr, Job, Location, Mission, Opaque, Piece, Scatterer, Target, Test, Text};

/// The kind of a record: the number that its first byte has.
#[derive(Clone, Copy, Debug, PartialEq, Eq, PartialOrd, Ord, Hash)]
pub enum Kind {
    /// The packet's header.
    Header = 1,
    /// A segment of type 1.
    Mission = 2,
    /// A segment of type 2. Its targets follow.
    Dwell = 3,
    /// A target of the dwell before it.
    Target = 4,
    /// A segment of type 6. Its pieces follow.
    Text = 5,
    /// Up to 32 bytes of the text or body before it.
    Piece = 6,
    /// A segment that is kept as it is. Its pieces follow.
    Opaque = 7,
    /// A segment of type 5.
    Job = 8,
    /// A segment of type 10.
    Test = 9,
    /// A segment of type 13.
    Location = 10,
    /// A segment of type 3 of a version 3 packet. Its scatterers follow.
    Hrr = 11,
    /// A scatterer of the HRR record before it.
    Scatterer = 12,
}

/// What table 2-2 of Edition 3 calls a segment of this type, None where no such type is known. 4, which is reserved there, has its name from
/// Edition 1.
///
/// ```
/// assert_eq!(gmti::segment_name(5), Some("job definition"));
/// assert_eq!(gmti::segment_name(14), None);
/// ```
pub fn segment_name(segment_type: u8) -> Option<&'static str> {
    Some(match segment_type {
        1 => "mission",
        2 => "dwell",
        3 => "HRR",
        4 => "range-Doppler",
        5 => "job definition",
        6 => "free text",
        7 => "low reflectivity index",
        8 => "group",
        9 => "attached target",
        10 => "test and status",
        11 => "system-specific",
        12 => "processing history",
        13 => "platform location",
        101 => "job request",
        102 => "job acknowledge",
        _ => return None,
    })
}

/// What tells whether a field has a value.
#[derive(Clone, Copy, Debug, PartialEq, Eq)]
pub enum Presence {
    /// Every record of its kind has it.
    Always,
    /// The mask announces it or not.
    Masked,
    /// It is shown or withheld, by the record's last byte.
    Marked,
}

/// A field of a record.
#[derive(Clone, Copy, Debug)]
pub struct Field {
    /// What the standard calls it, as `D32.6`; what has no number there has its name.
    pub label: &'static str,
    /// What it is, in a few words.
    pub name: &'static str,
    /// Where it stands in its record, whose kind byte is at 0.
    pub offset: usize,
    /// How many bytes it has.
    pub width: usize,
    /// How its bytes are to be read.
    pub form: Form,
    /// The unit of its value by Edition 3, as `cm`; empty where it has none.
    pub unit: &'static str,
    /// What tells whether it has a value.
    pub presence: Presence,
    /// Its unit or form by Edition 3 and by Edition 1, where the two do not say the same: `("cm", "dm")`.
    pub differs: Option<(&'static str, &'static str)>,
    /// Its value, of a record of its kind.
    pub(crate) value: fn(&[u8]) -> Value<'_>,
}

impl Field {
    /// The number by which a mask and a refusal know it: n for Dn, Jn and their like, 31 + j for D32.j and H32.j; 0 for what has no number.
    ///
    /// ```
    /// let field = gmti::Kind::Target.fields().iter().find(|field| field.label == "D32.6").unwrap();
    /// assert_eq!(field.number(), 37);
    /// ```
    pub fn number(&self) -> u32 {
        number_of(self.label)
    }
}

/// The number of a label: n for a letter and n, 31 + j for `D32.j` and `H32.j`, else 0.
pub(crate) const fn number_of(label: &str) -> u32 {
    let bytes = label.as_bytes();
    let (mut at, mut number, mut first) = (1, 0, 0);
    while at < bytes.len() {
        match bytes[at] {
            b'.' => {
                first = 31;
                number = 0;
            }
            digit @ b'0'..=b'9' => number = 10 * number + (digit - b'0') as u32,
            _ => return 0,
        }
        at += 1;
    }
    first + number
}

/// The bytes of a field of this form.
#[inline(always)]
fn part<T: Stored>(record: &[u8], offset: usize) -> &[u8] {
    &record[offset..offset + T::WIDTH]
}

/// What an accessor gives of a form, and what reads it.
macro_rules! given {
    (text $width:literal) => { &'s str };
    (bytes $width:literal) => { [u8; $width] };
    ($number:ident) => { $number };
}
macro_rules! stored {
    (text $width:literal) => { Letters<$width> };
    (bytes $width:literal) => { Raw<$width> };
    ($number:ident) => { $number };
}

macro_rules! accessor {
    (Always, $(#[$doc:meta])* $method:ident, $offset:literal, [$($form:tt)*], $label:literal) => {
        $(#[$doc])*
        #[inline]
        pub fn $method(&self) -> given!($($form)*) {
            <stored!($($form)*)>::get(part::<stored!($($form)*)>(self.record(), $offset))
        }
    };
    ($presence:ident, $(#[$doc:meta])* $method:ident, $offset:literal, [$($form:tt)*], $label:literal) => {
        $(#[$doc])*
        #[inline]
        pub fn $method(&self) -> Option<given!($($form)*)> {
            let has_value = has_value!($presence, self, $label);
            has_value.then(|| <stored!($($form)*)>::get(part::<stored!($($form)*)>(self.record(), $offset)))
        }
    };
}

macro_rules! differs {
    () => {
        None
    };
    ($newer:literal, $older:literal) => {
        Some(($newer, $older))
    };
}

macro_rules! has_value {
    (Masked, $record:expr, $label:literal) => {
        $record.announces(const { number_of($label) })
    };
    (Marked, $record:expr, $label:literal) => {
        $record.is_shown()
    };
}

/// For each kind its length, its name and a sample that has it for the examples; then a line for each field: its label, its accessor, its offset, its form, what tells whether it has a value, its name, its unit and, where
/// that is something else, what Edition 1 says.
macro_rules! records {
    ($($kind:ident, $length:literal, $title:literal, $sample:literal {
        $($label:literal $method:ident @ $offset:literal [$($form:tt)*], $presence:ident, $name:literal, $unit:literal $(, $newer:literal / $older:literal)?;)*
    })*) => {
        impl Kind {
            /// Every kind, in the order of their numbers.
            pub const ALL: [Kind; 12] = [$(Kind::$kind),*];

            /// How many bytes a record of this kind has, its kind byte included.
            ///
            /// ```
            /// assert_eq!(gmti::Kind::Target.length(), 45);
            /// ```
            pub const fn length(self) -> usize {
                match self {
                    $(Kind::$kind => $length,)*
                }
            }

            /// What a record of this kind is called.
            ///
            /// ```
            /// assert_eq!(gmti::Kind::Hrr.name(), "HRR");
            /// ```
            pub const fn name(self) -> &'static str {
                match self {
                    $(Kind::$kind => $title,)*
                }
            }

            /// Its fields, in the order in which they stand. The kind byte and the marks of D27 and J26 are not among them.
            ///
            /// ```
            /// let labels: Vec<_> = gmti::Kind::Mission.fields().iter().map(|field| field.label).collect();
            /// assert_eq!(labels, ["M1", "M2", "M3", "M4", "M5", "M6", "M7"]);
            /// ```
            pub const fn fields(self) -> &'static [Field] {
                match self {
                    $(Kind::$kind => const { &[$(Field {
                        label: $label,
                        name: $name,
                        offset: $offset,
                        width: <stored!($($form)*)>::WIDTH,
                        form: <stored!($($form)*)>::FORM,
                        unit: $unit,
                        presence: Presence::$presence,
                        differs: differs!($($newer, $older)?),
                        value: |record| <stored!($($form)*)>::value(part::<stored!($($form)*)>(record, $offset)),
                    }),*] },)*
                }
            }
        }

        $(impl<'s> $kind<'s> {
            $(accessor! {
                $presence,
#[doc = concat!($label, ": ", $name, ". The manual has its form, its unit and its meaning.")]
                ///
                /// ```
                #[doc = concat!("# let packet = std::fs::read(\"../../samples/", $sample, ".gmti\").unwrap();")]
                /// # let mut lent = vec![0; gmti::LONGEST_SHEET];
                /// # let sheet = gmti::read(gmti::Edition::Three, &packet, &mut lent).unwrap().sheet;
                /// for record in sheet.records() {
                #[doc = concat!("    if let gmti::Record::", stringify!($kind), "(record) = record {")]
                #[doc = concat!("        println!(\"{:?}\", record.", stringify!($method), "());")]
                ///     }
                /// }
                #[doc = concat!("# assert!(sheet.records().any(|record| matches!(record, gmti::Record::", stringify!($kind), "(_))));")]
                /// ```
                $method, $offset, [$($form)*], $label
            })*
        })*
    };
}

records! {
    Header, 33, "header", "mission" {
        "P1" version @ 1 [text 2], Always, "version", "";
        "P2" packet_size @ 3 [u32], Always, "packet size", "bytes";
        "P3" nationality @ 7 [text 2], Always, "nationality", "";
        "P4" security_class @ 9 [u8], Always, "security class", "";
        "P5" security_system @ 10 [text 2], Always, "security system", "";
        "P6" security_flags @ 12 [u16], Always, "security flags", "";
        "P7" exercise @ 14 [u8], Always, "exercise", "";
        "P8" platform @ 15 [text 10], Always, "platform", "";
        "P9" mission @ 25 [u32], Always, "mission", "";
        "P10" job @ 29 [u32], Always, "job", "";
    }
    Mission, 40, "mission", "mission" {
        "M1" mission_plan @ 1 [text 12], Always, "mission plan", "";
        "M2" flight_plan @ 13 [text 12], Always, "flight plan", "";
        "M3" platform_type @ 25 [u8], Always, "platform type", "";
        "M4" configuration @ 26 [text 10], Always, "configuration", "";
        "M5" year @ 36 [u16], Always, "year", "";
        "M6" month @ 38 [u8], Always, "month", "";
        "M7" day @ 39 [u8], Always, "day", "";
    }
    Dwell, 88, "dwell", "dwell_every_field" {
        "D1" mask @ 1 [bytes 8], Always, "mask", "";
        "D2" revisit @ 9 [u16], Always, "revisit", "";
        "D3" dwell @ 11 [u16], Always, "dwell", "";
        "D4" last_of_revisit @ 13 [u8], Always, "last of revisit", "";
        "D5" target_count @ 14 [u16], Always, "target count", "";
        "D6" time @ 16 [u32], Always, "time", "ms";
        "D7" sensor_latitude @ 20 [Sa32], Always, "sensor latitude", "degrees";
        "D8" sensor_longitude @ 24 [Ba32], Always, "sensor longitude", "degrees";
        "D9" sensor_height @ 28 [i32], Always, "sensor height", "cm", "cm" / "cm, in text dm";
        "D10" latitude_scale @ 32 [Sa32], Masked, "latitude scale", "degrees";
        "D11" longitude_scale @ 36 [Ba32], Masked, "longitude scale", "degrees";
        "D12" along_track_deviation @ 40 [u32], Masked, "deviation along track", "cm";
        "D13" cross_track_deviation @ 44 [u32], Masked, "deviation across track", "cm";
        "D14" height_deviation @ 48 [u16], Masked, "deviation in height", "cm", "cm" / "dm";
        "D15" sensor_track @ 50 [Ba16], Masked, "sensor track", "degrees";
        "D16" sensor_speed @ 52 [u32], Masked, "sensor speed", "mm/s";
        "D17" sensor_vertical_speed @ 56 [i8], Masked, "sensor vertical speed", "dm/s";
        "D18" track_deviation @ 57 [u8], Masked, "deviation of track", "degrees";
        "D19" speed_deviation @ 58 [u16], Masked, "deviation of speed", "mm/s";
        "D20" vertical_speed_deviation @ 60 [u16], Masked, "deviation of vertical speed", "cm/s";
        "D21" platform_heading @ 62 [Ba16], Masked, "platform heading", "degrees";
        "D22" platform_pitch @ 64 [Sa16], Masked, "platform pitch", "degrees";
        "D23" platform_roll @ 66 [Sa16], Masked, "platform roll", "degrees";
        "D24" centre_latitude @ 68 [Sa32], Always, "centre latitude", "degrees";
        "D25" centre_longitude @ 72 [Ba32], Always, "centre longitude", "degrees";
        "D26" range_half_extent @ 76 [B16], Always, "half extent in range", "km";
        "D27" angle_half_extent @ 78 [Ba16], Marked, "half extent in angle", "degrees";
        "D28" sensor_heading @ 80 [Ba16], Masked, "sensor heading", "degrees";
        "D29" sensor_pitch @ 82 [Sa16], Masked, "sensor pitch", "degrees";
        "D30" sensor_roll @ 84 [Sa16], Masked, "sensor roll", "degrees";
        "D31" least_speed @ 86 [u8], Masked, "least detectable speed", "dm/s";
    }
    Target, 45, "target", "dwell_every_field" {
        "D32.1" report @ 1 [u16], Masked, "report number", "";
        "D32.2" raw_latitude @ 3 [Sa32], Masked, "latitude", "degrees";
        "D32.3" raw_longitude @ 7 [Ba32], Masked, "longitude", "degrees";
        "D32.4" delta_latitude @ 11 [i16], Masked, "latitude from D24", "x D10";
        "D32.5" delta_longitude @ 13 [i16], Masked, "longitude from D25", "x D11";
        "D32.6" height @ 15 [i16], Masked, "height", "m";
        "D32.7" speed @ 17 [i16], Masked, "line-of-sight speed", "cm/s", "cm/s" / "m/s in text";
        "D32.8" wrap_speed @ 19 [u16], Masked, "wrap speed", "cm/s";
        "D32.9" signal_to_noise @ 21 [i8], Masked, "signal to noise", "dB";
        "D32.10" class @ 22 [u8], Masked, "class", "";
        "D32.11" class_probability @ 23 [u8], Masked, "class probability", "%";
        "D32.12" slant_range_deviation @ 24 [u16], Masked, "deviation in slant range", "cm";
        "D32.13" cross_range_deviation @ 26 [u16], Masked, "deviation in cross range", "dm";
        "D32.14" height_deviation @ 28 [u8], Masked, "deviation of height", "m";
        "D32.15" speed_deviation @ 29 [u16], Masked, "deviation of speed", "cm/s";
        "D32.16" truth_application @ 31 [u8], Masked, "truth tag application", "";
        "D32.17" truth_entity @ 32 [u32], Masked, "truth tag entity", "";
        "D32.18" cross_section @ 36 [i8], Masked, "radar cross section", "dB/2";
        "latitude" latitude @ 37 [i32], Always, "latitude in microdegrees", "";
        "longitude" longitude @ 41 [u32], Always, "longitude in microdegrees", "";
    }
    Text, 25, "text", "free_text" {
        "F1" sender @ 1 [text 10], Always, "sender", "";
        "F2" recipient @ 11 [text 10], Always, "recipient", "";
        "length" text_length @ 21 [u32], Always, "length of F3", "bytes";
    }
    Piece, 34, "piece", "free_text" {
        "count" count @ 1 [u8], Always, "bytes that count", "";
        "bytes" filled @ 2 [bytes 32], Always, "bytes", "";
    }
    Opaque, 6, "opaque", "opaque_processing_history" {
        "type" segment_type @ 1 [u8], Always, "segment type", "";
        "length" body_length @ 2 [u32], Always, "length of the body", "bytes";
    }
    Job, 70, "job", "job_definition" {
        "J1" job @ 1 [u32], Always, "job", "";
        "J2" sensor_type @ 5 [u8], Always, "sensor type", "";
        "J3" sensor_model @ 6 [text 6], Always, "sensor model", "";
        "J4" filtering @ 12 [u8], Always, "filtering of targets", "";
        "J5" priority @ 13 [u8], Always, "priority", "";
        "J6" latitude_a @ 14 [Sa32], Always, "latitude of corner A", "degrees";
        "J7" longitude_a @ 18 [Ba32], Always, "longitude of corner A", "degrees";
        "J8" latitude_b @ 22 [Sa32], Always, "latitude of corner B", "degrees";
        "J9" longitude_b @ 26 [Ba32], Always, "longitude of corner B", "degrees";
        "J10" latitude_c @ 30 [Sa32], Always, "latitude of corner C", "degrees";
        "J11" longitude_c @ 34 [Ba32], Always, "longitude of corner C", "degrees";
        "J12" latitude_d @ 38 [Sa32], Always, "latitude of corner D", "degrees";
        "J13" longitude_d @ 42 [Ba32], Always, "longitude of corner D", "degrees";
        "J14" radar_mode @ 46 [u8], Always, "radar mode", "";
        "J15" revisit_interval @ 47 [u16], Always, "revisit interval", "s/10";
        "J16" along_track_deviation @ 49 [u16], Always, "deviation along track", "dm";
        "J17" cross_track_deviation @ 51 [u16], Always, "deviation across track", "dm";
        "J18" height_deviation @ 53 [u16], Always, "deviation in height", "dm";
        "J19" track_deviation @ 55 [u8], Always, "deviation of track", "degrees";
        "J20" speed_deviation @ 56 [u16], Always, "deviation of speed", "mm/s";
        "J21" slant_range_deviation @ 58 [u16], Always, "deviation of slant range", "cm", "cm" / "m in text";
        "J22" cross_range_deviation @ 60 [Ba16], Always, "deviation of angle across", "degrees", "BA16" / "I16 or BA16";
        "J23" target_speed_deviation @ 62 [u16], Always, "deviation of target speed", "cm/s", "I16" / "B16";
        "J24" least_speed @ 64 [u8], Always, "least detectable speed", "dm/s";
        "J25" detection_probability @ 65 [u8], Always, "detection probability", "%";
        "J26" false_alarm_density @ 66 [u8], Marked, "false alarm density", "";
        "J27" terrain_model @ 67 [u8], Always, "terrain model", "";
        "J28" geoid_model @ 68 [u8], Always, "geoid model", "";
    }
    Test, 15, "test", "test_and_status" {
        "T1" job @ 1 [u32], Always, "job", "";
        "T2" revisit @ 5 [u16], Always, "revisit", "";
        "T3" dwell @ 7 [u16], Always, "dwell", "";
        "T4" time @ 9 [u32], Always, "time", "ms";
        "T5" hardware_faults @ 13 [u8], Always, "hardware faults", "";
        "T6" limits_exceeded @ 14 [u8], Always, "limits exceeded", "";
    }
    Location, 24, "location", "platform_location" {
        "L1" time @ 1 [u32], Always, "time", "ms";
        "L2" latitude @ 5 [Sa32], Always, "platform latitude", "degrees";
        "L3" longitude @ 9 [Ba32], Always, "platform longitude", "degrees";
        "L4" height @ 13 [i32], Always, "height", "cm", "cm" / "dm";
        "L5" track @ 17 [Ba16], Always, "track", "degrees";
        "L6" speed @ 19 [u32], Always, "ground speed", "mm/s";
        "L7" vertical_speed @ 23 [i8], Always, "vertical speed", "dm/s";
    }
    Hrr, 67, "HRR", "new_range_profile" {
        "H1" mask @ 1 [bytes 5], Always, "mask", "";
        "H2" revisit @ 6 [u16], Always, "revisit", "";
        "H3" dwell @ 8 [u16], Always, "dwell", "";
        "H4" last_of_revisit @ 10 [u8], Always, "last of revisit", "";
        "H5" report @ 11 [u16], Masked, "report number", "";
        "H6" scatterer_count @ 13 [u16], Masked, "scatterers above threshold", "";
        "H7" range_samples @ 15 [u16], Masked, "range samples", "";
        "H8" doppler_samples @ 17 [u16], Always, "Doppler samples", "";
        "H9" clutter_power @ 19 [u8], Masked, "mean clutter power", "-dB/4";
        "H10" threshold @ 20 [u8], Always, "detection threshold", "-dB/4";
        "H11" range_resolution @ 21 [B16], Always, "range resolution", "cm";
        "H12" range_spacing @ 23 [B16], Always, "range bin spacing", "cm";
        "H13" doppler_resolution @ 25 [H32], Always, "Doppler resolution", "Hz";
        "H14" doppler_spacing @ 29 [H32], Always, "Doppler bin spacing", "Hz";
        "H15" centre_frequency @ 33 [B32], Masked, "centre frequency", "GHz";
        "H16" compression @ 37 [u8], Always, "compression", "";
        "H17" range_weighting @ 38 [u8], Always, "weighting in range", "";
        "H18" doppler_weighting @ 39 [u8], Always, "weighting in Doppler", "";
        "H19" peak_power @ 40 [B16], Always, "peak power", "dB";
        "H20" peak_cross_section @ 42 [i8], Masked, "peak radar cross section", "dB/2";
        "H21" first_range @ 43 [i16], Masked, "range of the first", "m";
        "H22" first_doppler @ 45 [H32], Masked, "Doppler of the first", "Hz";
        "H23" profile_type @ 49 [u8], Always, "type of profile", "";
        "H24" processing @ 50 [u8], Always, "processing", "";
        "H25" magnitude_bytes @ 51 [u8], Always, "bytes of a magnitude", "";
        "H26" phase_bytes @ 52 [u8], Always, "bytes of a phase", "";
        "H27" range_extent @ 53 [u8], Masked, "extent in range", "pixels";
        "H28" nearest_edge @ 54 [u32], Masked, "range to the nearest edge", "cm";
        "H29" zero_velocity_bin @ 58 [u8], Masked, "bin of zero velocity", "";
        "H30" electrical_length @ 59 [B32], Masked, "electrical length", "m";
        "H31" electrical_length_deviation @ 63 [B32], Masked, "deviation of that length", "m";
    }
    Scatterer, 9, "scatterer", "new_profile_with_indices" {
        "H32.1" magnitude @ 1 [u16], Always, "magnitude", "-dB/4";
        "H32.2" phase @ 3 [u16], Masked, "phase", "";
        "H32.3" range_index @ 5 [u16], Masked, "range index", "";
        "H32.4" doppler_index @ 7 [u16], Masked, "Doppler index", "";
    }
}
