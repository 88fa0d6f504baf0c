//! The forms in which a sheet stores fields, and their values. Numbers are stored highest byte first.
use core::fmt;

/// The form of a field, by the names of docs/MANUAL.md.
#[derive(Clone, Copy, Debug, PartialEq, Eq)]
pub enum Form {
    /// A number from 0 on.
    Unsigned,
    /// A number in two's complement.
    Signed,
    /// A signed angle in steps of 180 / 2^32 degrees.
    Sa32,
    /// A signed angle in steps of 180 / 2^16 degrees.
    Sa16,
    /// An unsigned angle in steps of 360 / 2^32 degrees.
    Ba32,
    /// An unsigned angle in steps of 360 / 2^16 degrees.
    Ba16,
    /// A sign bit, then 15 bits that count 1/128.
    B16,
    /// A sign bit, then 31 bits that count 1/2^23.
    B32,
    /// A sign bit, then 31 bits that count 1/2^16.
    H32,
    /// Printable characters.
    Text,
    /// Bytes as they stand.
    Bytes,
}

impl fmt::Display for Form {
    fn fmt(&self, f: &mut fmt::Formatter<'_>) -> fmt::Result {
        f.write_str(match self {
            Form::Unsigned => "unsigned",
            Form::Signed => "signed",
            Form::Sa32 => "SA32",
            Form::Sa16 => "SA16",
            Form::Ba32 => "BA32",
            Form::Ba16 => "BA16",
            Form::B16 => "B16",
            Form::B32 => "B32",
            Form::H32 => "H32",
            Form::Text => "text",
            Form::Bytes => "bytes",
        })
    }
}

/// What a field holds.
#[derive(Clone, Copy, Debug, PartialEq)]
pub enum Value<'s> {
    /// The mask does not announce the field. It stands on the sheet as zero, which is no value.
    Absent,
    /// The Edition 1 reading of a version 3 packet does not show the field. It stands on the sheet as zero, which is no value.
    Withheld,
    /// A whole number.
    Number(i64),
    /// An angle in degrees.
    Degrees(f64),
    /// A number with a fraction, in the field's unit.
    Real(f64),
    /// Text, with the spaces that fill it up.
    Text(&'s str),
    /// Bytes as they stand.
    Bytes(&'s [u8]),
}

/// What the table of fields asks of a form: how wide it is, and what its bytes mean.
pub(crate) trait Stored {
    type Out<'s>;
    const WIDTH: usize;
    const FORM: Form;
    /// What an accessor gives of these bytes, which are as many as the field has.
    fn get(bytes: &[u8]) -> Self::Out<'_>;
    fn value(bytes: &[u8]) -> Value<'_>;
}

/// The bytes of a number.
fn array<const N: usize>(bytes: &[u8]) -> [u8; N] {
    let mut array = [0; N];
    array.copy_from_slice(&bytes[..N]);
    array
}

macro_rules! numbers {
    ($($number:ty, $form:ident;)*) => {$(
        impl Stored for $number {
            type Out<'s> = $number;
            const WIDTH: usize = size_of::<$number>();
            const FORM: Form = Form::$form;
            fn get(bytes: &[u8]) -> $number {
                <$number>::from_be_bytes(array(bytes))
            }
            fn value(bytes: &[u8]) -> Value<'_> {
                Value::Number(Self::get(bytes).into())
            }
        }
    )*};
}

numbers! {
    u8, Unsigned;
    u16, Unsigned;
    u32, Unsigned;
    i8, Signed;
    i16, Signed;
    i32, Signed;
}

macro_rules! angles {
    ($($(#[$doc:meta])* $angle:ident, $number:ty, $circle:literal, $example:literal;)*) => {$(
        $(#[$doc])*
        #[derive(Clone, Copy, Debug, PartialEq, Eq, PartialOrd, Ord, Hash)]
        pub struct $angle(
            /// The steps, as the packet has them.
            pub $number,
        );

        impl $angle {
            /// The angle in degrees. It is exact.
            ///
            /// ```
            #[doc = $example]
            /// ```
            pub fn degrees(self) -> f64 {
                f64::from(self.0) * ($circle / (1u64 << <$number>::BITS) as f64)
            }
        }

        impl Stored for $angle {
            type Out<'s> = $angle;
            const WIDTH: usize = size_of::<$number>();
            const FORM: Form = Form::$angle;
            fn get(bytes: &[u8]) -> $angle {
                $angle(<$number>::from_be_bytes(array(bytes)))
            }
            fn value(bytes: &[u8]) -> Value<'_> {
                Value::Degrees(Self::get(bytes).degrees())
            }
        }
    )*};
}

angles! {
    /// A signed angle in steps of 180 / 2^32 degrees: a latitude.
    Sa32, i32, 180.0, "assert_eq!(gmti::Sa32(-1 << 30).degrees(), -45.0);";
    /// A signed angle in steps of 180 / 2^16 degrees: pitch or roll.
    Sa16, i16, 180.0, "assert_eq!(gmti::Sa16(-1 << 14).degrees(), -45.0);";
    /// An unsigned angle in steps of 360 / 2^32 degrees: a longitude.
    Ba32, u32, 360.0, "assert_eq!(gmti::Ba32(1 << 31).degrees(), 180.0);";
    /// An unsigned angle in steps of 360 / 2^16 degrees: a track, a heading or an extent.
    Ba16, u16, 360.0, "assert_eq!(gmti::Ba16(1 << 15).degrees(), 180.0);";
}

macro_rules! fractions {
    ($($(#[$doc:meta])* $fraction:ident, $number:ty, $parts:literal, $example:literal;)*) => {$(
        $(#[$doc])*
        #[derive(Clone, Copy, Debug, PartialEq, Eq, Hash)]
        pub struct $fraction(
            /// The bits, as the packet has them: a sign and a magnitude.
            pub $number,
        );

        impl $fraction {
            /// The number, in the field's unit. It is exact.
            ///
            /// ```
            #[doc = $example]
            /// ```
            pub fn number(self) -> f64 {
                let sign = 1 << (<$number>::BITS - 1);
                let magnitude = f64::from(self.0 & !sign) / $parts;
                if self.0 & sign == 0 { magnitude } else { -magnitude }
            }
        }

        impl Stored for $fraction {
            type Out<'s> = $fraction;
            const WIDTH: usize = size_of::<$number>();
            const FORM: Form = Form::$fraction;
            fn get(bytes: &[u8]) -> $fraction {
                $fraction(<$number>::from_be_bytes(array(bytes)))
            }
            fn value(bytes: &[u8]) -> Value<'_> {
                Value::Real(Self::get(bytes).number())
            }
        }
    )*};
}

fractions! {
    /// A sign bit, then 15 bits that count 1/128.
    B16, u16, 128.0, "assert_eq!(gmti::B16(0x8040).number(), -0.5);";
    /// A sign bit, then 31 bits that count 1/2^23.
    B32, u32, 8_388_608.0, "assert_eq!(gmti::B32(1 << 22).number(), 0.5);";
    /// A sign bit, then 31 bits that count 1/2^16.
    H32, u32, 65_536.0, "assert_eq!(gmti::H32(1 << 15).number(), 0.5);";
}

/// Text of so many bytes.
pub(crate) struct Text<const N: usize>;

impl<const N: usize> Stored for Text<N> {
    type Out<'s> = &'s str;
    const WIDTH: usize = N;
    const FORM: Form = Form::Text;
    fn get(bytes: &[u8]) -> &str {
        core::str::from_utf8(bytes).expect("rows 5 and 10 let ASCII alone pass")
    }
    fn value(bytes: &[u8]) -> Value<'_> {
        Value::Text(Self::get(bytes))
    }
}

/// So many bytes as they stand.
pub(crate) struct Raw<const N: usize>;

impl<const N: usize> Stored for Raw<N> {
    type Out<'s> = [u8; N];
    const WIDTH: usize = N;
    const FORM: Form = Form::Bytes;
    fn get(bytes: &[u8]) -> [u8; N] {
        array(bytes)
    }
    fn value(bytes: &[u8]) -> Value<'_> {
        Value::Bytes(bytes)
    }
}
