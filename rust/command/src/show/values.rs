//! What a field holds, in words.
use gmti::{Edition, Field, Value};

/// The value with its unit. `edition` is that of the packet's version, by whose tables codes and units go.
pub fn words(field: &Field, value: Value<'_>, edition: Edition) -> String {
    match value {
        Value::Absent => "absent".to_string(),
        Value::Withheld => "withheld".to_string(),
        Value::Number(number) if is_not_stated(field, value) => format!("{number} (not stated)"),
        Value::Degrees(_) | Value::Real(_) if is_not_stated(field, value) => "not stated".to_string(),
        Value::Number(number) => number_words(field, number, edition),
        Value::Degrees(degrees) => format!("{degrees:.*} degrees", decimals(field)),
        Value::Real(number) => with_unit(&number.to_string(), field.unit),
        Value::Text(text) if text.trim_end().is_empty() => "blank".to_string(),
        Value::Text(text) => text.trim_end().to_string(),
        Value::Bytes(bytes) => hex(bytes),
    }
}

/// As many decimals as tell two values of the field apart.
fn decimals(field: &Field) -> usize {
    match (field.label, field.width) {
        ("D10" | "D11", _) => 9,
        (_, 4) => 6,
        _ => 4,
    }
}

/// Values that the standards set aside for "no statement".
const NOT_STATED: [(&str, f64); 16] = [
    ("J2", 255.0),
    ("J16", 65_535.0),
    ("J17", 65_535.0),
    ("J18", 65_535.0),
    ("J19", 255.0),
    ("J20", 65_535.0),
    ("J21", 65_535.0),
    ("J23", 65_535.0),
    ("J24", 255.0),
    ("J25", 255.0),
    ("J26", 255.0),
    ("H11", 0.0),
    ("H12", 0.0),
    ("H17", 0.0),
    ("H18", 0.0),
    ("H19", 0.0),
];

/// Whether the value says that nothing is stated. Of J22 every angle from 180 degrees on does.
fn is_not_stated(field: &Field, value: Value<'_>) -> bool {
    let number = match value {
        Value::Degrees(degrees) => return field.label == "J22" && degrees >= 180.0,
        Value::Number(number) => number as f64,
        Value::Real(number) => number,
        _ => return false,
    };
    NOT_STATED.contains(&(field.label, number))
}

fn number_words(field: &Field, number: i64, edition: Edition) -> String {
    // Zero is added so that none has a sign.
    let parts = |unit: &str, parts: f64| format!("{number} ({} {unit})", number as f64 / parts + 0.0);
    match (field.label, field.unit) {
        ("J14", _) => match gmti::mode_system(edition, number as u8) {
            Some(system) => format!("{number} ({})", system.name()),
            None => format!("{number} (no system)"),
        },
        // Where the editions have two units, that of the packet's own is said in the remark.
        _ if edition == Edition::One && field.differs.is_some() => number.to_string(),
        // The density is given as -10 times its logarithm.
        ("J26", _) => format!("{number} (10^{} per m2)", -number as f64 / 10.0),
        (_, "ms") => format!("{number} ms ({})", clock(number)),
        (_, "dB/2") => parts("dB", 2.0),
        (_, "-dB/4") => parts("dB", -4.0),
        (_, "s/10") => parts("s", 10.0),
        (_, unit) => with_unit(&number.to_string(), unit),
    }
}

fn with_unit(number: &str, unit: &str) -> String {
    if unit.is_empty() {
        return number.to_string();
    }
    format!("{number} {unit}")
}

/// Milliseconds from midnight as hours, minutes and seconds; the hours go on past 24 on the days after.
fn clock(milliseconds: i64) -> String {
    let seconds = milliseconds / 1000;
    format!("{:02}:{:02}:{:02}.{:03}", seconds / 3600, seconds / 60 % 60, seconds % 60, milliseconds % 1000)
}

/// Bytes in hex digits.
pub fn hex(bytes: &[u8]) -> String {
    bytes.iter().map(|byte| format!("{byte:02X}")).collect::<Vec<_>>().join(" ")
}

/// Labels in a list in which a run of neighbours is its first and its last: `D10 to D23, D28`.
pub fn runs(fields: &[&Field]) -> String {
    let neighbours = |a: &&Field, b: &&Field| b.number() == a.number() + 1;
    let run = |run: &[&Field]| match run {
        [first, .., last] if run.len() > 2 => format!("{} to {}", first.label, last.label),
        _ => run.iter().map(|field| field.label).collect::<Vec<_>>().join(", "),
    };
    fields.chunk_by(neighbours).map(run).collect::<Vec<_>>().join(", ")
}
