//! The Rust package gives what the library's functions give: answers, sheets, records and their fields.
use gmti::{Accepted, Edition, Form, Kind, Presence, Record, Refusal, Sheet, Value};
use testing::generator::records::{split, Record as Plain};
use testing::generator::tables::HRR_ALWAYS;
use testing::generator::{damage, sheets, valid, Random};
use testing::library::{self, Answer};

/// What lent memory holds before a call.
const UNTOUCHED: u8 = 0xA5;

fn numbers(refusal: &Refusal) -> Answer {
    Answer::refused(refusal.number(), refusal.segment(), refusal.field())
}

fn lent() -> Vec<u8> {
    vec![UNTOUCHED; gmti::LONGEST_SHEET]
}

/// Valid packets and damaged ones, by turns.
fn packets(count: u64) -> impl Iterator<Item = Vec<u8>> {
    (0..count).map(|index| {
        let random = &mut Random::of_case(20, index);
        let packet = valid::packet(random).bytes();
        if index % 3 == 2 {
            damage::packet(random, &packet)
        } else {
            packet
        }
    })
}

#[test]
fn readings_answer_as_the_library_does() {
    let (mut accepted, mut refused) = (0, 0);
    for packet in packets(3000) {
        for (edition, number) in [(Edition::One, 1), (Edition::Three, 3)] {
            let [mut ours, mut theirs] = [lent(), lent()];
            let due = library::read(number, &packet, &mut theirs);
            match gmti::read(edition, &packet, &mut ours) {
                Ok(Accepted { segments, dwells, targets, sheet }) => {
                    let length = sheet.bytes().len();
                    assert_eq!(Answer::accepted(segments, dwells, targets, length as u32), due);
                    assert_eq!(sheet.bytes(), &theirs[..length]);
                    accepted += 1;
                }
                Err(refusal) => {
                    assert_eq!(numbers(&refusal), due);
                    refused += 1;
                }
            }
            assert!(ours == theirs);
        }
    }
    assert!(accepted > 1000 && refused > 1000, "{accepted} {refused}");
}

#[test]
fn the_writer_answers_as_the_library_does() {
    let (mut accepted, mut refused) = (0, 0);
    for index in 0..2000 {
        let random = &mut Random::of_case(21, index);
        let valid = sheets::valid(random, 3);
        let sheet = if index % 2 == 0 { valid } else { sheets::damaged(random, &valid) };
        let [mut ours, mut theirs] = [vec![UNTOUCHED; gmti::LONGEST_PACKET], vec![UNTOUCHED; gmti::LONGEST_PACKET]];
        let due = library::write(&sheet, &mut theirs);
        match gmti::write(&sheet, &mut ours) {
            Ok(written) => {
                assert_eq!(Answer::accepted(written.segments, written.dwells, written.targets, written.packet.len() as u32), due);
                assert_eq!(written.packet, &theirs[..written.packet.len()]);
                accepted += 1;
            }
            Err(refusal) => {
                assert_eq!(numbers(&refusal), due);
                refused += 1;
            }
        }
        assert!(ours == theirs);
        assert_eq!(
            Sheet::new(&sheet).map(Sheet::bytes).map_err(|refusal| numbers(&refusal)),
            if due.is_accepted() { Ok(&sheet[..]) } else { Err(due) }
        );
    }
    assert!(accepted > 500 && refused > 500, "{accepted} {refused}");
}

#[test]
fn modes_have_the_systems_of_the_library() {
    for (edition, number) in [(Edition::One, 1), (Edition::Three, 3)] {
        for mode in 0..=255 {
            assert_eq!(Ok(gmti::mode_system(edition, mode).map_or(0, |system| system.number())), library::mode_system(number, mode));
        }
    }
}

/// The bytes of a field as a number, by its form.
fn number(form: Form, bytes: &[u8]) -> i64 {
    let unsigned = bytes.iter().fold(0, |number, byte| number << 8 | i64::from(*byte));
    let bits = 8 * bytes.len() as u32;
    let is_signed = matches!(form, Form::Signed | Form::Sa32 | Form::Sa16);
    if is_signed && unsigned >> (bits - 1) == 1 {
        unsigned - (1 << bits)
    } else {
        unsigned
    }
}

/// What a field of this form with these bytes holds, by the manual's table of forms.
fn due_value(form: Form, bytes: &[u8]) -> Value<'_> {
    let number = number(form, bytes);
    let fraction = |parts: f64| {
        let sign = 1 << (8 * bytes.len() - 1);
        Value::Real(if number & sign == 0 { number as f64 / parts } else { -((number ^ sign) as f64) / parts })
    };
    match form {
        Form::Unsigned | Form::Signed => Value::Number(number),
        Form::Sa32 => Value::Degrees(number as f64 * 180.0 / 4_294_967_296.0),
        Form::Sa16 => Value::Degrees(number as f64 * 180.0 / 65_536.0),
        Form::Ba32 => Value::Degrees(number as f64 * 360.0 / 4_294_967_296.0),
        Form::Ba16 => Value::Degrees(number as f64 * 360.0 / 65_536.0),
        Form::B16 => fraction(128.0),
        Form::B32 => fraction(8_388_608.0),
        Form::H32 => fraction(65_536.0),
        Form::Text => Value::Text(std::str::from_utf8(bytes).unwrap()),
        Form::Bytes => Value::Bytes(bytes),
    }
}

/// Every field of a record holds what its bytes say, unless the mask (of 64 bits, with the field of number n at bit 65 - n) does not announce
/// it or it is withheld.
fn assert_values(record: &Record<'_>, mask: u64, withholds: bool) {
    for field in record.kind().fields() {
        let is_masked = matches!(field.label.as_bytes()[0], b'D' | b'H') && field.number() > 1;
        let due = if is_masked && mask >> (65 - field.number()) & 1 == 0 {
            Value::Absent
        } else if withholds && ["D27", "J26"].contains(&field.label) {
            Value::Withheld
        } else {
            due_value(field.form, &record.bytes()[field.offset..field.offset + field.width])
        };
        assert_eq!(record.value(field), due, "{}", field.label);
    }
}

/// The mask of a record that has one, with the bits of one of 40 in the upper places.
fn mask_of(record: &Plain) -> Option<u64> {
    match record.kind {
        3 => Some(u64::from_be_bytes(record.body[..8].try_into().unwrap())),
        11 => Some(record.body[..5].iter().fold(0, |mask, byte| mask << 8 | u64::from(*byte)) << 24),
        _ => None,
    }
}

#[test]
fn records_have_the_values_of_their_bytes() {
    let mut seen = [0; 13];
    for packet in packets(3000) {
        for edition in [Edition::One, Edition::Three] {
            let mut lent = lent();
            let Ok(accepted) = gmti::read(edition, &packet, &mut lent) else { continue };
            let plain = split(accepted.sheet.bytes());
            let withholds = edition == Edition::One && packet[0] == b'3';
            let mut mask = 0;
            let records: Vec<Record<'_>> = accepted.sheet.records().collect();
            assert_eq!(records.len(), plain.len());
            for (record, plain) in records.iter().zip(&plain) {
                assert_eq!((record.kind() as u8, &record.bytes()[1..]), (plain.kind, &plain.body[..]));
                mask = mask_of(plain).unwrap_or(mask);
                assert_values(record, mask, withholds);
                seen[plain.kind as usize] += 1;
            }
        }
    }
    assert!(seen[1..].iter().all(|count| *count > 100), "{seen:?}");
}

/// Without an `Option` are just the fields that every accepted mask announces: those of row 11 and of row 21, the magnitude among them.
#[test]
fn fields_without_an_option_are_mandatory() {
    let always = |kind: Kind, presence: Presence| {
        let fields = kind.fields().iter().filter(move |field| field.presence == presence && field.number() > 1);
        fields.map(|field| field.number()).collect::<Vec<_>>()
    };
    assert_eq!(always(Kind::Dwell, Presence::Always), [2, 3, 4, 5, 6, 7, 8, 9, 24, 25, 26]);
    assert_eq!(always(Kind::Dwell, Presence::Marked), [27]);
    assert_eq!(always(Kind::Target, Presence::Always), []);
    assert_eq!([always(Kind::Hrr, Presence::Always), always(Kind::Scatterer, Presence::Always)].concat(), HRR_ALWAYS);
    assert_eq!(always(Kind::Job, Presence::Marked), [26]);
}

fn sample(name: &str) -> Vec<u8> {
    std::fs::read(testing::root().join("samples").join(name)).unwrap()
}

/// What samples/make.py puts into its packets, by the accessors.
#[test]
fn accessors_give_what_the_samples_were_made_of() {
    let packet = sample("dwell_every_field.gmti");
    let mut lent = lent();
    let sheet = gmti::read(Edition::Three, &packet, &mut lent).unwrap().sheet;
    let records: Vec<Record<'_>> = sheet.records().collect();
    let [Record::Header(header), Record::Dwell(dwell), Record::Target(target), ..] = records[..] else { panic!("a dwell with targets") };
    assert_eq!(
        (header.version(), header.nationality(), header.platform(), header.mission(), header.job()),
        ("30", "NO", "LN-ICE    ", 17, 3)
    );
    assert_eq!((dwell.revisit(), dwell.dwell(), dwell.target_count(), dwell.time()), (1, 1, 4, 37_868_450));
    assert!((dwell.sensor_latitude().degrees() - 77.7).abs() < 1e-7 && (dwell.sensor_longitude().degrees() - 16.2).abs() < 1e-7);
    assert_eq!((dwell.height_deviation(), dwell.sensor_vertical_speed(), dwell.range_half_extent().number()), (Some(300), Some(-3), 4.0));
    assert!((dwell.sensor_track().unwrap().degrees() - 92.5).abs() < 0.003);
    assert_eq!(
        (target.height(), target.speed(), target.truth_entity(), target.cross_section()),
        (Some(31), Some(-840), Some(70_001), None)
    );
    assert_eq!((target.raw_latitude(), target.of_dwell()), (None, dwell));
    let packet = sample("new_profile_with_indices.gmti");
    let mut lent = vec![0; gmti::LONGEST_SHEET];
    let sheet = gmti::read(Edition::Three, &packet, &mut lent).unwrap().sheet;
    let scatterers: Vec<_> = sheet.records().filter_map(|record| if let Record::Scatterer(s) = record { Some(s) } else { None }).collect();
    let found: Vec<_> = scatterers.iter().map(|s| (s.magnitude(), s.range_index(), s.doppler_index())).collect();
    assert_eq!(found, [0, 1, 2, 3, 4, 5].map(|k| (40 * k, Some(3 + 2 * k), Some(6 + k % 4))));
    assert_eq!((scatterers[0].of_hrr().scatterer_count(), scatterers[0].of_hrr().range_samples()), (Some(6), None));
}
