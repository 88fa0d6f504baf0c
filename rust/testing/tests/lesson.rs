//! samples/lesson_cross_section.gmti: a version 3 packet of which Edition 1's widths make positions that all lie in the dwell area, and four
//! of them wrong. Nearness does not tell; the Edition 1 reading refuses the packet.
use gmti::{Dwell, Edition, Record};
use std::collections::BTreeMap;
use std::fs;
use testing::root;

/// Edition 1's widths: D2 to D31, and D32.1 to D32.17.
const DWELL: [usize; 30] = [2, 2, 1, 2, 4, 4, 4, 4, 4, 4, 4, 4, 2, 2, 4, 1, 1, 2, 2, 2, 2, 2, 4, 4, 2, 2, 2, 2, 2, 1];
const TARGET: [usize; 17] = [2, 4, 4, 2, 2, 2, 2, 2, 1, 1, 1, 2, 2, 1, 2, 1, 4];

/// Kilometres to a degree of latitude.
const KILOMETRES: f64 = 111.2;

/// Latitude and longitude in microdegrees.
type Position = (i64, i64);

fn sample(name: &str) -> Vec<u8> {
    fs::read(root().join("samples").join(name)).unwrap()
}

/// The announced fields of these widths, from this number on, taken off the front of the bytes.
fn announced<'a>(mask: u64, first: u32, widths: &[usize], bytes: &mut &'a [u8]) -> BTreeMap<u32, &'a [u8]> {
    let mut fields = BTreeMap::new();
    for (number, &width) in (first..).zip(widths).filter(|(number, _)| mask >> (65 - number) & 1 == 1) {
        let (field, rest) = bytes.split_at(width);
        fields.insert(number, field);
        *bytes = rest;
    }
    fields
}

/// The position of a delta target: D10, D11, D24 and D25, then D32.4 and D32.5.
fn position([d10, d11, d24, d25]: [&[u8]; 4], delta_latitude: i16, delta_longitude: i16) -> Position {
    let signed = |field: &[u8]| i64::from(i32::from_be_bytes(field.try_into().unwrap()));
    let unsigned = |field: &[u8]| i64::from(u32::from_be_bytes(field.try_into().unwrap()));
    let latitude = i64::from(delta_latitude) * signed(d10) + signed(d24);
    let longitude = (i64::from(delta_longitude) * unsigned(d11) + unsigned(d25)).rem_euclid(1 << 32);
    let microdegrees = |steps: i64, circle: f64| (steps as f64 * circle * 1e6 / 2f64.powi(32)).round() as i64;
    (microdegrees(latitude, 180.0), microdegrees(longitude, 360.0))
}

/// What a naive reader makes of a packet whose one segment is a dwell with delta targets. It goes by the mask and Edition 1's widths. It does
/// not mind a bit that Edition 1 reserves, nor does it ask whether S2 is used up.
fn naive_positions(packet: &[u8]) -> Vec<Position> {
    let (mask, mut rest) = packet[32 + 5..].split_at(8);
    let mask = u64::from_be_bytes(mask.try_into().unwrap());
    let dwell = announced(mask, 2, &DWELL, &mut rest);
    let count = u16::from_be_bytes(dwell[&5].try_into().unwrap());
    let mut target = || {
        let fields = announced(mask, 32, &TARGET, &mut rest);
        let delta = |number: u32| i16::from_be_bytes(fields[&number].try_into().unwrap());
        position([10, 11, 24, 25].map(|number| dwell[&number]), delta(35), delta(36))
    };
    (0..count).map(|_| target()).collect()
}

/// The positions on a sheet.
fn positions(sheet: gmti::Sheet) -> Vec<Position> {
    let position = |record| match record {
        Record::Target(target) => Some((target.latitude().into(), target.longitude().into())),
        _ => None,
    };
    sheet.records().filter_map(position).collect()
}

/// What the packet's dwell is read to as Edition 3, and the positions.
fn with_reading<T>(packet: &[u8], look: impl Fn(Dwell, Vec<Position>) -> T) -> T {
    let mut lent = vec![0; gmti::sheet_bound(packet.len())];
    let accepted = gmti::read(Edition::Three, packet, &mut lent).unwrap();
    let dwell = accepted.sheet.records().find_map(|record| if let Record::Dwell(dwell) = record { Some(dwell) } else { None });
    look(dwell.unwrap(), positions(accepted.sheet))
}

/// How far north and how far east of the sensor a place is, in kilometres, as on a plane.
fn from_sensor(dwell: &Dwell, latitude: f64, longitude: f64) -> (f64, f64) {
    let sensor = dwell.sensor_latitude().degrees();
    let east = longitude - dwell.sensor_longitude().degrees();
    (KILOMETRES * (latitude - sensor), KILOMETRES * east * sensor.to_radians().cos())
}

/// Whether a position is near the dwell: within its area by D24 to D27. Seen from the sensor it is off the centre by at most D26 in range and
/// by at most D27 in angle.
fn is_in_area(dwell: &Dwell, (latitude, longitude): Position) -> bool {
    let seen = |(north, east): (f64, f64)| (north.hypot(east), east.atan2(north).to_degrees());
    let (range, angle) = seen(from_sensor(dwell, latitude as f64 / 1e6, longitude as f64 / 1e6));
    let (centre_range, centre_angle) = seen(from_sensor(dwell, dwell.centre_latitude().degrees(), dwell.centre_longitude().degrees()));
    let half_angle = dwell.angle_half_extent().unwrap().degrees();
    (range - centre_range).abs() <= dwell.range_half_extent().number() && (angle - centre_angle).abs() <= half_angle
}

#[test]
fn all_six_lie_in_the_area_and_four_are_wrong() {
    let packet = sample("lesson_cross_section.gmti");
    let naive = naive_positions(&packet);
    with_reading(&packet, |dwell, right| {
        assert_eq!((naive.len(), right.len()), (6, 6));
        assert!(naive.iter().chain(&right).all(|&position| is_in_area(&dwell, position)), "{naive:?}");
        let wrong: Vec<usize> = (1..=6).filter(|number| !right.contains(&naive[number - 1])).collect();
        assert_eq!(wrong, [2, 3, 4, 5]);
        // Four targets of five bytes are five of four, so the sixth begins where the fifth does.
        assert_eq!((naive[0], naive[5]), (right[0], right[4]));
    });
}

#[test]
fn edition_3_reads_it_and_edition_1_refuses_it() {
    let packet = sample("lesson_cross_section.gmti");
    let mut lent = vec![0; gmti::sheet_bound(packet.len())];
    assert_eq!(gmti::read(Edition::Three, &packet, &mut lent).unwrap().targets, 6);
    let refusal = gmti::read(Edition::One, &packet, &mut lent).unwrap_err();
    assert_eq!((refusal.number(), refusal.segment(), refusal.field()), (15, 1, 49));
}

/// The naive reader is right about a packet that holds nothing new in Edition 3.
#[test]
fn without_a_new_field_the_naive_reader_is_right() {
    let packet = sample("dwell_every_field.gmti");
    with_reading(&packet, |_, right| assert_eq!(naive_positions(&packet), right));
}

/// No delta leads out of the area, so no wrong one can: tried are 256 values of each, the least and the greatest among them.
#[test]
fn every_delta_lies_in_the_area() {
    let packet = sample("lesson_cross_section.gmti");
    let tried = || (i16::MIN..=i16::MAX).step_by(257);
    with_reading(&packet, |dwell, _| {
        let scales = [dwell.latitude_scale().unwrap().0.to_be_bytes(), dwell.longitude_scale().unwrap().0.to_be_bytes()];
        let centre = [dwell.centre_latitude().0.to_be_bytes(), dwell.centre_longitude().0.to_be_bytes()];
        let place = |(north, east)| position([&scales[0], &scales[1], &centre[0], &centre[1]], north, east);
        let mut places = tried().flat_map(|north| tried().map(move |east| (north, east))).map(place);
        assert!(places.all(|position| is_in_area(&dwell, position)));
    });
}

/// The rows of README.md's table: each target's position, what Edition 1's widths make of it, and how many kilometres lie between the two.
#[test]
fn readme_shows_both_positions() {
    let packet = sample("lesson_cross_section.gmti");
    let degrees = |(latitude, longitude): Position| format!("{:.6} {:.6}", latitude as f64 / 1e6, longitude as f64 / 1e6);
    let rows = with_reading(&packet, |dwell, right| {
        let place = |(latitude, longitude): Position| from_sensor(&dwell, latitude as f64 / 1e6, longitude as f64 / 1e6);
        let row = |(k, (right, naive)): (usize, (&Position, Position))| {
            let (from, to) = (place(*right), place(naive));
            let kilometres = (from.0 - to.0).hypot(from.1 - to.1);
            format!("| {} | {} | {} | {kilometres:.1} |\n", k + 1, degrees(*right), degrees(naive))
        };
        right.iter().zip(naive_positions(&packet)).enumerate().map(row).collect::<String>()
    });
    let readme = fs::read_to_string(root().join("samples/README.md")).unwrap();
    assert!(readme.contains(&format!("|---|---|---|---|\n{rows}\n")), "{rows}");
}
