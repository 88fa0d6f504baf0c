//! Sheets with records of HRR segments: those that are written back, and those that the rows 17 to 19 refuse.
use crate::hrr::{patterns, spelt};
use crate::parts::{dwell, hrr, hrr_masked, job, location, mask, mission, packet, segment, test, Part, Scattered, ABSOLUTE};
use crate::records::{opaque_record, piece, pieces, record, scatterer, sheet, target, text_record};
use crate::trials::{Lend, Trials};
use testing::generator::records::sheet_of;
use testing::generator::tables::{bit, mask_of, HRR_ALWAYS};

/// A scatterer of one byte.
const ONE: Scattered = [7, 0, 0, 0];

/// The sheet of an HRR segment: its record, and scatterers that need not be its own.
fn sheet_with(part: &Part, scatterers: &[Scattered]) -> Vec<u8> {
    let records: Vec<Vec<u8>> = scatterers.iter().copied().map(scatterer).collect();
    sheet(3, 32 + part.bytes().len() as i64, &[record(part), records.concat()])
}

/// A segment with these scatterers, whose number H6 tells.
fn with(words: &str, h25: i64, h26: i64, scatterers: &[Scattered]) -> Part {
    scatterers.iter().copied().fold(hrr(&format!("H6 {words}")).with(25, h25).with(26, h26), Part::scatterer)
}

pub fn written(t: &mut Trials) {
    let [least, three] = spelt();
    for (name, part, length) in [("least", least, 71), ("three magnitudes", three, 76)] {
        let made = packet(3, &[part]);
        t.gives(&format!("HRR {name}"), sheet_of(3, &made).unwrap_or_default(), &format!("ok 1 0 0 {length}"), &made);
    }
    for (name, words, h25, h26, values) in [
        ("magnitudes of one byte", "", 1, 0, [[1, 0, 0, 0], [255, 0, 0, 0]]),
        ("magnitudes of two bytes", "", 2, 0, [[1, 0, 0, 0], [0xFF00, 0, 0, 0]]),
        ("phases of one byte", "H32.2", 1, 1, [[1, 255, 0, 0], [2, 0, 0, 0]]),
        ("phases of two bytes", "H32.2", 1, 2, [[1, 0x0100, 0, 0], [2, 0xFFFF, 0, 0]]),
        ("phases of no byte", "H32.2", 1, 0, [[1, 0, 0, 0], [2, 0, 0, 0]]),
        ("no phases and H26 2", "", 1, 2, [[1, 0, 0, 0], [2, 0, 0, 0]]),
        ("range indices", "H32.3", 1, 0, [[1, 0, 255, 0], [2, 0, 1, 0]]),
        ("Doppler indices", "H32.4", 2, 0, [[0x0101, 0, 0, 255], [2, 0, 0, 1]]),
        ("all four", "H32.2-H32.4", 2, 2, [[0xFFFF, 0xFFFF, 255, 255], [0, 0, 0, 0]]),
    ] {
        let part = with(words, h25, h26, &values);
        let length = 32 + part.bytes().len();
        t.gives(&format!("HRR {name}"), sheet_with(&part, &values), &format!("ok 1 0 0 {length}"), &packet(3, &[part]));
    }
    let made = packet(3, &patterns());
    t.gives("HRR every pattern of widths", sheet_of(3, &made).unwrap_or_default(), &format!("ok 32 0 0 {}", made.len()), &made);
    let by_samples = hrr("H7").with(7, 2).with(8, 3).scatterers(6);
    let made = packet(3, &[hrr("H2-H31 H32.1-H32.4").scatterers(1), by_samples, hrr("H6 H7").with(6, 0).with(7, 2)]);
    t.gives_to("HRR counted in three ways", sheet_of(3, &made).unwrap_or_default(), "ok 3 0 0 196", &made, Lend::Exact);
    let made = packet(3, &[with("", 1, 0, &[ONE])]);
    for (name, lend) in [("nothing", Lend::Bytes(0)), ("1 less", Lend::Bytes(made.len() - 1))] {
        t.gives_to(&format!("HRR to {name}"), sheet_of(3, &made).unwrap_or_default(), "no 20 0 0", &made, lend);
    }
}

pub fn row_17(t: &mut Trials) {
    let want = "no 17 0 0";
    for (kind, made) in [(11, record(&hrr(""))), (12, scatterer(ONE))] {
        t.refused(&format!("kind {kind} cut by 1"), sheet(3, 32, &[made[..made.len() - 1].to_vec()]), want);
        t.refused(&format!("kind {kind} bare"), sheet(3, 32, &[vec![kind]]), want);
        t.refused(&format!("kind {kind} without header"), made, want);
    }
    for kind in [13, 14] {
        t.refused(&format!("kind {kind} of 8 bytes"), sheet(3, 32, &[[&[kind][..], &[0; 8]].concat()]), want);
    }
    let two = with("", 1, 0, &[ONE, ONE]);
    let mut cut = sheet_with(&two, &[ONE, ONE]);
    cut.pop();
    t.refused("scatterer cut by 1", cut, want);
    t.refused("header among scatterers", sheet(3, 75, &[record(&two), scatterer(ONE), sheet(3, 75, &[]), scatterer(ONE)]), want);
}

/// Other numbers of scatterers than H6 calls for, or where it is absent H7 and H8.
pub fn row_18(t: &mut Trials) {
    let counted = |words: &str, h6: i64, h7: i64, h8: i64| hrr(words).with(6, h6).with(7, h7).with(8, h8);
    for (name, part, there) in [
        ("none of 1", counted("H6", 1, 0, 0), 0),
        ("1 of 2", counted("H6", 2, 0, 0), 1),
        ("3 of 2", counted("H6", 2, 0, 0), 3),
        ("1 of none", counted("H6", 0, 0, 0), 1),
        ("6 where H6 is 0 and H7 times H8 6", counted("H6 H7", 0, 2, 3), 6),
        ("6 where H6 is 3 and H7 times H8 6", counted("H6 H7", 3, 2, 3), 6),
        ("5 of 2 times 3", counted("H7", 0, 2, 3), 5),
        ("7 of 2 times 3", counted("H7", 0, 2, 3), 7),
        ("2 of 2 times 0", counted("H7", 0, 2, 0), 2),
        ("1 of 0 times 65535", counted("H7", 0, 0, 65_535), 1),
        ("none of 65535", counted("H6", 65_535, 0, 0), 0),
        ("none of 65535 times 65535", counted("H7", 0, 65_535, 65_535), 0),
        ("none of 256 times 256", counted("H7", 0, 256, 256), 0),
        ("1 of 257", counted("H6", 257, 0, 0), 1),
    ] {
        t.refused(&format!("scatterers {name}"), sheet_with(&part, &vec![ONE; there]), "no 18 0 0");
    }
}

/// Scatterers in other places than directly behind their kind 11, and other records in theirs.
pub fn row_18_places(t: &mut Trials) {
    let want = "no 18 0 0";
    let one = || scatterer(ONE);
    for (name, before) in [
        ("header", vec![]),
        ("mission", record(&mission())),
        ("dwell", record(&dwell(""))),
        ("job", record(&job())),
        ("test", record(&test())),
        ("location", record(&location())),
        ("empty text", text_record(0)),
        ("empty opaque", opaque_record(7, 0)),
        ("opaque type 3", opaque_record(3, 0)),
    ] {
        t.refused(&format!("scatterer after {name}"), sheet(3, 88, &[before, one()]), want);
    }
    let two = record(&with("", 1, 0, &[ONE, ONE]));
    let far = target("", &[(2, 0x4000_0000), (3, 0x4000_0000)], 45_000_000, 90_000_000);
    let of_target = record(&dwell(ABSOLUTE).with(5, 1));
    for (name, records) in [
        ("scatterer before its kind 11", vec![one(), record(&with("", 1, 0, &[ONE]))]),
        ("scatterers parted", vec![two.clone(), one(), record(&test()), one()]),
        ("scatterers parted by a kind 11", vec![two.clone(), one(), record(&hrr("")), one()]),
        ("scatterers of another kind 11", vec![two.clone(), two.clone(), one(), one(), one(), one()]),
        ("piece for a scatterer", vec![two.clone(), one(), piece(b"abc")]),
        ("target for a scatterer", vec![two.clone(), far.clone(), one()]),
        ("piece after scatterers", vec![two.clone(), one(), one(), piece(b"abc")]),
        ("target after kind 11", vec![record(&hrr("")), far.clone()]),
        ("scatterer for a target", vec![of_target.clone(), one()]),
        ("scatterer after a target", vec![of_target, far, one()]),
        ("scatterer for a piece", vec![text_record(3), one()]),
        ("scatterer after a piece", vec![text_record(3), piece(b"abc"), one()]),
    ] {
        t.refused(name, sheet(3, 100, &records), want);
    }
}

/// A field without its bit in the mask counts as absent, whatever stands in its place.
pub fn row_18_absent(t: &mut Trials) {
    let lacking = |words: &str, more: &str| hrr_masked((mask_of(&HRR_ALWAYS) | mask(more)) & !mask(words));
    for (name, part, there, want) in [
        ("H6 3 of 3", hrr("").with(6, 3), 3, "no 18 0 0"),
        ("H6 3 of none", hrr("").with(6, 3), 0, "no 19 0 0"),
        ("H6 3 of 2 times 1", hrr("H7").with(6, 3).with(7, 2), 3, "no 18 0 0"),
        ("H6 3 beside 2 times 1", hrr("H7").with(6, 3).with(7, 2), 2, "no 19 0 0"),
        ("H6 65535", hrr("").with(6, 65_535), 0, "no 19 0 0"),
        ("H7 3 of 3", hrr("").with(7, 3), 3, "no 18 0 0"),
        ("H7 3 of none", hrr("").with(7, 3), 0, "no 19 0 0"),
        ("H7 3 beside H6 2", hrr("H6").with(6, 2).with(7, 3), 2, "no 19 0 0"),
        ("H8 1 of 3 times 1", lacking("H8", "H7").with(7, 3).with(8, 1), 3, "no 18 0 0"),
        ("H8 1 of none", lacking("H8", "H7").with(7, 3).with(8, 1), 0, "no 19 0 0"),
        ("H6 and H7 and H8", lacking("H8", "").with(6, 3).with(7, 3).with(8, 1), 3, "no 18 0 0"),
    ] {
        t.refused(&format!("unannounced {name}"), sheet_with(&part, &vec![ONE; there]), want);
    }
    t.refused("zero mask with H6 1", sheet_with(&hrr_masked(0).with(6, 1), &[ONE]), "no 18 0 0");
    t.refused("zero mask of an HRR segment", sheet_with(&hrr_masked(0), &[]), "no 19 0 0");
}

/// Masks and widths at fault, and a wrong P2.
pub fn row_19(t: &mut Trials) {
    let want = "no 19 0 0";
    for field in HRR_ALWAYS.into_iter().filter(|field| *field < 32) {
        let part = hrr_masked((mask_of(&HRR_ALWAYS) | bit(6)) & !bit(field)).scatterers(1);
        t.refused(&format!("HRR mask lacks H{field}"), sheet_with(&part, &[ONE]), want);
    }
    let no_magnitude = hrr("H6").without("H32.1").scatterers(1);
    t.refused("HRR mask lacks H32.1", sheet_with(&no_magnitude, &[[0; 4]]), want);
    t.refused("HRR mask lacks H32.1 with magnitude", sheet_with(&no_magnitude, &[ONE]), want);
    for spare in 0..6 {
        let part = hrr_masked(mask_of(&HRR_ALWAYS) | 1 << (24 + spare));
        t.refused(&format!("HRR mask spare bit {spare}"), sheet_with(&part, &[]), want);
    }
    for h25 in [0, 3, 4, 200, 255] {
        let part = with("", h25, 0, &[ONE]);
        t.refused(&format!("H25 {h25}"), sheet_with(&part, &[ONE]), want);
        t.refused(&format!("H25 {h25} without scatterers"), sheet_with(&hrr("").with(25, h25), &[]), want);
    }
    for h26 in [3, 4, 200, 255] {
        t.refused(&format!("H26 {h26}"), sheet_with(&with("", 1, h26, &[ONE]), &[ONE]), want);
        t.refused(&format!("H26 {h26} with phase"), sheet_with(&with("H32.2", 1, h26, &[ONE]), &[ONE]), want);
    }
    for (name, length) in [("one less", 73), ("one more", 75)] {
        t.refused(&format!("P2 {name} with scatterers"), sheet(3, length, &[record(&with("", 1, 0, &[ONE])), scatterer(ONE)]), want);
    }
}

/// A high byte where the value has one byte, and values that are absent.
pub fn row_19_scatterers(t: &mut Trials) {
    let want = "no 19 0 0";
    for (name, words, h25, h26, values) in [
        ("high byte of a magnitude", "", 1, 0, [0x0107, 0, 0, 0]),
        ("high byte of a phase", "H32.2", 1, 1, [7, 0x0100, 0, 0]),
        ("high byte of a range index", "H32.3", 1, 0, [7, 0, 0x0103, 0]),
        ("high byte of a Doppler index", "H32.4", 2, 2, [7, 0, 0, 0x8000]),
        ("phase unannounced", "", 1, 0, [7, 1, 0, 0]),
        ("phase unannounced with H26 1", "", 1, 1, [7, 1, 0, 0]),
        ("phase unannounced with H26 2", "H32.3 H32.4", 2, 2, [7, 0x0100, 1, 1]),
        ("phase of no byte", "H32.2", 1, 0, [7, 1, 0, 0]),
        ("range index unannounced", "H32.2 H32.4", 1, 1, [7, 1, 1, 1]),
        ("Doppler index unannounced", "H32.2 H32.3", 1, 1, [7, 1, 1, 1]),
        ("range index without others", "", 2, 0, [7, 0, 0x0100, 0]),
        ("Doppler index without others", "", 2, 0, [7, 0, 0, 1]),
    ] {
        t.refused(name, sheet_with(&with(words, h25, h26, &[values]), &[values]), want);
        let last = [[9, 0, 0, 0], [9, 0, 0, 0], values];
        t.refused(&format!("{name} in the last of three"), sheet_with(&with(words, h25, h26, &last), &last), want);
    }
}

pub fn row_19_absent(t: &mut Trials) {
    for field in [5, 9, 15, 20, 21, 22, 27, 28, 29, 30, 31] {
        for (name, value) in [("1", 1), ("all ones", 0xFFFF_FFFF)] {
            let part = with("", 1, 0, &[ONE]).with(field, value);
            t.refused(&format!("unannounced H{field} {name}"), sheet_with(&part, &[ONE]), "no 19 0 0");
        }
    }
}

/// Kind 11 is for version 3 alone, and so is kind 7 of type 3 for version 1.
pub fn row_19_versions(t: &mut Trials) {
    let want = "no 19 0 0";
    let one = with("", 1, 0, &[ONE]);
    t.refused("kind 11 version 1", sheet(1, 71, &[record(&hrr(""))]), want);
    t.refused("kind 11 version 1 with a scatterer", sheet(1, 74, &[record(&one), scatterer(ONE)]), want);
    t.refused("kind 11 version 1 with its scatterer missing", sheet(1, 74, &[record(&one)]), "no 18 0 0");
    for (name, body) in [("HRR", one.body()), ("abc", b"abc".to_vec()), ("nothing", vec![]), ("zeros", vec![0; 34])] {
        let records = [opaque_record(3, body.len() as i64), pieces(&body)];
        t.refused(&format!("opaque type 3 version 3 of {name}"), sheet(3, 37 + body.len() as i64, &records), want);
        let length = 37 + body.len();
        let made = packet(1, &[segment(3, &body)]);
        t.gives(&format!("opaque type 3 version 1 of {name}"), sheet(1, length as i64, &records), &format!("ok 1 0 0 {length}"), &made);
    }
}

/// Two faults at once: the first row over the whole sheet.
pub fn order(t: &mut Trials) {
    let lone = scatterer(ONE);
    let wide = record(&hrr("").with(25, 3));
    for (name, records, want) in [
        ("17 before a lone scatterer", vec![lone.clone(), vec![13]], "no 17 0 0"),
        ("17 before scatterers past 32 bits", vec![record(&hrr("H7").with(7, 65_535).with(8, 65_535)), vec![12]], "no 17 0 0"),
        ("17 before H25 3", vec![wide.clone(), vec![11]], "no 17 0 0"),
        ("18 behind H25 3", vec![wide.clone(), lone.clone()], "no 18 0 0"),
        ("18 before a high byte", vec![record(&with("", 1, 0, &[ONE])), scatterer([0x0107, 0, 0, 0]), lone], "no 18 0 0"),
        ("18 behind a mask at fault", vec![record(&hrr("H6").without("H2").with(6, 1)), record(&hrr(""))], "no 18 0 0"),
    ] {
        t.refused(name, sheet(3, 100, &records), want);
    }
    t.refused_to("19 of H25 3 before 20", sheet(3, 71, &[wide]), "no 19 0 0", 0);
}
