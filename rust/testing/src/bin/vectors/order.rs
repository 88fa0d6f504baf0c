//! Packets of many segments, and the order of rows: of two faults the first in the order of segments and rows is named.
use crate::parts::{by_deltas, dwell, every_kind, every_kind_and, job, mission, packet, raw, segment, test, text, trial_dwell};
use crate::parts::{Part, ABSOLUTE, DELTAS};
use crate::trials::{Lend, Trials};

pub fn mixtures(t: &mut Trials) {
    for version in [1, 3] {
        t.both(&format!("mixture version {version}"), &packet(version, &every_kind()), "ok 10 1 3 686");
    }
    t.read_to("mixture exact", 1, packet(3, &every_kind()), "ok 10 1 3 686", Lend::Exact);
    t.read_to("mixture short", 3, packet(3, &every_kind()), "no 16 0 0", Lend::Short);
    let mut backwards = every_kind();
    backwards.reverse();
    t.read("mixture backwards", 3, packet(3, &backwards), "ok 10 1 3 686");
    let target = dwell(&format!("{ABSOLUTE} D32.11")).target(&[]).target(&[(11, 101)]);
    let latitude = dwell(DELTAS).with(10, 1).with(24, 0x7FFF_FFFF).target(&[(4, 1)]).target(&[(4, 2)]);
    for (name, edition, version, last, want) in [
        ("left 3", 3, 3, raw(&[10, 0, 0]), "no 6 11 0"),
        ("bad type last", 1, 3, segment(20, &[]), "no 7 11 0"),
        ("bad S2 last", 3, 3, test().claiming(20), "no 8 11 0"),
        ("bad size last", 3, 1, test().sized(20), "no 9 11 0"),
        ("bad text last", 3, 3, text(b"\x7F"), "no 10 11 3"),
        ("bad mask last", 3, 3, dwell("D12"), "no 11 11 13"),
        ("bad dwell size last", 3, 3, dwell("").sized(52), "no 12 11 0"),
        ("bad day last", 3, 3, mission().with(7, 32), "no 13 11 7"),
        ("bad target last", 1, 3, target, "no 13 11 42"),
        ("bad latitude last", 3, 3, latitude, "no 14 11 35"),
        ("new mode last", 1, 3, job().with(14, 123), "no 15 11 14"),
        ("new type last", 1, 3, segment(3, b"x"), "no 15 11 0"),
        ("new mask last", 1, 3, dwell("D28 D29 D32.18"), "no 15 11 30"),
        ("new mask last reading 3", 3, 3, dwell("D28 D29 D32.18"), "ok 11 1 3 774"),
    ] {
        t.read(&format!("mixture {name}"), edition, packet(version, &every_kind_and(last)), want);
    }
}

pub fn repetitions(t: &mut Trials) {
    let many: Vec<Part> = (0..4i64)
        .map(|k| {
            let part = dwell(DELTAS).with(2, k).with(3, 3 - k);
            (0..k).fold(part, |part, _| part.target(&[(4, k), (5, k)]))
        })
        .collect();
    t.read("four dwells", 3, packet(3, &many), "ok 4 4 6 655");
    t.read_to("four dwells old reading", 1, packet(3, &many), "ok 4 4 6 655", Lend::Exact);
    t.read("same dwell twice", 3, packet(3, &[many[1].clone(), many[1].clone()]), "ok 2 1 2 299");
    t.read("two missions", 3, packet(3, &[mission(), mission().with(6, 1).with(7, 1)]), "ok 2 0 0 113");
    t.read("many empty opaque", 3, packet(3, &vec![segment(9, &[]); 30]), "ok 30 0 0 213");
}

/// A target past the pole.
fn out() -> Part {
    by_deltas(1, 0x7FFF_FFFF, 2)
}

pub fn apart(t: &mut Trials) {
    let mode = || job().with(14, 97);
    let no_mission = || mission().with(6, 0);
    for (name, edition, parts, want) in [
        ("13 then 7", 3, vec![no_mission(), segment(0, &[])], "no 13 1 6"),
        ("14 then 10", 3, vec![out(), mission().with(1, &[0; 12])], "no 14 1 35"),
        ("14 then 6", 3, vec![test(), out(), raw(&[0])], "no 14 2 35"),
        ("13 then 14", 3, vec![dwell("").with(4, 2), out()], "no 13 1 4"),
        ("14 then 13", 3, vec![out(), dwell("").with(4, 2)], "no 14 1 35"),
        ("12 then 11", 3, vec![dwell("").sized(49), dwell("D12")], "no 12 1 0"),
        ("11 then 8", 3, vec![dwell("D12"), test().claiming(4)], "no 11 1 13"),
        ("10 then 9", 3, vec![test(), text(&[0]), test().sized(18)], "no 10 2 3"),
        ("9 then 8", 3, vec![test().sized(18), test().claiming(0)], "no 9 1 0"),
        ("8 then 7", 3, vec![test().claiming(0), segment(0, &[])], "no 8 1 0"),
        ("7 then 6", 3, vec![test(), segment(0, &[]), raw(&[0])], "no 7 2 0"),
        ("15 then 13", 1, vec![mode(), no_mission()], "no 15 1 14"),
        ("13 then 15", 1, vec![test(), mission().with(6, 13), mode()], "no 13 2 6"),
        ("14 then 15", 1, vec![test(), out(), mode()], "no 14 2 35"),
        ("15 then 14", 1, vec![test(), dwell("D30"), out()], "no 15 2 28"),
        ("15 of D32.18 then 12", 1, vec![test(), dwell("D32.18").sized(60), dwell("").sized(49)], "no 15 2 49"),
        ("12 then 15", 1, vec![dwell("").sized(50), dwell("D32.18")], "no 12 1 0"),
    ] {
        t.read(&format!("order {name}"), edition, packet(3, &parts), want);
    }
}

pub fn together(t: &mut Trials) {
    for (name, part, want) in [
        ("11 and 12", dwell("D13").sized(48), "no 11 1 12"),
        ("11 and 13", dwell("D13").with(4, 2), "no 11 1 12"),
        ("12 and 13", dwell("").with(4, 2).sized(49), "no 12 1 0"),
        ("12 and 13 of D5", dwell("").with(5, 7).sized(49), "no 12 1 0"),
        ("10 and 13", mission().with(2, &[0; 12]).with(6, 0).with(7, 0), "no 10 1 2"),
        ("9 and 10", mission().with(2, &[0; 12]).sized(45), "no 9 1 0"),
        ("9 and 13", mission().with(6, 0).sized(45), "no 9 1 0"),
    ] {
        t.read(&format!("order {name} in one"), 3, packet(3, &[part]), want);
    }
}

/// Row 16 is last: the sheet is too short as well.
pub fn before_16(t: &mut Trials) {
    for (name, edition, parts, want, lent) in [
        ("6", 3, [test(), raw(&[1])], "no 6 2 0", 2),
        ("7", 3, [test(), segment(0, &[])], "no 7 2 0", 34),
        ("11", 3, [trial_dwell(), dwell("D12")], "no 11 2 13", 2),
        ("13", 3, [trial_dwell(), mission().with(6, 0)], "no 13 2 6", 2),
        ("14", 3, [trial_dwell(), out()], "no 14 2 35", 34),
        ("15", 1, [trial_dwell(), job().with(14, 112)], "no 15 2 14", 2),
    ] {
        t.read_to(&format!("order {name} before 16"), edition, packet(3, &parts), want, Lend::Bytes(lent));
    }
    t.read_to("order 16 in the last record", 3, packet(3, &[trial_dwell(), text(b"x")]), "no 16 0 0", Lend::Short);
    t.read_to("order 16 in the header", 3, packet(3, &[trial_dwell()]), "no 16 0 0", Lend::Bytes(32));
    t.read_to("order 16 between records", 1, packet(3, &[trial_dwell()]), "no 16 0 0", Lend::Bytes(121));
}
