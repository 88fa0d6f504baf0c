//! Row 15: what is new in Edition 3. What the Edition 1 reading withholds.
use crate::parts::{dwell, job, mission, packet, segment, test, text, trial_dwell, Part, ABSOLUTE};
use crate::trials::Trials;

pub fn high_range(t: &mut Trials) {
    let abc = segment(3, b"abc");
    let empty = segment(3, &[]);
    for (name, parts, want) in [
        ("old reading", vec![abc.clone()], "no 15 1 0"),
        ("empty old reading", vec![empty.clone()], "no 15 1 0"),
        ("behind a dwell", vec![trial_dwell(), abc.clone()], "no 15 2 0"),
        ("S2 4", vec![abc.claiming(4)], "no 8 1 0"),
        ("S2 past the end", vec![empty.clone().claiming(6)], "no 8 1 0"),
        ("before a bad type", vec![empty.clone(), segment(77, &[])], "no 15 1 0"),
        ("before a bad size", vec![empty.clone(), mission().sized(43)], "no 15 1 0"),
        ("before bad text", vec![empty.clone(), text(&[0])], "no 15 1 0"),
        ("behind a bad value", vec![mission().with(7, 0), empty], "no 13 1 7"),
    ] {
        t.read(&format!("new type 3 {name}"), 1, packet(3, &parts), want);
    }
}

pub fn masks(t: &mut Trials) {
    for (name, edition, parts, want) in [
        ("angles before size", 1, vec![dwell("D28").sized(48)], "no 15 1 29"),
        ("angles size reading 3", 3, vec![dwell("D28").sized(48)], "no 12 1 0"),
        ("angles size 13", 1, vec![dwell("D28").sized(13)], "no 15 1 29"),
        ("D32.18 before size", 1, vec![dwell("D32.18").sized(49)], "no 15 1 49"),
        ("D32.18 before D4", 1, vec![dwell("D32.18").with(4, 2)], "no 15 1 49"),
        ("angles behind a mask fault", 1, vec![dwell("D28 D32.2")], "no 11 1 34"),
        ("D32.18 behind a missing D2", 1, vec![dwell("D32.18").without("D2")], "no 11 1 2"),
        ("angles in segment 3", 1, vec![mission(), trial_dwell(), dwell("D29")], "no 15 3 28"),
        ("D32.18 with targets in segment 2", 1, vec![test(), dwell(&format!("{ABSOLUTE} D32.18")).usual_targets(2)], "no 15 2 49"),
        ("angles then D32.18 in two segments", 1, vec![dwell("D32.18"), dwell("D28")], "no 15 1 49"),
    ] {
        t.read(&format!("new {name}"), edition, packet(3, &parts), want);
    }
}

/// The values of J14 that are new.
pub const NEW: [i64; 16] = [91, 92, 93, 96, 97, 101, 102, 103, 104, 111, 112, 113, 120, 121, 122, 123];

fn mode(mode: i64) -> Part {
    job().with(14, mode)
}

pub fn modes(t: &mut Trials) {
    for new in [91, 93, 96, 97, 101, 104, 111, 113, 120, 123] {
        t.read(&format!("new mode {new} old reading"), 1, packet(3, &[mode(new)]), "no 15 1 14");
    }
    for new in [92, 102, 103, 112, 121, 122] {
        t.read(&format!("new mode {new} in segment 2"), 1, packet(3, &[mode(new - 14), mode(new)]), "no 15 2 14");
    }
    for (name, modes) in [
        ("a", [0, 90, 94, 95, 98, 100, 105, 110]),
        ("b", [114, 119, 124, 255, 1, 81, 127, 219]),
        ("c", [89, 99, 106, 109, 115, 118, 125, 128]),
    ] {
        let made = packet(3, &modes.map(|old| mode(old).with(1, old)));
        t.read(&format!("old modes {name} old reading"), 1, made.clone(), "ok 8 0 0 593");
        t.read(&format!("old modes {name} reading 3"), 3, made, "ok 8 0 0 593");
    }
    let made = NEW.map(mode);
    t.read("new modes 91 to 104 reading 3", 3, packet(3, &made[..9]), "ok 9 0 0 663");
    t.read("new modes 111 to 123 reading 3", 3, packet(3, &made[9..]), "ok 7 0 0 523");
    for edition in [1, 3] {
        let name = format!("version 1 reading {edition}");
        t.read(&format!("new modes 91 to 104 {name}"), edition, packet(1, &made[..9]), "ok 9 0 0 663");
        t.read(&format!("new modes 111 to 123 {name}"), edition, packet(1, &made[9..]), "ok 7 0 0 523");
    }
    for (name, parts, want) in [
        ("mode behind text J3", vec![mode(91).with(3, b"\0ADAR9")], "no 10 1 3"),
        ("mode behind size", vec![mode(91).sized(74)], "no 9 1 0"),
        ("mode then type 3", vec![mode(91), segment(3, &[])], "no 15 1 14"),
        ("type 3 then mode", vec![segment(3, &[]), mode(91)], "no 15 1 0"),
        ("mode then angles", vec![test(), mode(120), dwell("D28")], "no 15 2 14"),
    ] {
        t.read(&format!("new {name}"), 1, packet(3, &parts), want);
    }
}

pub fn withheld(t: &mut Trials) {
    for version in [1, 3] {
        let dwell = dwell("D28-D30").with(26, 0xFFFF).with(27, 0xFFFF).with(28, 0xFFFF);
        let job = job().with(25, 0xFF).with(26, 0xFF).with(27, 0xFF);
        t.both(&format!("withheld version {version}"), &packet(version, &[dwell, job]), "ok 2 1 0 191");
    }
    let zeros = packet(3, &[dwell("").with(27, 0), job().with(26, 0)]);
    t.both("withheld zero D27 and J26", &zeros, "ok 2 1 0 191");
}
