//! Packets whose sheets fall 542 bytes short of the bound, and what `gmti_longest` writes.
use crate::trials::{Lend, Trials};
use testing::generator::valid;
use testing::independent;

/// What `gmti_longest` is handed.
pub const GIVEN: &[u8] = b"3\n";

/// The packet with so many targets.
pub fn packet(targets: u32) -> Vec<u8> {
    valid::longest(targets).bytes()
}

/// What it must write.
pub fn written() -> Vec<u8> {
    independent::longest_output(GIVEN)
}

/// What is wrong with it.
pub fn faults() -> Vec<String> {
    if written() == packet(3) {
        return Vec::new();
    }
    vec!["gmti_longest: another packet than is due".to_string()]
}

/// The least packet, lent just enough and a byte less.
pub fn lent(t: &mut Trials) {
    for edition in [1, 3] {
        let name = format!("longest packet of 1 target reading {edition}");
        t.read_to(&name, edition, packet(1), "ok 1 1 1 166", Lend::Bytes(166));
        t.read_to(&format!("{name} to 165"), edition, packet(1), "no 16 0 0", Lend::Bytes(165));
    }
}
