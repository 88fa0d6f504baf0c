//! How long a sheet can get (request A2): the bound, and the packet whose sheet
//! falls 542 bytes short of it.

use super::mask::Layout;
use super::tables::{segment_type, HEADER, MASK, PACKET_LEAST, PACKET_MOST, SEGMENT_HEADER};

/// The most targets that the packet may hold; with them it has 65,536 bytes.
const TARGETS_MOST: usize = 16_362;

/// The mask of a dwell of delta targets that announces nothing it need not: D2 to
/// D11, D24 to D27, D32.4 and D32.5. It is that of the document's 92-byte trial.
const DELTA_TARGETS: u64 = 0xFFC0_03C0_6000_0000;

/// The most bytes that the sheet of an accepted packet of this length can have:
/// 33 + 45 × (n − 32) / 4, the whole product divided and rounded down. 0 for a
/// length that no packet has.
///
/// It covers the HRR segment (request A4) as it is: kind 11 makes 67 bytes of at
/// least 39, kind 12 makes 9 of at least 1.
pub fn sheet_bound(packet_length: usize) -> usize {
    if !(PACKET_LEAST..=PACKET_MOST).contains(&packet_length) {
        return 0;
    }
    33 + 45 * (packet_length - 32) / 4
}

/// The packet of 88 + 4 × k bytes: one dwell, `k` delta targets, P1 30, text
/// spaces, else zero but for sizes, type, mask and D5. Empty unless `k` is 1 to
/// 16,362.
pub fn longest_packet(k: usize) -> Vec<u8> {
    if !(1..=TARGETS_MOST).contains(&k) {
        return Vec::new();
    }
    let layout = Layout::of_dwell(DELTA_TARGETS);
    let targets = k * Layout::of_target(DELTA_TARGETS).length;
    let s2 = SEGMENT_HEADER + MASK + layout.length + targets;
    let length = PACKET_LEAST + s2;

    let mut packet = Vec::with_capacity(length);
    for field in &HEADER {
        match field.number {
            1 => packet.extend(b"30"),
            2 => packet.extend((length as u32).to_be_bytes()),
            _ => packet.extend(vec![if field.text.is_some() { b' ' } else { 0 }; field.width]),
        }
    }
    packet.push(segment_type::DWELL);
    packet.extend((s2 as u32).to_be_bytes());
    packet.extend(DELTA_TARGETS.to_be_bytes());
    for (field, width, place) in layout.fields() {
        match (field, place) {
            (_, None) => {}
            (5, _) => packet.extend((k as u16).to_be_bytes()),
            _ => packet.extend(vec![0; width]),
        }
    }
    packet.extend(vec![0; targets]);
    packet
}

/// All that the program writes for this standard input: the packet of k where it
/// is k from 1 to 16,362 in digits with no leading zero and at most one line feed
/// after them, else nothing.
pub fn longest_output(input: &[u8]) -> Vec<u8> {
    k_of(input).map_or_else(Vec::new, longest_packet)
}

/// The number that the input spells, in or out of range.
fn k_of(input: &[u8]) -> Option<usize> {
    let digits = input.strip_suffix(b"\n").unwrap_or(input);
    let has_leading_zero = digits.first() == Some(&b'0');
    // Parsing alone would take a plus sign.
    if has_leading_zero || !digits.iter().all(u8::is_ascii_digit) {
        return None;
    }
    // No digits, or more than a usize holds, do not parse.
    std::str::from_utf8(digits).ok()?.parse().ok()
}

#[cfg(test)]
mod tests {
    use super::super::sheet::records;
    use super::super::{first_new, read, write};
    use super::{k_of, longest_output, longest_packet, sheet_bound};
    use crate::library::Answer;

    /// k, 88 + 4 × k, 33 + 45 × (56 + 4 × k) / 4, and 33 + 88 + 45 × k: a header
    /// record, a dwell record and k target records, each with its byte of kind.
    const LENGTHS: [(usize, usize, usize, usize); 5] = [
        (1, 92, 708, 166),
        (2, 96, 753, 211),
        // The last whose sheet fits the 65,536 bytes of the printing program.
        (1_453, 5_900, 66_048, 65_506),
        (1_454, 5_904, 66_093, 65_551),
        (16_362, 65_536, 736_953, 736_411),
    ];

    #[test]
    fn bound() {
        // 45 × 1 / 4 is 11.25, 45 × 2 / 4 is 22.5, 45 × 3 / 4 is 33.75.
        for (length, bound) in [(32, 33), (33, 44), (34, 55), (35, 66), (36, 78), (37, 89), (40, 123), (80, 573)] {
            assert_eq!(sheet_bound(length), bound);
        }
        // 45 × 65,501 / 4 is 736,886.25.
        for (length, bound) in [(65_533, 736_919), (65_534, 736_930), (65_535, 736_941), (65_536, 736_953)] {
            assert_eq!(sheet_bound(length), bound);
        }
        for no_packet in [0, 1, 31, 65_537, 65_540, usize::MAX] {
            assert_eq!(sheet_bound(no_packet), 0);
        }
    }

    #[test]
    fn packet_of_one_target() {
        let parts: [&[u8]; 11] = [
            b"30\x00\x00\x00\x5C",                    // P1, P2
            b"  \x00  \x00\x00\x00",                  // P3 to P7
            b"          ",                            // P8
            &[0; 8],                                  // P9, P10
            b"\x02\x00\x00\x00\x3C",                  // type, S2
            &[0xFF, 0xC0, 0x03, 0xC0, 0x60, 0, 0, 0], // D1
            b"\x00\x00\x00\x00\x00\x00\x01",          // D2 to D5
            &[0; 4 * 4],                              // D6 to D9
            &[0; 2 * 4],                              // D10, D11
            &[0; 2 * 4 + 2 * 2],                      // D24 to D27
            &[0; 2 * 2],                              // D32.4, D32.5
        ];
        assert_eq!(longest_packet(1), parts.concat());
    }

    #[test]
    fn packets_differ_by_sizes_count_and_targets() {
        let one = longest_packet(1);
        for k in 1..=16_362 {
            let packet = longest_packet(k);
            assert_eq!(packet.len(), 88 + 4 * k);
            let (p2, s2, d5) = (packet.len() as u32, packet.len() as u32 - 32, k as u16);
            assert_eq!(packet[2..6], p2.to_be_bytes());
            assert_eq!(packet[33..37], s2.to_be_bytes());
            assert_eq!(packet[50..52], d5.to_be_bytes());
            for same in [0..2, 6..33, 37..50, 52..88] {
                assert_eq!(packet[same.clone()], one[same]);
            }
            assert!(packet[88..].iter().all(|byte| *byte == 0));
        }
        for none in [0, 16_363, 65_536, 65_537, usize::MAX] {
            assert!(longest_packet(none).is_empty());
        }
    }

    #[test]
    fn sheets_fall_542_bytes_short() {
        for (k, packet_length, bound, sheet_length) in LENGTHS {
            let packet = longest_packet(k);
            assert_eq!(packet.len(), packet_length);
            assert_eq!(sheet_bound(packet_length), bound);
            assert_eq!(sheet_length + 542, bound);
            assert_eq!(first_new(&packet), None);
            let accepted = Answer::accepted(1, 1, k as u32, sheet_length as u32);
            for edition in [1, 3] {
                // A sheet as long as the bound will do, and no shorter one than the answer.
                let mut sheet = vec![0xA5; bound];
                assert_eq!(read(edition, &packet, &mut sheet), accepted);
                assert!(sheet[sheet_length..].iter().all(|byte| *byte == 0xA5));
                assert!(read(edition, &packet, &mut vec![0; sheet_length]).is_accepted());
                assert_eq!(read(edition, &packet, &mut vec![0; sheet_length - 1]), Answer::refused(16, 0, 0));
                let program = read(edition, &packet, &mut vec![0; 65_536]);
                assert_eq!(program, if k <= 1_453 { accepted } else { Answer::refused(16, 0, 0) });

                let sheet = &sheet[..sheet_length];
                assert_eq!(sheet[1..33], packet[..32]);
                let kinds: Vec<u8> = records(sheet).map(|record| record.kind).collect();
                assert_eq!(kinds, [&[1, 3], &vec![4; k][..]].concat());
                // Every field of a target is zero, and its position too.
                assert!(records(sheet).skip(2).all(|record| record.body == [0; 44]));
                if edition == 3 {
                    let mut back = vec![0; packet_length];
                    assert_eq!(write(sheet, &mut back), Answer { length: packet_length as u32, ..accepted });
                    assert_eq!(back, packet);
                }
            }
        }
    }

    #[test]
    fn inputs_with_a_packet() {
        for k in 1..=16_362 {
            let digits = k.to_string();
            assert_eq!(k_of(digits.as_bytes()), Some(k));
            assert_eq!(k_of(format!("{digits}\n").as_bytes()), Some(k));
        }
        for k in [1, 2, 9, 10, 11, 19, 90, 99, 100, 101, 999, 1_000, 1_453, 1_454, 9_999, 10_000, 10_009, 16_361, 16_362] {
            let packet = longest_packet(k);
            assert_eq!(packet.len(), 88 + 4 * k);
            assert_eq!(longest_output(k.to_string().as_bytes()), packet);
            assert_eq!(longest_output(format!("{k}\n").as_bytes()), packet);
        }
    }

    #[test]
    fn inputs_without_a_packet() {
        let bad: [&[u8]; 59] = [
            // No digits.
            b"",
            b"\n",
            b"\n\n",
            b" ",
            b"\x00",
            b"k",
            // Under 1, or above 16,362; also where a narrow number would wrap round to 1.
            b"0",
            b"0\n",
            b"16363",
            b"16363\n",
            b"16370",
            b"16400",
            b"17000",
            b"20000",
            b"65535",
            b"65537",
            b"99999",
            b"100000",
            b"163620",
            b"4294967297",
            b"18446744073709551617",
            b"340282366920938463463374607431768211457",
            // A leading zero.
            b"00",
            b"01",
            b"01\n",
            b"001",
            b"016362",
            b"0000000000000000000001",
            // More than one line feed, one in another place, or something after it.
            b"1\n\n",
            b"1\n\n\n",
            b"\n1",
            b"\n1\n",
            b"1\n2",
            b"1\n2\n",
            b"1\n ",
            b"1\n\x00",
            b"1\n\r",
            // Another end of line than a line feed.
            b"1\r",
            b"1\r\n",
            b"1\x0B",
            b"1\x0C",
            b"1\xC2\x85",
            b"1\xE2\x80\xA8",
            // Something other than digits.
            b" 1",
            b"1 ",
            b"1 \n",
            b"\t1",
            b"1\x00",
            b"+1",
            b"-1",
            b"1.",
            b"1.0",
            b"16,362",
            b"1_000",
            b"1e3",
            b"0x10",
            b"1a",
            b"\xEF\xBB\xBF1",
            b"\xD9\xA1",
        ];
        for input in bad {
            assert!(longest_output(input).is_empty(), "{:?}", input.escape_ascii().to_string());
        }
        let long: [Vec<u8>; 4] = [vec![b'1'; 70_000], vec![b'0'; 70_000], vec![b'\n'; 70_000], [&[b'0'; 70_000][..], b"1"].concat()];
        for input in long {
            assert!(longest_output(&input).is_empty());
        }
    }

    /// Of all inputs of one or two bytes, those with a packet are 1 to 9, each with
    /// or without a line feed, and 10 to 99.
    #[test]
    fn shortest_inputs() {
        let has_packet = |input: &[u8]| !longest_output(input).is_empty();
        let mut packets = 0;
        for first in 0..=255 {
            let is_one = first > b'0' && first <= b'9';
            assert_eq!(has_packet(&[first]), is_one);
            packets += u32::from(is_one);
            for second in 0..=255 {
                let is_second = second == b'\n' || (b'0'..=b'9').contains(&second);
                assert_eq!(has_packet(&[first, second]), is_one && is_second);
                packets += u32::from(is_one && is_second);
            }
        }
        assert_eq!(packets, 9 + 9 + 90);
    }
}
