//! Recordings, whole and damaged: what is found in them is held to the rule in its own words, and streams to slices.
use gmti::{Found, Reason, Recording, RecordingAhead, RecordingReader};
use std::io::{self, Read};
use std::ops::Range;
use testing::generator::tables::MOST_TARGETS;
use testing::generator::{damage, valid, Random};
use testing::{independent, root};

fn sample(name: &str) -> Vec<u8> {
    std::fs::read(root().join("samples").join(name)).unwrap()
}

// The rule

/// The P2 of the header that stands here: P1 is two digits and P2 is 32 to 65,536.
fn header(rest: &[u8]) -> Option<usize> {
    let p2 = u32::from_be_bytes(rest.get(2..6)?.try_into().unwrap());
    (rest[..2].iter().all(u8::is_ascii_digit) && (32..=65_536).contains(&p2)).then_some(p2 as usize)
}

/// Whether fewer than 6 bytes are left and they could be the first ones of a header.
fn may_begin(rest: &[u8]) -> bool {
    rest.len() < 6 && rest.iter().take(2).all(u8::is_ascii_digit) && !matches!(rest.get(2), Some(1..)) && !matches!(rest.get(3), Some(2..))
}

fn is_accepted(packet: &[u8]) -> bool {
    let mut sheet = vec![0; gmti::sheet_bound(packet.len())];
    [1, 3].iter().any(|&edition| independent::read(edition, packet, &mut sheet).is_accepted())
}

/// The length of the packet that this offset holds.
fn held(bytes: &[u8], at: usize) -> Option<usize> {
    let length = header(&bytes[at..])?;
    let behind = bytes.get(at + length..)?;
    (header(behind).is_some() || may_begin(behind) || is_accepted(&bytes[at..at + length])).then_some(length)
}

fn reason(bytes: &[u8], range: Range<usize>) -> Reason {
    let rest = &bytes[range.start..];
    let is_past_the_end = header(rest).map_or(may_begin(rest), |length| length > rest.len());
    match header(rest) {
        _ if is_past_the_end && range.end == bytes.len() => Reason::CutShort,
        Some(_) => Reason::WrongLength,
        None => Reason::NoHeader,
    }
}

/// What the rule finds in a recording.
fn by_the_rule(bytes: &[u8]) -> Vec<Found<'_>> {
    let (mut found, mut at) = (Vec::new(), 0);
    while at < bytes.len() {
        let (offset, start) = (at as u64, at);
        if let Some(length) = held(bytes, at) {
            at += length;
            found.push(Found::Packet { offset, bytes: &bytes[start..at] });
        } else {
            at = (at + 1..bytes.len()).find(|&next| held(bytes, next).is_some()).unwrap_or(bytes.len());
            found.push(Found::Skipped { offset, length: (at - start) as u64, reason: reason(bytes, start..at) });
        }
    }
    found
}

/// Where an item begins and ends.
fn place(item: &Found) -> Range<u64> {
    match *item {
        Found::Packet { offset, bytes } => offset..offset + bytes.len() as u64,
        Found::Skipped { offset, length, .. } => offset..offset + length,
    }
}

/// What is found, held to the rule. Every byte is in one item, no item is empty, and no two skipped ranges stand side by side.
fn found_in(bytes: &[u8]) -> Vec<Found<'_>> {
    let found: Vec<Found> = Recording::new(bytes).collect();
    let mut at = 0;
    for item in &found {
        assert!(place(item).start == at && !place(item).is_empty(), "{item:?} at {at}");
        at = place(item).end;
    }
    assert_eq!(at, bytes.len() as u64);
    assert!(found.windows(2).all(|pair| pair.iter().any(|item| matches!(item, Found::Packet { .. }))), "{found:?}");
    assert_eq!(found, by_the_rule(bytes));
    found
}

// Recordings

/// Up to so many packets that the Edition 3 reading accepts.
fn packets(random: &mut Random, most: usize) -> Vec<Vec<u8>> {
    (0..=random.below(most)).map(|_| valid::packet(random).bytes()).collect()
}

/// The items that these packets are, one after another.
fn whole<'p>(packets: &'p [Vec<u8>]) -> Vec<Found<'p>> {
    let mut at = 0;
    let mut item = |bytes: &'p Vec<u8>| {
        at += bytes.len();
        Found::Packet { offset: (at - bytes.len()) as u64, bytes }
    };
    packets.iter().map(&mut item).collect()
}

/// Bytes of no sense, with headers of short packets among them.
fn junk(random: &mut Random, count: usize) -> Vec<u8> {
    let mut bytes = random.bytes(count);
    for _ in 0..random.below(1 + count / 6) {
        let header = [b'3', b'0', 0, 0, random.pick([0, 0, 0, 1]), 32 + random.below(100) as u8];
        let at = random.below(count);
        let last = (at + header.len()).min(count);
        bytes[at..last].copy_from_slice(&header[..last - at]);
    }
    bytes
}

/// Another P2: another number of up to 65,536 or of any size, or with one byte changed.
fn damage_p2(random: &mut Random, packet: &mut [u8]) {
    let length = packet.len() as u32;
    let (small, any) = (random.below(65_537) as u32, random.number() as u32);
    let flipped = length ^ 1 << random.below(32);
    let p2 = random.pick([0, 31, 32, 65_536, 65_537, length + 1, length - 1, small, small, any, flipped, flipped]);
    packet[2..6].copy_from_slice(&if p2 == length { 0 } else { p2 }.to_be_bytes());
}

/// Bytes changed, put in, lost, junk in front, the end cut off, or a P2 damaged.
fn damaged(random: &mut Random, packets: &[Vec<u8>]) -> Vec<u8> {
    let mut packets = packets.to_vec();
    let one = random.below(packets.len());
    let kind = random.below(6);
    if kind == 0 {
        damage_p2(random, &mut packets[one]);
    }
    let mut bytes = packets.concat();
    let at = random.below(bytes.len());
    let count = 1 + random.below(60);
    let more = junk(random, count);
    let last = (at + count).min(bytes.len());
    match kind {
        1 => bytes[at..last].copy_from_slice(&more[..last - at]),
        2 => drop(bytes.splice(at..at, more)),
        3 => drop(bytes.drain(at..last)),
        4 => drop(bytes.splice(0..0, more)),
        5 => bytes.truncate(at),
        _ => (),
    }
    bytes
}

/// How often each thing was found: packets, and the reasons in their order.
fn tally(found: &[Found]) -> [usize; 4] {
    let thing = |item: &Found| match item {
        Found::Packet { .. } => 0,
        Found::Skipped { reason, .. } => 1 + *reason as usize,
    };
    let mut counts = [0; 4];
    found.iter().for_each(|item| counts[thing(item)] += 1);
    counts
}

/// Runs so many cases, and expects that all four things were found in at least so many of them.
fn assert_all_found(seed: u64, cases: u64, least: usize, recording: fn(&mut Random) -> Vec<u8>) {
    let mut in_cases = [0; 4];
    for index in 0..cases {
        let bytes = recording(&mut Random::of_case(seed, index));
        let counts = tally(&found_in(&bytes));
        in_cases.iter_mut().zip(counts).for_each(|(cases, count)| *cases += usize::from(count > 0));
    }
    assert!(in_cases.iter().all(|&cases| cases >= least), "{in_cases:?}");
}

#[test]
fn damaged_recordings() {
    assert_all_found(901, 6000, 500, |random| {
        let packets = packets(random, 6);
        damaged(random, &packets)
    });
}

#[test]
fn recordings_damaged_many_times() {
    assert_all_found(902, 2000, 500, |random| {
        let parts: Vec<Vec<u8>> = (0..1 + random.below(6))
            .map(|_| {
                let packets = packets(random, 3);
                damaged(random, &packets)
            })
            .collect();
        parts.concat()
    });
}

#[test]
fn any_bytes() {
    assert_all_found(903, 20_000, 1000, |random| {
        let count = random.below(400);
        junk(random, count)
    });
    assert_eq!(Recording::new(&[]).next(), None);
}

/// Damage behind the first six bytes of a packet, with its length kept.
#[test]
fn a_refused_packet_loses_nothing_behind_it() {
    let mut refused = 0;
    for index in 0..3000 {
        let random = &mut Random::of_case(904, index);
        let mut packets = packets(random, 6);
        packets.iter_mut().for_each(|packet| damage::flip(random, &mut packet[6..]));
        refused += packets.iter().filter(|packet| !is_accepted(packet)).count();
        assert_eq!(found_in(&packets.concat()), whole(&packets), "case {index}");
    }
    assert!(refused > 3000, "{refused}");
}

/// These parts one after another, all of them packets but the one of this number, which is skipped.
fn all_but_one(parts: &[Vec<u8>], number: usize, reason: Reason) -> Vec<Found<'_>> {
    let mut found = whole(parts);
    let (offset, length) = (parts[..number].concat().len() as u64, parts[number].len() as u64);
    found[number] = Found::Skipped { offset, length, reason };
    found
}

/// Where by chance the damaged P2, or bytes further on in the packet, lead to another header or end a packet that is accepted, more is lost
/// or found; the bytes tell.
#[test]
fn a_damaged_p2_costs_its_own_packet_alone() {
    let mut alone = 0;
    for index in 0..6000 {
        let random = &mut Random::of_case(905, index);
        let mut packets = packets(random, 6);
        let number = random.below(packets.len());
        damage_p2(random, &mut packets[number]);
        let recording = packets.concat();
        let start = packets[..number].concat().len();
        let range = start..start + packets[number].len();
        if range.clone().all(|at| held(&recording, at).is_none()) {
            alone += 1;
            assert_eq!(found_in(&recording), all_but_one(&packets, number, reason(&recording, range)), "case {index}");
        }
    }
    assert!(alone > 4000, "{alone}");
}

#[test]
fn junk_between_packets_is_one_range() {
    for index in 0..3000 {
        let random = &mut Random::of_case(906, index);
        let mut parts = packets(random, 6);
        let (number, count) = (random.below(parts.len() + 1), 1 + random.below(300));
        let mut junk = random.bytes(count);
        junk.iter_mut().filter(|byte| byte.is_ascii_digit()).for_each(|byte| *byte += 10);
        parts.insert(number, junk);
        assert_eq!(found_in(&parts.concat()), all_but_one(&parts, number, Reason::NoHeader), "case {index}");
    }
}

/// One of its packets is refused.
#[test]
fn the_sample_at_every_cut() {
    let recording = sample("recording.gmti");
    let all = found_in(&recording);
    assert_eq!(tally(&all), [6, 0, 0, 0]);
    for cut in 0..recording.len() as u64 {
        let number = all.iter().filter(|item| place(item).end <= cut).count();
        let mut due = all[..number].to_vec();
        let offset = place(&all[number]).start;
        due.extend((offset < cut).then_some(Found::Skipped { offset, length: cut - offset, reason: Reason::CutShort }));
        assert_eq!(found_in(&recording[..cut as usize]), due, "cut at {cut}");
    }
}

/// Its P2 is the only one whose upper half is not 0.
#[test]
fn the_longest_packet_is_found_whole_and_cut_short() {
    let longest = valid::longest(MOST_TARGETS).bytes();
    assert_eq!(longest.len(), 65_536);
    for cut in [1, 2, 3, 4, 5, 6, 65_535] {
        let parts = [b"junk".to_vec(), longest.clone(), sample("damaged_height.gmti"), longest[..cut].to_vec()];
        assert_eq!(tally(&found_in(&parts.concat())), [2, 1, 1, 0], "cut at {cut}");
    }
}

// Streams

/// Hands out a recording, at most so many bytes at a time, and is often interrupted. At its end it may give an error, and must not be read
/// again.
struct Source {
    rest: io::Cursor<Vec<u8>>,
    random: Random,
    most: usize,
    error: Option<io::Error>,
    is_ended: bool,
}

impl Source {
    fn new(bytes: &[u8], most: usize) -> Source {
        Source { rest: io::Cursor::new(bytes.to_vec()), random: Random::new(most as u64), most, error: None, is_ended: false }
    }
}

impl Read for Source {
    fn read(&mut self, lent: &mut [u8]) -> io::Result<usize> {
        if self.random.chance(20) {
            return Err(io::ErrorKind::Interrupted.into());
        }
        if self.rest.position() as usize == self.rest.get_ref().len() {
            assert!(!self.is_ended, "read behind its end");
            self.is_ended = true;
            return self.error.take().map_or(Ok(0), Err);
        }
        let count = 1 + self.random.below(self.most.min(lent.len()));
        self.rest.read(&mut lent[..count])
    }
}

/// A reader, whichever it is.
trait Reader {
    fn next_found(&mut self) -> io::Result<Option<Found<'_>>>;
}

impl Reader for RecordingReader<Source> {
    fn next_found(&mut self) -> io::Result<Option<Found<'_>>> {
        RecordingReader::next_found(self)
    }
}

impl Reader for RecordingAhead {
    fn next_found(&mut self) -> io::Result<Option<Found<'_>>> {
        RecordingAhead::next_found(self)
    }
}

/// The ways to read a source: as more is needed, and ahead.
const WAYS: [fn(Source) -> Box<dyn Reader>; 2] =
    [|source| Box::new(RecordingReader::new(source)), |source| Box::new(RecordingAhead::new(source))];

/// The reader finds what is found in the same bytes in memory.
fn assert_same(reader: &mut dyn Reader, bytes: &[u8]) {
    for found in Recording::new(bytes) {
        assert_eq!(reader.next_found().unwrap(), Some(found));
    }
}

/// It stays at its end.
fn assert_ended(reader: &mut dyn Reader) {
    assert_eq!(reader.next_found().unwrap(), None);
    assert_eq!(reader.next_found().unwrap(), None);
}

#[test]
fn streams_give_what_slices_give() {
    for index in 0..3000 {
        let random = &mut Random::of_case(907, index);
        let packets = packets(random, 6);
        let bytes = damaged(random, &packets);
        let most = random.pick([1, 2, 6, 33, 1000, usize::MAX]);
        let mut reader = WAYS[usize::from(most >= 33 && random.chance(50))](Source::new(&bytes, most));
        assert_same(reader.as_mut(), &bytes);
        assert_ended(reader.as_mut());
    }
}

/// Some MB, in which packets and ranges lie across the ends of whatever is read at a time.
#[test]
fn long_streams() {
    let random = &mut Random::new(908);
    let part = |random: &mut Random, number: usize| match number % 40 {
        0 => valid::longest(random.below(15_000) as u32).bytes(),
        1 => vec![0; random.below(400_000)],
        _ => {
            let packets = packets(random, 6);
            damaged(random, &packets)
        }
    };
    let bytes = (0..400).map(|number| part(random, number)).collect::<Vec<_>>().concat();
    assert!(bytes.len() > 2 << 20);
    let direct = [1, 100, 10_000, 100_000, usize::MAX].map(|most| (most, WAYS[0]));
    // What each read gave is handed over by the thread, so a few bytes at a time would take long.
    let ahead = [10_000, 100_000, usize::MAX].map(|most| (most, WAYS[1]));
    for (most, way) in direct.into_iter().chain(ahead) {
        let mut reader = way(Source::new(&bytes, most));
        assert_same(reader.as_mut(), &bytes);
        assert_ended(reader.as_mut());
    }
}

/// What came before an error is found; then the error comes out, once.
#[test]
fn an_error_comes_out_once() {
    let recording = sample("recording.gmti");
    for cut in 0..recording.len() {
        let bytes = &recording[..cut];
        for way in WAYS {
            let error = Some(io::Error::other("lost"));
            let mut reader = way(Source { error, ..Source::new(bytes, 300) });
            assert_same(reader.as_mut(), bytes);
            assert_eq!(reader.next_found().unwrap_err().to_string(), "lost");
            assert_ended(reader.as_mut());
        }
    }
}

/// The buffer of a reader is far smaller.
#[test]
fn a_range_of_any_length_is_one_item() {
    let packet = sample("mission.gmti");
    let length = 300_000_000;
    let mut reader = RecordingReader::new(packet.chain(io::repeat(0).take(length)).chain(&packet[..]));
    assert_eq!(reader.next_found().unwrap(), Some(Found::Packet { offset: 0, bytes: &packet }));
    let offset = packet.len() as u64;
    assert_eq!(reader.next_found().unwrap(), Some(Found::Skipped { offset, length, reason: Reason::NoHeader }));
    assert_eq!(reader.next_found().unwrap(), Some(Found::Packet { offset: offset + length, bytes: &packet }));
    assert_eq!(reader.next_found().unwrap(), None);
}

/// A reader that is left alone before its end leaves its thread nobody to read for.
#[test]
fn a_source_that_is_read_ahead_is_let_go() {
    let (told, is_dropped) = std::sync::mpsc::channel::<()>();
    struct Endless(#[allow(dead_code)] std::sync::mpsc::Sender<()>);
    impl Read for Endless {
        fn read(&mut self, lent: &mut [u8]) -> io::Result<usize> {
            lent.fill(0);
            Ok(lent.len())
        }
    }
    drop(RecordingAhead::new(Endless(told)));
    // Nothing is ever sent: the channel ends when the source is dropped.
    assert!(is_dropped.recv_timeout(std::time::Duration::from_secs(60)) == Err(std::sync::mpsc::RecvTimeoutError::Disconnected));
}

/// A thread that ends otherwise than at the end of its source is no end of the recording.
#[test]
fn a_source_that_panics_is_an_error() {
    struct Broken(u8);
    impl Read for Broken {
        fn read(&mut self, lent: &mut [u8]) -> io::Result<usize> {
            assert!(self.0 < 2, "meant to: a source that panics");
            self.0 += 1;
            lent[0] = b'x';
            Ok(1)
        }
    }
    let mut reader = RecordingAhead::new(Broken(0));
    assert!(reader.next_found().is_err());
    assert_eq!(reader.next_found().unwrap(), None);
}

/// A packet that is accepted is given before a byte behind it is there, one that is refused as soon as there are six. The source counts as
/// ended, so that one more call of it is found out.
#[test]
fn packets_of_a_live_source_are_given_at_once() {
    let (accepted, refused) = (sample("mission.gmti"), sample("damaged_height.gmti"));
    for (packet, behind, most) in [1, 6, 50, usize::MAX].iter().flat_map(|&most| [(&accepted, 0, most), (&refused, 6, most)]) {
        let bytes = [&packet[..], &accepted[..behind]].concat();
        let mut reader = RecordingReader::new(Source { is_ended: true, ..Source::new(&bytes, most) });
        assert_eq!(reader.next_found().unwrap(), Some(Found::Packet { offset: 0, bytes: packet }));
    }
}
