//! How long the verified reader and writer take, held against the reader written by hand for speed, the independent reader and writer,
//! and memcpy.
//!
//! `cargo bench --bench speed -- ROUNDS RUNS` prints the tables of docs/BENCHMARK.md: the goals over all runs, and the last run. Before
//! anything is timed, the answers and the bytes of all variants are compared, and a difference stops the run.
use std::hint::black_box;
use std::time::Instant;
use testing::generator::spelling::{push, Packet, Segment};
use testing::generator::tables::{bit, mask_of, width, HRR_ALWAYS, MOST_DWELLS};
use testing::generator::{hrr, valid, Random};
use testing::library::{Answer, LONGEST_PACKET, LONGEST_SHEET};
use testing::{by_hand, independent};

const ROUNDS: usize = 2000;
const RUNS: usize = 1;
/// A round repeats a call until this many nanoseconds are over, at least.
const ROUND: f64 = 20_000.0;
/// What lent memory holds before the comparison, so that a byte that is not written shows.
const UNTOUCHED: u8 = 0xA5;

fn main() {
    let [rounds, runs] = arguments();
    let measure_all = |run| {
        eprintln!("run {run} of {runs}");
        cases().into_iter().map(|case| measure(case, rounds)).collect()
    };
    let all: Vec<Vec<Measured>> = (1..=runs).map(measure_all).collect();
    print_goals(&all);
    println!("## The last run\n");
    println!("CPU: {}; {}; {rounds} rounds; run {runs} of {runs}.\n", cpu(), profile());
    print!("Every round takes all variants in turn, each repeated for at least {} µs. ", ROUND / 1000.0);
    println!("Buffers are allocated once, touched before the");
    println!("first round, shared by the variants and not cleared between calls. GB/s counts the sheet of a reader and the packet of a");
    println!("writer.\n");
    let last = &all[runs - 1];
    last.iter().for_each(print_case);
    print_ratios(last);
    print_growth((rounds / 10).max(1));
    print_patterns((rounds / 10).max(1));
    print_lookups(rounds);
}

/// The numbers of rounds and of runs.
fn arguments() -> [usize; 2] {
    let mut numbers = [ROUNDS, RUNS];
    let given = std::env::args().skip(1).filter(|argument| argument != "--bench");
    for (number, text) in numbers.iter_mut().zip(given) {
        *number = text.parse::<usize>().expect("the numbers of rounds and of runs").max(1);
    }
    numbers
}

fn cpu() -> String {
    let file = std::fs::read_to_string("/proc/cpuinfo").unwrap_or_default();
    let name = file.lines().find(|line| line.starts_with("model name")).and_then(|line| line.split_once(": "));
    name.map_or("not known".to_string(), |(_, name)| name.to_string())
}

/// The bench profile as the workspace's manifest has it.
fn profile() -> String {
    let manifest = include_str!("../../Cargo.toml").split("[profile.bench]").nth(1).unwrap_or("");
    let lines = manifest.lines().skip(1).take_while(|line| line.contains('='));
    let checks = if cfg!(debug_assertions) { " with debug assertions" } else { "" };
    format!("profile bench: {}{checks}", lines.collect::<Vec<_>>().join(", "))
}

// Packets

/// Every field but D10, D11, D32.4 and D32.5.
const ABSOLUTE: u64 = 0xFF3F_FFFF_9FFF_0000;
/// Every field but D32.2 and D32.3.
const DELTA: u64 = 0xFFFF_FFFE_7FFF_0000;
/// D2 to D9, D12 to D14, D18 to D20, D24 to D28, D30, D32.1 to D32.3, D32.6, D32.8, D32.10, D32.12, D32.14, D32.16, D32.17.
const SPARSE: u64 = 0xFF38_E3EB_9556_0000;
/// D2 to D11, D24 to D27, D32.4 and D32.5: the mask of document 01's printed packet, targets of 4 bytes.
const SMALL: u64 = 0xFFC0_03C0_6000_0000;

/// A header of version 3 whose size is not set yet.
const HEADER: [u8; 32] = *b"30\0\0\0\0XN\x05  \0\0\x80platform 1\0\0\0\x01\0\0\0\x01";

/// The packet of these segments.
fn packet(segments: Vec<Segment>) -> Vec<u8> {
    Packet::new(HEADER, segments).bytes()
}

/// The announced fields from one number to another, with random values that no row refuses.
fn add_fields(body: &mut Vec<u8>, mask: u64, fields: std::ops::RangeInclusive<u32>, count: u64, random: &mut Random) {
    for field in fields.filter(|field| mask & bit(*field) != 0) {
        let value = match field {
            4 => random.between(0, 1),
            5 => count as i64,
            // Steps and a centre with which the latitude stays in range and takes both signs.
            10 | 11 => random.between(1, 1 << 15),
            24 => random.between(-1 << 28, (1 << 28) - 1),
            37 => random.between(-1000, 32_767),
            42 => random.between(0, 100),
            46 => random.between(0, 5000),
            _ => random.number() as i64,
        };
        push(body, value as u32, width(field));
    }
}

/// A packet of one dwell.
fn dwell(mask: u64, count: u64) -> Vec<u8> {
    let mut random = Random::new(mask ^ count);
    let mut body = mask.to_be_bytes().to_vec();
    add_fields(&mut body, mask, 2..=31, count, &mut random);
    for _ in 0..count {
        add_fields(&mut body, mask, 32..=49, count, &mut random);
    }
    packet(vec![Segment::new(2, body)])
}

/// A packet of one dwell with as many targets as fit.
fn full(mask: u64) -> Vec<u8> {
    let empty = dwell(mask, 0).len();
    let each = dwell(mask, 1).len() - empty;
    dwell(mask, ((LONGEST_PACKET - empty) / each) as u64)
}

/// A packet of dwells without targets that have these pairs of D2 and D3.
fn dwells(pairs: impl Iterator<Item = u32>) -> Vec<u8> {
    valid::packet_by_pairs(&mut Random::new(7), &pairs.collect::<Vec<_>>()).bytes()
}

/// The bytes of a scatterer's magnitude, phase, range index and Doppler index; an absent one has none.
type Widths = [u32; 4];

/// A packet of one HRR segment whose scatterers have these widths. H6 tells their number.
fn scatterers(widths: Widths, count: usize) -> Vec<u8> {
    let present: Vec<u32> = (33..=35).zip(&widths[1..]).filter(|(_, width)| **width > 0).map(|(field, _)| field).collect();
    let mask = mask_of(&HRR_ALWAYS) | bit(6) | mask_of(&present);
    packet(vec![hrr::with_widths(&mut Random::new(8), mask, (widths[0], widths[1]), count).segment()])
}

/// The same with as many scatterers as fit.
fn full_of_scatterers(widths: Widths) -> Vec<u8> {
    let empty = scatterers(widths, 0).len();
    let each = scatterers(widths, 1).len() - empty;
    scatterers(widths, (LONGEST_PACKET - empty) / each)
}

/// The 92 bytes of document 01's printed trial.
fn printed() -> Vec<u8> {
    let mut body = SMALL.to_be_bytes().to_vec();
    body.extend_from_slice(&[0, 0, 0, 0, 0, 0, 1]);
    body.extend_from_slice(&[0; 16]);
    body.extend_from_slice(&[0, 1, 0, 0, 0, 1, 0, 0]);
    body.extend_from_slice(&[0; 12]);
    body.extend_from_slice(&[0xFF, 0x80, 0xFF, 0xC0]);
    packet(vec![Segment::new(2, body)])
}

/// A free text of so many bytes, F1 and F2 among them, with a line end after every 70 characters.
fn free_text(random: &mut Random, length: usize) -> Segment {
    Segment::new(6, (0..length).map(|i| if i % 71 == 70 { b'\n' } else { 0x20 + random.below(95) as u8 }).collect())
}

/// Two free texts and two opaque segments.
fn texts() -> Vec<u8> {
    let mut random = Random::new(6);
    let mut segments = Vec::new();
    for _ in 0..2 {
        segments.push(free_text(&mut random, 16_240));
        segments.push(Segment::new(4, random.bytes(16_240)));
    }
    packet(segments)
}

/// One free text whose F3 has so many full pieces.
fn pieces(count: usize) -> Vec<u8> {
    packet(vec![free_text(&mut Random::new(9), 20 + 32 * count)])
}

/// As long a free text as fits: its bytes are all looked at, and go into 2,047 pieces, the last of which is not full.
const TEXT: &str = "free text";
/// Free texts, and opaque segments, whose bytes are copied alone.
const TEXTS: &str = "free text and opaque";
/// As many dwells as fit, by their pairs in rising order.
const RISING: &str = "1,364 dwells, rising";
/// The same in falling order. Once a pair falls, the verified reader holds each against all behind it, whatever the order.
const FALLING: &str = "1,364 dwells, falling";
/// As many segments of one dwell. The same pair never falls, so that this costs what rising costs.
const ALIKE: &str = "1,364 dwells, all alike";
/// As many scatterers as fit, each of one byte.
const MAGNITUDES: &str = "65,463 scatterers, one byte each";
/// As many as fit of six bytes each: magnitude and phase of two, range index and Doppler index of one.
const PROFILES: &str = "10,910 scatterers, all four fields";

fn cases() -> Vec<Case> {
    let goal = |name, packet| Case { is_goal: true, ..Case::new(name, packet) };
    vec![
        goal("small packet, one delta target", printed()),
        goal("50 targets, absolute", dwell(ABSOLUTE, 50)),
        goal("50 targets, deltas", dwell(DELTA, 50)),
        goal("full packet, absolute", full(ABSOLUTE)),
        goal("full packet, deltas", full(DELTA)),
        Case::new("50 targets, sparse mask", dwell(SPARSE, 50)),
        Case::new(TEXT, packet(vec![free_text(&mut Random::new(9), LONGEST_PACKET - 32 - 5)])),
        Case::new(TEXTS, texts()),
        Case::new("bare header", packet(Vec::new())),
        Case::new(RISING, dwells(0..MOST_DWELLS)),
        Case::new(FALLING, dwells((0..MOST_DWELLS).rev())),
        Case::new(ALIKE, dwells((0..MOST_DWELLS).map(|_| 7))),
        Case::new(MAGNITUDES, full_of_scatterers([1, 0, 0, 0])),
        Case::new(PROFILES, full_of_scatterers([2, 2, 1, 1])),
    ]
}

// Variants

/// A packet, the sheet that the verified reader makes of it, and the lent memory. The goals are for some of the cases.
struct Case {
    name: &'static str,
    is_goal: bool,
    packet: Vec<u8>,
    sheet: Vec<u8>,
    targets: u32,
    lent_sheet: Vec<u8>,
    lent_packet: Vec<u8>,
}

impl Case {
    fn new(name: &'static str, packet: Vec<u8>) -> Case {
        let mut lent_sheet = vec![UNTOUCHED; LONGEST_SHEET];
        let answer = testing::library::read(3, &packet, &mut lent_sheet);
        if !answer.is_accepted() {
            stop(name, "the verified reader", &format!("answers {answer}"));
        }
        let sheet = lent_sheet[..answer.length as usize].to_vec();
        Case { name, is_goal: false, packet, sheet, targets: answer.targets, lent_sheet, lent_packet: vec![UNTOUCHED; LONGEST_PACKET] }
    }
}

fn stop(case: &str, variant: &str, what: &str) -> ! {
    eprintln!("{case}: {variant} {what}");
    std::process::exit(1);
}

fn read_by(reader: impl Fn(u32, &[u8], &mut [u8]) -> Answer, case: &mut Case) -> Answer {
    reader(black_box(3), black_box(&case.packet), black_box(&mut case.lent_sheet))
}

fn write_by(writer: impl Fn(&[u8], &mut [u8]) -> Answer, case: &mut Case) -> Answer {
    writer(black_box(&case.sheet), black_box(&mut case.lent_packet))
}

fn copy(from: &[u8], to: &mut [u8]) -> Answer {
    black_box(&mut to[..from.len()]).copy_from_slice(black_box(from));
    Answer::default()
}

/// The nanoseconds that some calls take.
fn time(case: &mut Case, calls: u32, call: impl Fn(&mut Case) -> Answer) -> f64 {
    let begin = Instant::now();
    for _ in 0..calls {
        black_box(&call(case));
    }
    begin.elapsed().as_nanos() as f64
}

struct Variant {
    name: &'static str,
    call: fn(&mut Case) -> Answer,
    time: fn(&mut Case, u32) -> f64,
    writes_packet: bool,
    is_copy: bool,
}

/// A variant whose call is compiled into its own timing loop.
macro_rules! variant {
    ($name:expr, $call:expr, $writes_packet:expr, $is_copy:expr) => {
        Variant { name: $name, call: $call, time: |case, calls| time(case, calls, $call), writes_packet: $writes_packet, is_copy: $is_copy }
    };
}

const VERIFIED_READ: usize = 0;
const READ_BY_HAND: usize = 1;
const INDEPENDENT_READ: usize = 2;
const VERIFIED_WRITE: usize = 4;

const VARIANTS: [Variant; 7] = [
    variant!("verified read", |case| read_by(testing::library::read, case), false, false),
    variant!("read by hand", |case| read_by(by_hand::read, case), false, false),
    variant!("independent read", |case| read_by(independent::read, case), false, false),
    variant!("memcpy of the sheet", |case| copy(&case.sheet, &mut case.lent_sheet), false, true),
    variant!("verified write", |case| write_by(testing::library::write, case), true, false),
    variant!("independent write", |case| write_by(independent::write, case), true, false),
    variant!("memcpy of the packet", |case| copy(&case.packet, &mut case.lent_packet), true, true),
];

/// Stops the run unless the variant answers as the verified one does and leaves the same bytes in all of the lent memory.
fn compare(case: &mut Case, variant: &Variant) {
    case.lent_sheet.fill(UNTOUCHED);
    case.lent_packet.fill(UNTOUCHED);
    let answer = (variant.call)(case);
    let read = testing::library::read(3, &case.packet, &mut vec![UNTOUCHED; LONGEST_SHEET]);
    let due = Answer { length: if variant.writes_packet { case.packet.len() as u32 } else { case.sheet.len() as u32 }, ..read };
    if !variant.is_copy && answer != due {
        stop(case.name, variant.name, &format!("answers {answer}, not {due}"));
    }
    let (lent, bytes) = if variant.writes_packet { (&case.lent_packet, &case.packet) } else { (&case.lent_sheet, &case.sheet) };
    let (written, rest) = lent.split_at(bytes.len());
    if written != bytes || rest.iter().any(|&byte| byte != UNTOUCHED) {
        stop(case.name, variant.name, "leaves other bytes");
    }
}

// Measuring

/// The nanoseconds of a call.
#[derive(Clone, Copy)]
struct Times {
    best: f64,
    median: f64,
}

struct Measured {
    case: Case,
    times: Vec<Times>,
}

/// How many calls last for a round.
fn calls_in_round(case: &mut Case, variant: &Variant) -> u32 {
    let mut calls = 1;
    while (variant.time)(case, calls) < ROUND {
        calls *= 2;
    }
    let each = (0..5).map(|_| (variant.time)(case, calls)).fold(f64::INFINITY, f64::min) / f64::from(calls);
    (ROUND / each).ceil() as u32
}

/// All rounds of some variants; each round begins with another variant.
fn rounds_of(case: &mut Case, variants: &[&Variant], rounds: usize) -> Vec<Times> {
    variants.iter().for_each(|variant| compare(case, variant));
    let calls: Vec<u32> = variants.iter().map(|variant| calls_in_round(case, variant)).collect();
    let mut taken = vec![Vec::with_capacity(rounds); variants.len()];
    for round in 0..rounds {
        for turn in 0..variants.len() {
            let i = (round + turn) % variants.len();
            taken[i].push((variants[i].time)(case, calls[i]) / f64::from(calls[i]));
        }
    }
    taken.into_iter().map(best_and_median).collect()
}

fn best_and_median(mut taken: Vec<f64>) -> Times {
    taken.sort_by(f64::total_cmp);
    Times { best: taken[0], median: taken[taken.len() / 2] }
}

fn measure(mut case: Case, rounds: usize) -> Measured {
    let times = rounds_of(&mut case, &VARIANTS.iter().collect::<Vec<_>>(), rounds);
    Measured { case, times }
}

// Tables

fn print_case(measured: &Measured) {
    let case = &measured.case;
    println!("### {}: packet {} bytes, sheet {} bytes, {} targets\n", case.name, case.packet.len(), case.sheet.len(), case.targets);
    println!("| Variant | ns a call, best | median | ns a target, best | median | GB/s, best | median |");
    println!("|---|---|---|---|---|---|---|");
    for (variant, times) in VARIANTS.iter().zip(&measured.times) {
        let bytes = if variant.writes_packet { case.packet.len() } else { case.sheet.len() } as f64;
        let each = |time: f64| if case.targets == 0 { "".to_string() } else { format!("{:.2}", time / f64::from(case.targets)) };
        let rate = |time: f64| bytes / time;
        print!("| {} | {:.1} | {:.1} ", variant.name, times.best, times.median);
        println!("| {} | {} | {:.2} | {:.2} |", each(times.best), each(times.median), rate(times.best), rate(times.median));
    }
    println!();
}

/// One variant's time over another's, and the most that it may be.
struct Ratio {
    name: &'static str,
    variant: usize,
    other: usize,
    goal: f64,
}

const RATIOS: [Ratio; 3] = [
    Ratio { name: "verified read / read by hand", variant: VERIFIED_READ, other: READ_BY_HAND, goal: 1.0 },
    Ratio { name: "verified read / independent read", variant: VERIFIED_READ, other: INDEPENDENT_READ, goal: 0.2 },
    Ratio { name: "verified write / verified read", variant: VERIFIED_WRITE, other: VERIFIED_READ, goal: 3.0 },
];

impl Ratio {
    /// Of the bests, and of the medians.
    fn of(&self, measured: &Measured) -> Times {
        let (a, b) = (measured.times[self.variant], measured.times[self.other]);
        Times { best: a.best / b.best, median: a.median / b.median }
    }
}

/// The first line of a table, and the line below it.
fn print_head(first: &str, others: &[&str]) {
    println!("| {first} | {} |", others.join(" | "));
    println!("|---|{}", "---|".repeat(others.len()));
}

fn print_ratios(all: &[Measured]) {
    println!("### Ratios of the bests (of the medians)\n");
    print_head("Case", &RATIOS.map(|ratio| ratio.name));
    for measured in all {
        let cells = RATIOS.map(|ratio| ratio.of(measured)).map(|r| format!("{:.2} ({:.2})", r.best, r.median));
        println!("| {} | {} |", measured.case.name, cells.join(" | "));
    }
    println!();
}

fn print_growth(rounds: usize) {
    println!("### Growth: one dwell with mask {SMALL:016X} (D2 to D11, D24 to D27, D32.4, D32.5), {rounds} rounds, ns a target\n");
    print_growth_of("Targets", [1000, 2000, 4000, 8000, 16_000], |count| dwell(SMALL, count as u64), rounds);
    println!("\n### Growth: one HRR segment with scatterers of one byte, {rounds} rounds, ns a scatterer\n");
    print_growth_of("Scatterers", [4000, 8000, 16_000, 32_000, 64_000], |count| scatterers([1, 0, 0, 0], count), rounds);
    println!("\n### Growth: one free text whose pieces are all full, {rounds} rounds, ns a piece\n");
    print_growth_of("Pieces", [125, 250, 500, 1000, 2000], pieces, rounds);
}

fn print_growth_of(things: &str, counts: [usize; 5], packet_of: fn(usize) -> Vec<u8>, rounds: usize) {
    let variants = [VERIFIED_READ, READ_BY_HAND, VERIFIED_WRITE].map(|variant| &VARIANTS[variant]);
    println!("| {things} | verified read, best | median | read by hand, best | median | verified write, best | median |");
    println!("|---|---|---|---|---|---|---|");
    for count in counts {
        let times = rounds_of(&mut Case::new("growth", packet_of(count)), &variants, rounds);
        let cells = times.iter().map(|t| format!("{:.2} | {:.2}", t.best / count as f64, t.median / count as f64));
        println!("| {count} | {} |", cells.collect::<Vec<_>>().join(" | "));
    }
}

/// So many scatterers of each pattern of widths: few enough to fit where each has the most bytes.
const OF_A_PATTERN: usize = 10_000;

fn print_patterns(rounds: usize) {
    println!("\n### Patterns: {OF_A_PATTERN} scatterers of each pattern of widths, {rounds} rounds, ns a scatterer, best\n");
    print_head("Magnitude, phase, range, Doppler", &["verified read", "read by hand", "ratio", "verified write", "over the read"]);
    let variants = [VERIFIED_READ, READ_BY_HAND, VERIFIED_WRITE].map(|variant| &VARIANTS[variant]);
    for widths in patterns() {
        let times = rounds_of(&mut Case::new("a pattern", scatterers(widths, OF_A_PATTERN)), &variants, rounds);
        let [read, by_hand, write] = [0, 1, 2].map(|variant| times[variant].best / OF_A_PATTERN as f64);
        let name = widths.map(|width| width.to_string()).join(", ");
        println!("| {name} | {read:.2} | {by_hand:.2} | {:.2} | {write:.2} | {:.2} |", read / by_hand, write / read);
    }
}

/// Every pattern of widths that row 22 lets pass.
fn patterns() -> impl Iterator<Item = Widths> {
    let indices = |magnitude, phase| [[0, 0], [0, 1], [1, 0], [1, 1]].map(|[range, doppler]| [magnitude, phase, range, doppler]);
    (1..=2).flat_map(move |magnitude| (0..=2).flat_map(move |phase| indices(magnitude, phase)))
}

/// The name of a lookup, and what looks a mode up.
type Lookup = (&'static str, fn(u32, u8) -> Result<u32, u32>);

const LOOKUPS: [Lookup; 2] = [("verified", testing::library::mode_system), ("by hand", by_hand::mode_system)];

/// How often all modes are looked up in a round.
const LOOKED_UP: usize = 16;

/// The nanoseconds of a lookup.
fn time_lookups(edition: u32, look_up: impl Fn(u32, u8) -> Result<u32, u32>) -> f64 {
    let begin = Instant::now();
    for _ in 0..LOOKED_UP {
        for mode in 0..=255 {
            let _ = black_box(look_up(black_box(edition), black_box(mode)));
        }
    }
    begin.elapsed().as_nanos() as f64 / (256 * LOOKED_UP) as f64
}

fn print_lookups(rounds: usize) {
    println!("\n### Radar modes: each looked up, {rounds} rounds, ns a lookup\n");
    print_head("Edition", &["verified, best", "median", "by hand, best", "median"]);
    for edition in [1, 3, 2] {
        let differs = (0..=255).any(|mode| LOOKUPS[0].1(edition, mode) != LOOKUPS[1].1(edition, mode));
        if differs {
            stop("radar modes", LOOKUPS[1].0, "another system");
        }
        let mut taken = [Vec::new(), Vec::new()];
        for round in 0..rounds {
            for turn in 0..2 {
                let i = (round + turn) % 2;
                taken[i].push(time_lookups(edition, LOOKUPS[i].1));
            }
        }
        let cells = taken.map(best_and_median).map(|t| format!("{:.1} | {:.1}", t.best, t.median));
        println!("| {edition} | {} |", cells.join(" | "));
    }
}

/// The most that text may take, over the reader by hand; and writing it back, over reading it.
const TEXT_GOAL: f64 = 1.0;
const TEXT_BACK_GOAL: f64 = 2.5;
/// The most that scatterers may take, over the reader by hand; and writing them back, over reading them.
const SCATTERERS_GOAL: f64 = 1.5;
const SCATTERERS_BACK_GOAL: f64 = 3.0;
/// The most that as many dwells may take, falling or all alike, over those in rising order.
const ORDER_GOAL: f64 = 3.0;

/// The ratios of the bests over all runs, in each case that the goals are for; and those of text, of many dwells and of scatterers.
fn print_goals(runs: &[Vec<Measured>]) {
    println!("## The goals\n");
    let cases: Vec<usize> = (0..runs[0].len()).filter(|case| runs[0][*case].case.is_goal).collect();
    print_head("Goal", &cases.iter().map(|case| runs[0][*case].case.name).collect::<Vec<_>>());
    for ratio in RATIOS {
        let cells = cases.iter().map(|case| goal_cell(ratio.goal, runs.iter().map(|run| ratio.of(&run[*case]).best).collect()));
        println!("| {}: at most {} | {} |", ratio.name, ratio.goal, cells.collect::<Vec<_>>().join(" | "));
    }
    println!();
    print_head("Goal", &["verified read"]);
    let over = |(name, variant), (other_name, other), goal| {
        let best = |run, name: &str, variant: usize| times_of(run, name)[variant].best;
        goal_cell(goal, runs.iter().map(|run| best(run, name, variant) / best(run, other_name, other)).collect())
    };
    let over_by_hand = |name, goal| over((name, VERIFIED_READ), (name, READ_BY_HAND), goal);
    for name in [TEXT, TEXTS] {
        println!("| {name}, over the reader by hand: at most {TEXT_GOAL} | {} |", over_by_hand(name, TEXT_GOAL));
    }
    for order in [FALLING, ALIKE] {
        let cell = over((order, VERIFIED_READ), (RISING, VERIFIED_READ), ORDER_GOAL);
        println!("| {order} / {RISING}: at most {ORDER_GOAL} | {cell} |");
    }
    for name in [MAGNITUDES, PROFILES] {
        println!("| {name}, over the reader by hand: at most {SCATTERERS_GOAL} | {} |", over_by_hand(name, SCATTERERS_GOAL));
    }
    println!();
    print_head("Goal", &["verified write"]);
    let backs = [(TEXT, TEXT_BACK_GOAL), (TEXTS, TEXT_BACK_GOAL), (MAGNITUDES, SCATTERERS_BACK_GOAL), (PROFILES, SCATTERERS_BACK_GOAL)];
    for (name, goal) in backs {
        let cell = over((name, VERIFIED_WRITE), (name, VERIFIED_READ), goal);
        println!("| {name}, over the verified read: at most {goal} | {cell} |");
    }
    println!();
}

/// The times of all variants in the case of this name.
fn times_of<'a>(run: &'a [Measured], name: &str) -> &'a [Times] {
    &run.iter().find(|measured| measured.case.name == name).expect("a case of this name").times
}

/// The median of the runs to two digits, bold where that is above the goal, with the least and the greatest where these differ.
fn goal_cell(goal: f64, mut ratios: Vec<f64>) -> String {
    ratios.sort_by(f64::total_cmp);
    let middle = (ratios[ratios.len() / 2] * 100.0).round() / 100.0;
    let median = if middle > goal { format!("**{middle:.2}**") } else { format!("{middle:.2}") };
    let [least, greatest] = [ratios[0], ratios[ratios.len() - 1]].map(|ratio| format!("{ratio:.2}"));
    if least == greatest {
        return median;
    }
    format!("{median} ({least} to {greatest})")
}
