//! How long the command takes on a recording of 200 MB of small packets, beside a bare loop of the library's calls over the same bytes in
//! memory and, where it is installed, beside tshark on the same file.
//!
//! `cargo bench --bench recordings -- ROUNDS` prints the tables of docs/BENCHMARK.md, 'Recordings'. Every round takes all in turn. What the
//! command counts is held to what the loop counts before anything is timed.
use gmti::{Edition, Found, Recording, LONGEST_SHEET};
use std::fs::{self, File};
use std::hint::black_box;
use std::path::Path;
use std::process::{Command, Stdio};
use std::time::Instant;

const ROUNDS: usize = 10;
/// The bytes of a recording, but for what is left over by whole packets.
const SIZE: usize = 200_000_000;
/// The most that each command may take, over the loop.
const CHECK_GOAL: f64 = 1.2;
const TARGETS_GOAL: f64 = 4.0;

fn main() {
    let rounds = std::env::args().filter_map(|word| word.parse().ok()).next().unwrap_or(ROUNDS).max(1);
    let folder = Path::new(env!("CARGO_TARGET_TMPDIR"));
    println!("{rounds} rounds; seconds, best (median); ratios of the bests (median of the rounds' ratios).\n");
    print!("| Recording of {} MB | Packets | Targets | Loop | `check` | over the loop: at most {CHECK_GOAL} ", SIZE / 1_000_000);
    println!("| `targets --format tsv` | over the loop: at most {TARGETS_GOAL} | `tshark -T fields` |");
    println!("|---|---|---|---|---|---|---|---|---|");
    for (name, packets) in [("a flight", flight()), ("one target a packet", sample("printed_trial.gmti"))] {
        let path = folder.join("recording.gmti");
        let bytes = packets.repeat(SIZE / packets.len());
        fs::write(&path, &bytes).expect("room for the recording");
        print_row(name, &path, &bytes, rounds);
        fs::remove_file(path).expect("it was just written");
    }
}

fn sample(name: &str) -> Vec<u8> {
    fs::read(Path::new(env!("CARGO_MANIFEST_DIR")).join("../../samples").join(name)).expect("a sample")
}

/// The packets of the sample recording that are accepted, of version 3 alone: tshark opens no other.
fn flight() -> Vec<u8> {
    let recording = sample("recording.gmti");
    let mut lent = vec![0; LONGEST_SHEET];
    let mut is_taken = |packet: &[u8]| packet[0] == b'3' && gmti::read(Edition::Three, packet, &mut lent).is_ok();
    let packets = Recording::new(&recording).filter_map(|found| match found {
        Found::Packet { bytes, .. } => is_taken(bytes).then_some(bytes),
        Found::Skipped { .. } => None,
    });
    packets.collect::<Vec<_>>().concat()
}

/// Packets and targets by a bare loop: each packet by its P2, which is right in all of these.
fn bare_loop(bytes: &[u8], lent: &mut [u8]) -> (u64, u64) {
    let (mut rest, mut packets, mut targets) = (bytes, 0, 0);
    while let Some(p2) = rest.get(2..6) {
        let length = u32::from_be_bytes(p2.try_into().expect("four bytes")) as usize;
        let (packet, behind) = rest.split_at(length);
        let accepted = gmti::read(Edition::Three, black_box(packet), lent).expect("accepted");
        (packets, targets) = (packets + 1, targets + u64::from(accepted.targets));
        rest = behind;
    }
    (packets, targets)
}

/// The seconds that a command takes from its start to its end, with its output thrown away as a file would take it.
fn time_command(program: &str, words: &[&str], path: &Path) -> f64 {
    let thrown_away = File::options().write(true).open("/dev/null").expect("/dev/null");
    let mut command = Command::new(program);
    command.args(words).arg(path).stdout(thrown_away).stderr(Stdio::null());
    let begin = Instant::now();
    assert!(command.status().expect("it starts").success());
    begin.elapsed().as_secs_f64()
}

/// What tshark is asked for, under `s4607.`: all that a line of `gmti targets` has, but for positions, which it does not work out from
/// deltas.
const TSHARK_FIELDS: [&str; 22] = [
    "job",
    "dwell.revisit",
    "dwell.dwell",
    "dwell.time",
    "dwell.rpt.idx",
    "dwell.rpt.lat",
    "dwell.rpt.lon",
    "dwell.rpt.delta.lat",
    "dwell.rpt.delta.lon",
    "dwell.rpt.height",
    "dwell.rpt.radial",
    "dwell.rpt.wrap",
    "dwell.rpt.snr",
    "dwell.rpt.class",
    "dwell.rpt.prob",
    "dwell.rpt.unc.slant",
    "dwell.rpt.unc.cross",
    "dwell.rpt.unc.height",
    "dwell.rpt.unc.radial",
    "dwell.rpt.tag.app",
    "dwell.rpt.tag.entity",
    "dwell.rpt.section",
];

/// The seconds that `tshark -T fields` takes, once; None where it is not installed.
fn time_tshark(path: &Path) -> Option<f64> {
    Command::new("tshark").arg("--version").output().ok()?;
    let fields = TSHARK_FIELDS.iter().flat_map(|field| ["-e".to_string(), format!("s4607.{field}")]);
    let words: Vec<String> = ["-n", "-T", "fields"].map(String::from).into_iter().chain(fields).chain(["-r".to_string()]).collect();
    Some(time_command("tshark", &words.iter().map(String::as_str).collect::<Vec<_>>(), path))
}

/// The counts that `gmti check` prints, by name.
fn counted(path: &Path, name: &str) -> u64 {
    let output = Command::new(env!("CARGO_BIN_EXE_gmti")).arg("check").arg(path).output().expect("it starts");
    let text = String::from_utf8(output.stdout).expect("text");
    let line = text.lines().find_map(|line| line.strip_prefix(name)).expect("the count");
    line.trim().parse().expect("a number")
}

/// The seconds of each round.
struct Times(Vec<f64>);

fn median(values: impl Iterator<Item = f64>) -> f64 {
    let mut sorted: Vec<f64> = values.collect();
    sorted.sort_by(f64::total_cmp);
    sorted[sorted.len() / 2]
}

impl Times {
    fn best(&self) -> f64 {
        self.0.iter().copied().fold(f64::INFINITY, f64::min)
    }

    fn cell(&self) -> String {
        format!("{:.3} ({:.3})", self.best(), median(self.0.iter().copied()))
    }

    /// The ratio of the bests, bold where it is above the goal, and the median of the rounds' ratios: the clock jumps, and what is timed in
    /// one round is timed under much the same one.
    fn over(&self, other: &Times, goal: f64) -> String {
        let best = self.best() / other.best();
        let rounds = median(self.0.iter().zip(&other.0).map(|(time, other)| time / other));
        let mark = if best > goal { "**" } else { "" };
        format!("{mark}{best:.2}{mark} ({rounds:.2})")
    }
}

fn print_row(name: &str, path: &Path, bytes: &[u8], rounds: usize) {
    let mut lent = vec![0; LONGEST_SHEET];
    let (packets, targets) = bare_loop(bytes, &mut lent);
    assert_eq!((counted(path, "packets"), counted(path, "targets")), (packets, targets));
    let gmti = env!("CARGO_BIN_EXE_gmti");
    let mut taken = [const { Vec::new() }; 3];
    for turn in 0..3 * rounds {
        // Every round begins with another.
        let variant = (turn + turn / 3) % 3;
        taken[variant].push(match variant {
            0 => {
                let begin = Instant::now();
                black_box(bare_loop(bytes, &mut lent));
                begin.elapsed().as_secs_f64()
            }
            1 => time_command(gmti, &["check"], path),
            _ => time_command(gmti, &["targets", "--format", "tsv"], path),
        });
    }
    let [looped, check, exported] = taken.map(Times);
    let ratios = [check.over(&looped, CHECK_GOAL), exported.over(&looped, TARGETS_GOAL)];
    let tshark = time_tshark(path).map_or("not installed".to_string(), |seconds| format!("{seconds:.0}"));
    let cells = [looped.cell(), check.cell(), ratios[0].clone(), exported.cell(), ratios[1].clone(), tshark];
    println!("| {name} | {packets} | {targets} | {} |", cells.join(" | "));
}
