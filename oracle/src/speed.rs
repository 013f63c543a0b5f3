//! Ratios to felica-rs and to plain Rust on the same inputs: how many times as fast ours is by processor time, the median of several rounds.
use crate::clock;
use crate::felica_rs::felica_standard::FelicaStandardCommand as C;
use crate::samples::{Sample, Set, sets};
use crate::values::Kind;
use crate::writer;
use felica::Handed;
use felica::ffi::{self, FelicaAnswer};
use std::env;
use std::fs::{self, File};
use std::hint::black_box;
use std::path::Path;
use std::process::{Command, Stdio};
use std::time::Duration;

const ROUNDS: usize = 21;

/// How often a set is gone through in a round.
const TURNS: usize = 500;

const LISTINGS: usize = 7;

const LOG_RECORDS: usize = 1_000_000;

/// What the functions for C write.
#[derive(Default)]
struct Lent {
    idm: [u8; 8],
    challenge: [u8; 16],
    fields: [u16; 5],
    parts: [usize; 10],
}

struct Buffers {
    first: [u16; 32],
    second: [u16; 32],
    numbers: [u16; 255],
    places: [u8; 255],
    modes: [u8; 255],
}

impl Buffers {
    fn new() -> Self {
        Buffers { first: [0; 32], second: [0; 32], numbers: [0; 255], places: [0; 255], modes: [0; 255] }
    }
}

type Work<'a> = (&'static str, Box<dyn FnMut() + 'a>);

/// `speed LIST_LOG` measures all; `speed once SET WORK` goes once through one set with one work, for a profiler.
pub fn run() -> bool {
    let words: Vec<String> = env::args().skip(2).collect();
    match words.iter().map(String::as_str).collect::<Vec<_>>()[..] {
        ["once", set, work] => once(set, work),
        [list_log] => {
            sets().iter().for_each(measure);
            measure_listings(Path::new(list_log))
        }
        _ => {
            eprintln!("usage: oracle speed LIST_LOG | oracle speed once SET WORK");
            false
        }
    }
}

fn works(set: &Set) -> [Work<'_>; 5] {
    let samples = &set.samples;
    let handed: Vec<Handed> = samples.iter().map(|sample| sample.command.handed()).collect();
    let same = handed.clone();
    let (mut parsed, mut listed, mut buffers) = (Lent::default(), Lent::default(), Buffers::new());
    let (mut out, mut ours) = ([0; 512], [0; 512]);
    [
        ("rust-parse", Box::new(|| samples.iter().for_each(rust_parse))),
        ("parse", Box::new(move || samples.iter().for_each(|sample| our_parse(sample, &mut parsed)))),
        ("list", Box::new(move || samples.iter().for_each(|sample| our_list(sample, &mut listed, &mut buffers)))),
        ("rust-write", Box::new(move || handed.iter().for_each(|command| rust_write(command, &mut out)))),
        ("write", Box::new(move || same.iter().for_each(|command| our_write(command, &mut ours)))),
    ]
}

fn measure(set: &Set) {
    let [mut rust_parse, mut parse, mut list, mut rust_write, mut write] = works(set);
    let calls = TURNS * set.samples.len();
    report(set.name, "parse", calls, &mut rust_parse, &mut parse);
    report(set.name, "parse and list", calls, &mut rust_parse, &mut list);
    report(set.name, "write", calls, &mut rust_write, &mut write);
}

fn report(set: &str, what: &str, calls: usize, rust: &mut Work, ours: &mut Work) {
    let (ratio, time) = median(ROUNDS, || round(rust), || round(ours));
    let call = time.as_nanos() as f64 / calls as f64;
    println!("{set:8} {what:15} {ratio:5.2} times the Rust's speed, {call:5.1} ns a call");
}

fn once(set: &str, work: &str) -> bool {
    let sets = sets();
    let Some(set) = sets.iter().find(|row| row.name == set) else { return false };
    let mut works = works(set);
    let Some((_, work)) = works.iter_mut().find(|(name, _)| *name == work) else { return false };
    work();
    println!("{}", set.samples.len());
    true
}

fn round((_, work): &mut Work) -> Duration {
    let start = clock::of_thread();
    (0..TURNS).for_each(|_| work());
    clock::of_thread() - start
}

/// The median of the ratios of rounds that follow one another, with our time in that round.
fn median(rounds: usize, mut rust: impl FnMut() -> Duration, mut ours: impl FnMut() -> Duration) -> (f64, Duration) {
    let mut ratios: Vec<(f64, Duration)> = (0..rounds)
        .map(|_| {
            let (rust, ours) = (rust(), ours());
            (rust.as_secs_f64() / ours.as_secs_f64(), ours)
        })
        .collect();
    ratios.sort_by(|a, b| a.0.total_cmp(&b.0));
    ratios[rounds / 2]
}

fn rust_parse(sample: &Sample) {
    let bytes = black_box(&sample.bytes[..]);
    let parsed = match sample.kind {
        Kind::Secure => C::parse_secure_payload(sample.code, bytes),
        _ => C::parse_frame(bytes),
    };
    black_box(&parsed);
}

fn our_parse(sample: &Sample, lent: &mut Lent) {
    let bytes = black_box(&sample.bytes[..]);
    let (at, len) = (bytes.as_ptr(), bytes.len());
    let Lent { idm, challenge, fields, parts } = lent;
    // SAFETY: `bytes` is lent for reading and `lent` for writing.
    let answer = unsafe {
        match sample.kind {
            Kind::Secure => ffi::felica_parse_secure_payload(sample.code, at, len, idm, challenge, fields, parts),
            _ => ffi::felica_parse_frame(at, len, idm, challenge, fields, parts),
        }
    };
    black_box((&answer, lent));
}

fn our_list(sample: &Sample, lent: &mut Lent, buffers: &mut Buffers) {
    let bytes = black_box(&sample.bytes[..]);
    let answer = match sample.kind {
        Kind::Secure => list_secure_payload(sample.code, bytes, lent, buffers),
        _ => list_frame(bytes, lent, buffers),
    };
    black_box((&answer, lent, buffers));
}

fn list_frame(bytes: &[u8], lent: &mut Lent, buffers: &mut Buffers) -> FelicaAnswer {
    let Lent { idm, challenge, fields, parts } = lent;
    let Buffers { first, second, numbers, places, modes } = buffers;
    // SAFETY: `bytes` is lent for reading, `lent` and `buffers` for writing.
    unsafe {
        ffi::felica_list_frame(
            bytes.as_ptr(),
            bytes.len(),
            first.as_mut_ptr(),
            first.len(),
            second.as_mut_ptr(),
            second.len(),
            numbers.as_mut_ptr(),
            numbers.len(),
            places.as_mut_ptr(),
            places.len(),
            modes.as_mut_ptr(),
            modes.len(),
            idm,
            challenge,
            fields,
            parts,
        )
    }
}

fn list_secure_payload(code: u8, bytes: &[u8], lent: &mut Lent, buffers: &mut Buffers) -> FelicaAnswer {
    let Lent { idm, challenge, fields, parts } = lent;
    let Buffers { first, second, numbers, places, modes } = buffers;
    // SAFETY: `bytes` is lent for reading, `lent` and `buffers` for writing.
    unsafe {
        ffi::felica_list_secure_payload(
            code,
            bytes.as_ptr(),
            bytes.len(),
            first.as_mut_ptr(),
            first.len(),
            second.as_mut_ptr(),
            second.len(),
            numbers.as_mut_ptr(),
            numbers.len(),
            places.as_mut_ptr(),
            places.len(),
            modes.as_mut_ptr(),
            modes.len(),
            idm,
            challenge,
            fields,
            parts,
        )
    }
}

fn rust_write(command: &Handed, out: &mut [u8]) {
    let written = writer::write(black_box(command), out);
    black_box((&written, out));
}

fn our_write(command: &Handed, out: &mut [u8]) {
    let written = felica::write(black_box(command), out);
    black_box((&written, out));
}

/// `list_log` against `oracle listing`, each a program of its own with the same log as its input.
fn measure_listings(list_log: &Path) -> bool {
    let own = env::current_exe().expect("the path of this program");
    let log = own.with_file_name("speed.log");
    let mut equal = true;
    for set in sets() {
        fs::write(&log, records(&set)).expect("a log");
        equal &= listed(list_log, &[], &log) == listed(&own, &["listing"], &log);
        let (ratio, time) = median(LISTINGS, || timed(&own, &["listing"], &log), || timed(list_log, &[], &log));
        println!(
            "{:8} {:15} {ratio:5.2} times the Rust's speed, {:.3} s a log",
            set.name,
            "listing",
            time.as_secs_f64()
        );
    }
    fs::remove_file(&log).expect("the log is there");
    if !equal {
        eprintln!("the two listings differ");
    }
    equal
}

/// A secure payload's bytes stand in a log as a frame that is refused.
fn records(set: &Set) -> Vec<u8> {
    let samples = set.samples.iter().cycle().take(LOG_RECORDS);
    samples.flat_map(|sample| [&[sample.bytes.len() as u8], &sample.bytes[..]].concat()).collect()
}

fn program(path: &Path, words: &[&str], log: &Path) -> Command {
    let mut command = Command::new(path);
    command.args(words).stdin(File::open(log).expect("the log"));
    command
}

fn listed(path: &Path, words: &[&str], log: &Path) -> Vec<u8> {
    program(path, words, log).output().unwrap_or_else(|error| panic!("{}: {error}", path.display())).stdout
}

fn timed(path: &Path, words: &[&str], log: &Path) -> Duration {
    let start = clock::of_children();
    let status = program(path, words, log).stdout(Stdio::null()).status().expect("it ran before");
    assert!(status.success());
    clock::of_children() - start
}
