//! Runs every case through both parsers, the list reader and, where it is accepted, the writer; then commands of all sorts through the writer.
use crate::cases::GROUPS;
use crate::random::Random;
use crate::tally::{Arisen, Tally};
use crate::values::{Answer, Kind, Values, shown, shown_case};
use crate::{check_lists, check_memory, check_writer, handed, ours, rust_side};
use std::time::Instant;

const HANDED: u64 = 1_500_000;
const SHOWN: u64 = 20;

#[derive(Default)]
struct Run {
    tally: Tally,
    arisen: Arisen,
    shown: u64,
}

/// True where there is no difference, and every number and every command arose.
pub fn run() -> bool {
    let mut run = Run::default();
    let mut total = Tally::default();
    let start = Instant::now();
    Tally::print_head();
    for (name, generate) in GROUPS {
        let start = Instant::now();
        generate(&mut |kind, code, bytes| run.case(kind, code, bytes));
        run.tally.print(name, start);
        total.add(&std::mem::take(&mut run.tally));
    }
    total.print("parser, all groups", start);
    let start = Instant::now();
    run.writer_cases();
    run.tally.print("writer", start);
    total.add(&run.tally);
    println!("differences: {}", total.differences);
    run.arisen.print() && total.differences == 0
}

impl Run {
    fn case(&mut self, kind: Kind, code: u8, bytes: &[u8]) {
        let rust = rust_side::answer(kind, code, bytes);
        self.tally.count(rust.is_ok());
        self.arisen.count(kind, &rust);
        let result = match ours::answer(kind, code, bytes) {
            Ok(ours) if ours == rust => further(kind, code, bytes, &rust),
            Ok(ours) => Err(format!("ours {}, felica-rs {}", shown(&ours), shown(&rust))),
            Err(place) => Err(place),
        };
        if let Err(text) = result {
            self.difference(&format!("{}: {text}", shown_case(kind, code, bytes)));
        }
    }

    fn writer_cases(&mut self) {
        let mut random = Random::new(9);
        for _ in 0..HANDED {
            let handed = handed::drawn(&mut random);
            match writer_case(&handed, &mut random) {
                Ok(written) => self.tally.count(written),
                Err(text) => self.difference(&format!("{handed:02X?}: {text}")),
            }
        }
    }

    fn difference(&mut self, text: &str) {
        self.tally.differences += 1;
        self.shown += 1;
        if self.shown <= SHOWN {
            println!("DIFFERENCE {text}");
        }
    }
}

fn further(kind: Kind, code: u8, bytes: &[u8], answer: &Answer) -> Result<(), String> {
    check_memory::check(kind, code, bytes, answer)?;
    check_lists::check(kind, code, bytes, answer)?;
    match answer {
        Ok(expected) => check_writer::check_accepted(kind, bytes, expected),
        Err(_) => Ok(()),
    }
}

/// In a buffer that holds every command, and in one of about its size.
fn writer_case(handed: &Values, random: &mut Random) -> Result<bool, String> {
    let written = check_writer::check(handed, 5000)?;
    let length = written.as_ref().map_or(0, |bytes| bytes.len());
    let size = random.one_of(&[0, 1, length.saturating_sub(1), length, length + 1]);
    let fits = check_writer::check(handed, size)?.is_some();
    if fits != (written.is_some() && length <= size) {
        return Err(format!("the writer with a buffer of {size} for {length} bytes"));
    }
    Ok(written.is_some())
}
