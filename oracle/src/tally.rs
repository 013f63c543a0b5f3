//! What is counted, and the table that is printed.
use crate::layouts::LAYOUTS;
use crate::values::{Answer, Kind};
use std::time::Instant;

#[derive(Default)]
pub struct Tally {
    pub cases: u64,
    pub accepted: u64,
    pub refused: u64,
    pub differences: u64,
}

impl Tally {
    pub fn count(&mut self, accepted: bool) {
        self.cases += 1;
        self.accepted += u64::from(accepted);
        self.refused += u64::from(!accepted);
    }

    pub fn add(&mut self, other: &Tally) {
        self.cases += other.cases;
        self.accepted += other.accepted;
        self.refused += other.refused;
        self.differences += other.differences;
    }

    pub fn print_head() {
        println!(
            "{:24}{:>12}{:>12}{:>12}{:>13}{:>10}",
            "group", "cases", "accepted", "refused", "differences", "seconds"
        );
    }

    pub fn print(&self, name: &str, start: Instant) {
        let Tally { cases, accepted, refused, differences } = self;
        let seconds = start.elapsed().as_secs_f64();
        println!("{name:24}{cases:>12}{accepted:>12}{refused:>12}{differences:>13}{seconds:>10.1}");
    }
}

/// How often each number, 0 for a command, arose with each code, by kind.
pub struct Arisen(Vec<[[u64; 256]; 21]>);

impl Default for Arisen {
    fn default() -> Self {
        Arisen(vec![[[0; 256]; 21]; 3])
    }
}

impl Arisen {
    pub fn count(&mut self, kind: Kind, answer: &Answer) {
        let (number, code) = match answer {
            Ok(expected) => (0, expected.code),
            Err(refusal) => (refusal.number, refusal.code.unwrap_or(0)),
        };
        self.0[kind as usize][usize::from(number)][usize::from(code)] += 1;
    }

    /// False where a number or a command never arose: then the cases prove less than they should.
    pub fn print(&self) -> bool {
        print!("parser cases by refusal:");
        let mut all = true;
        for number in 1..=20 {
            let count: u64 = self.0.iter().flat_map(|kind| kind[number]).sum();
            print!(" {number}:{count}");
            all &= count > 0;
        }
        println!();
        for row in &LAYOUTS {
            let kinds: &[Kind] = if row.secure { &[Kind::Secure] } else { &[Kind::Frame, Kind::Payload] };
            let arose = |kind: &Kind| self.0[*kind as usize][0][usize::from(row.code)] > 0;
            if !kinds.iter().all(arose) {
                println!("no accepted case of {:02X}", row.code);
                all = false;
            }
        }
        all
    }
}
