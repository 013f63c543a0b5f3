//! Compares felica-rs, unchanged, with our parser, list reader and writer, in one process.
extern crate derives as thiserror;
extern crate derives as zeroize;

mod built;
mod cases;
mod check_lists;
mod check_memory;
mod check_writer;
mod clock;
mod compare;
#[allow(dead_code, unused_imports)]
mod felica_rs;
mod handed;
mod layouts;
mod listing;
mod ours;
mod random;
mod rust_side;
mod samples;
mod speed;
mod tally;
mod texts;
mod values;
mod writer;

use felica_rs::{clf, driver};
use std::env;
use std::process::ExitCode;

fn main() -> ExitCode {
    let word = env::args().nth(1);
    let good = match word.as_deref() {
        Some("compare") => compare::run(),
        Some("listing") => listing::run(),
        Some("speed") => speed::run(),
        _ => {
            eprintln!("usage: oracle compare | oracle speed LIST_LOG | oracle listing < LOG");
            return ExitCode::from(2);
        }
    };
    if good { ExitCode::SUCCESS } else { ExitCode::FAILURE }
}
