//! The inputs of the benchmark: commands of everyday size, the same in every run.
use crate::built::{Forms, Shape, built};
use crate::layouts::{Behind, LAYOUTS, Layout, layout};
use crate::random::Random;
use crate::rust_side;
use crate::values::{Kind, Values};

pub struct Sample {
    pub kind: Kind,
    pub code: u8,
    pub bytes: Vec<u8>,
    pub command: Values,
}

pub struct Set {
    pub name: &'static str,
    pub samples: Vec<Sample>,
}

const SAMPLES: usize = 1000;

/// Read, Write, Polling, Request Service and Request Response: how many of each in a hundred.
const MIX: [(u8, usize); 5] = [(0x06, 40), (0x08, 20), (0x00, 15), (0x02, 15), (0x04, 10)];

pub fn sets() -> [Set; 3] {
    let mut random = Random::new(7);
    let mixed: Vec<u8> = MIX.iter().flat_map(|&(code, share)| vec![code; share]).collect();
    let every: Vec<u8> = LAYOUTS.iter().map(|row| row.code).collect();
    [set("mix", &mixed, &mut random), set("even", &every, &mut random), set("polling", &[0x00], &mut random)]
}

/// Each entry of `codes` equally often, shuffled.
fn set(name: &'static str, codes: &[u8], random: &mut Random) -> Set {
    let mut drawn: Vec<u8> = codes.iter().copied().cycle().take(SAMPLES / codes.len() * codes.len()).collect();
    for at in (1..drawn.len()).rev() {
        drawn.swap(at, random.within(0, at));
    }
    Set { name, samples: drawn.into_iter().map(|code| sample(code, random)).collect() }
}

fn sample(code: u8, random: &mut Random) -> Sample {
    let layout = layout(code).expect("a row of the layouts");
    let mut bytes = built(layout, everyday(layout), random);
    let kind = if layout.secure { Kind::Secure } else { Kind::Frame };
    if kind == Kind::Frame {
        bytes.insert(0, bytes.len() as u8 + 1);
    }
    let command = rust_side::answer(kind, code, &bytes).expect("a command");
    Sample { kind, code, bytes, command }
}

/// One service with four blocks to read or two to write, else four codes.
fn everyday(layout: &Layout) -> Shape {
    Shape {
        first: if layout.blocks { 1 } else { 4 },
        second: 2,
        blocks: if layout.data { 2 } else { 4 },
        forms: Forms::Mixed,
        behind: if layout.behind == Behind::Package { 16 } else { 0 },
    }
}
