//! The cases, group by group. Every generator hands each of its cases to `f`; all draw from fixed seeds.
use crate::built::{FORMS, Shape, built};
use crate::layouts::{Ending, LAYOUTS, Layout, layout};
use crate::random::Random;
use crate::values::Kind;

/// Kind, secure code (0 for frame and payload), bytes.
pub type Take<'a> = dyn FnMut(Kind, u8, &[u8]) + 'a;

type Generator = fn(&mut Take);

pub const GROUPS: [(&str, Generator); 9] = [
    ("frames of 0 to 3 bytes", short_frames),
    ("every code", every_code),
    ("counts", counts),
    ("elements", elements),
    ("single bytes", single_bytes),
    ("damaged", damaged),
    ("255 blocks", large),
    ("secure codes", secure_codes),
    ("random", random_bytes),
];

fn frame(f: &mut Take, payload: &[u8]) {
    let mut bytes = vec![(payload.len() + 1) as u8];
    bytes.extend(payload);
    f(Kind::Frame, 0, &bytes);
}

fn plain(f: &mut Take, payload: &[u8]) {
    f(Kind::Payload, 0, payload);
    frame(f, payload);
}

fn by_layout(f: &mut Take, row: &Layout, bytes: &[u8]) {
    match row.secure {
        true => f(Kind::Secure, row.code, bytes),
        false => plain(f, bytes),
    }
}

/// The bytes as they are, without the last one, and with one more.
fn and_one_off(f: &mut Take, row: &Layout, bytes: &[u8]) {
    by_layout(f, row, bytes);
    by_layout(f, row, &bytes[..bytes.len().saturating_sub(1)]);
    by_layout(f, row, &[bytes, &[0x00]].concat());
}

fn in_every_kind(f: &mut Take, code: u8, body: &[u8]) {
    plain(f, &[&[code], body].concat());
    f(Kind::Secure, code, body);
}

pub fn short_frames(f: &mut Take) {
    f(Kind::Frame, 0, &[]);
    for a in 0..=255 {
        f(Kind::Frame, 0, &[a]);
        for b in 0..=255 {
            f(Kind::Frame, 0, &[a, b]);
            for c in 0..=255 {
                f(Kind::Frame, 0, &[a, b, c]);
            }
        }
    }
}

pub fn every_code(f: &mut Take) {
    let mut random = Random::new(1);
    for code in 0..=255 {
        for length in (0..=80).chain(240..=262) {
            in_every_kind(f, code, &vec![0x00; length]);
            in_every_kind(f, code, &vec![0x01; length]);
            in_every_kind(f, code, &vec![0xFF; length]);
            in_every_kind(f, code, &(0..length).map(|at| at as u8).collect::<Vec<_>>());
            let mut drawn = Vec::new();
            random.fill(&mut drawn, length);
            in_every_kind(f, code, &drawn);
        }
    }
}

pub fn counts(f: &mut Take) {
    let mut random = Random::new(2);
    for row in &LAYOUTS {
        let least = Shape::least(row);
        for count in 0..=255 {
            if row.first.is_some() {
                announced(f, row, Shape { first: count, ..least }, &mut random);
            }
            for first in [0, 1, 32] {
                if row.second.is_some() {
                    announced(f, row, Shape { first, second: count, ..least }, &mut random);
                }
            }
            for forms in FORMS {
                let shape = Shape { blocks: count, forms, ..least };
                for first in [1, 16].into_iter().take(1 + usize::from(row.first.is_some())) {
                    if row.blocks {
                        announced(f, row, Shape { first, ..shape }, &mut random);
                    }
                }
            }
        }
    }
}

/// With exactly the bytes that the counts announce, one fewer and one more, and cut inside and behind the last list.
fn announced(f: &mut Take, row: &Layout, shape: Shape, random: &mut Random) {
    let bytes = built(row, shape, random);
    and_one_off(f, row, &bytes);
    let behind = row.ending.size() + if row.data { 16 * shape.blocks } else { 0 };
    let list_end = bytes.len() - behind;
    for end in [list_end.saturating_sub(2), list_end.saturating_sub(1), list_end] {
        by_layout(f, row, &bytes[..end]);
    }
}

pub fn elements(f: &mut Take) {
    let mut random = Random::new(3);
    for row in LAYOUTS.iter().filter(|row| row.blocks) {
        let least = Shape::least(row);
        let one = built(row, least, &mut random);
        let front = &one[..row.block_count_at(least.first)];
        for head in 0..=255u8 {
            for number in [[0x00, 0x00], [0xFF, 0x00], [0x00, 0x01], [0x34, 0x12], [0xFF, 0xFF]] {
                let size = if head & 0x80 == 0 { 3 } else { 2 };
                let element = &[head, number[0], number[1]][..size];
                listed(f, row, &[front, &[1], element].concat(), 1);
                listed(f, row, &[front, &[2, 0x81, 0x05], element].concat(), 2);
                listed(f, row, &[front, &[2, 0x71, 0x05, 0x00], element].concat(), 2);
                listed(f, row, &[front, &[2], element, &[0x80, 0x00]].concat(), 2);
            }
        }
    }
}

/// The block list with its data, cut at each byte of its last two elements and around the end.
fn listed(f: &mut Take, row: &Layout, bytes: &[u8], blocks: usize) {
    let data = if row.data { vec![0x5A; 16 * blocks] } else { Vec::new() };
    and_one_off(f, row, &[bytes, &data].concat());
    for end in bytes.len().saturating_sub(6)..=bytes.len() {
        by_layout(f, row, &bytes[..end]);
    }
}

pub fn single_bytes(f: &mut Take) {
    let mut random = Random::new(4);
    for row in &LAYOUTS {
        let good = built(row, Shape::least(row), &mut random);
        if row.ending.size() == 2 || row.ending == Ending::Polling {
            every_pair(f, row, &good, good.len() - 2);
        }
        if row.ending == Ending::Parameter {
            every_pair(f, row, &good, good.len() - 4);
            parameters(f, row, &good, &mut random);
        }
        if row.selector.is_some() {
            selectors(f, row, &mut random);
        }
        if row.ending == Ending::Words {
            (0..4).for_each(|at| every_value(f, row, &good, good.len() - 4 + at));
        }
    }
}

fn every_pair(f: &mut Take, row: &Layout, good: &[u8], at: usize) {
    let mut bytes = good.to_vec();
    for pair in 0..=0xFFFFu16 {
        bytes[at..at + 2].copy_from_slice(&pair.to_be_bytes());
        by_layout(f, row, &bytes);
    }
    every_value(f, row, good, at);
    every_value(f, row, good, at + 1);
}

fn every_value(f: &mut Take, row: &Layout, good: &[u8], at: usize) {
    let mut bytes = good.to_vec();
    for value in 0..=255 {
        bytes[at] = value;
        and_one_off(f, row, &bytes);
    }
}

/// Every value of each byte alone, and several wrong at once: the order of the tests shows.
fn parameters(f: &mut Take, row: &Layout, good: &[u8], random: &mut Random) {
    let start = good.len() - 8;
    (start..good.len()).for_each(|at| every_value(f, row, good, at));
    for _ in 0..50_000 {
        let mut bytes = good.to_vec();
        for byte in &mut bytes[start..] {
            if random.once_in(3) {
                *byte = random.one_of(&[0x00, 0x01, 0x02, 0x80, 0xFF]);
            }
        }
        and_one_off(f, row, &bytes);
    }
}

fn selectors(f: &mut Take, row: &Layout, random: &mut Random) {
    for first in [0, 1, 2, 16, 17, 32, 33] {
        let mut bytes = built(row, Shape { first, ..Shape::least(row) }, random);
        for value in 0..=255 {
            bytes[9] = value;
            and_one_off(f, row, &bytes);
            (8..12).for_each(|end| by_layout(f, row, &bytes[..end]));
        }
    }
}

pub fn damaged(f: &mut Take) {
    let mut random = Random::new(5);
    for row in &LAYOUTS {
        for turn in 0..250 {
            let shape = if turn == 0 { Shape::least(row) } else { Shape::drawn(row, &mut random) };
            let mut good = built(row, shape, &mut random);
            by_layout(f, row, &good);
            damage(f, row, &mut good, &mut random);
            (0..good.len()).for_each(|end| by_layout(f, row, &good[..end]));
            by_layout(f, row, &[&good[..], &[random.byte()]].concat());
            by_layout(f, row, &[&good[..], &[0x00, 0x00]].concat());
            wrong_length(f, row, &good);
        }
    }
}

fn damage(f: &mut Take, row: &Layout, good: &mut [u8], random: &mut Random) {
    for at in 0..good.len() {
        let right = good[at];
        for value in [0x00, 0x01, 0x7F, 0x80, 0xFF, right ^ 0x80, right.wrapping_add(1), random.byte()] {
            good[at] = value;
            by_layout(f, row, good);
        }
        good[at] = right;
    }
}

fn wrong_length(f: &mut Take, row: &Layout, payload: &[u8]) {
    if row.secure {
        return;
    }
    let right = (payload.len() + 1) as u8;
    for length in [0, 1, right.wrapping_sub(1), right.wrapping_add(1), right ^ 0x80, 0xFF] {
        f(Kind::Frame, 0, &[&[length], payload].concat());
    }
}

pub fn large(f: &mut Take) {
    let mut random = Random::new(6);
    for row in LAYOUTS.iter().filter(|row| row.blocks) {
        let firsts = if row.first.is_some() { 1..=16 } else { 0..=0 };
        for first in firsts {
            for forms in FORMS {
                let shape = Shape { first, blocks: 255, forms, ..Shape::least(row) };
                let bytes = built(row, shape, &mut random);
                and_one_off(f, row, &bytes);
                by_layout(f, row, &bytes[..bytes.len() - 2]);
                by_layout(f, row, &[&bytes[..], &[0xFF, 0xFF]].concat());
                (0..bytes.len()).step_by(11).for_each(|end| by_layout(f, row, &bytes[..end]));
            }
        }
    }
    around_255(f, &mut random);
}

/// Frames whose size is about 255.
fn around_255(f: &mut Take, random: &mut Random) {
    for code in [0x06, 0x08] {
        let row = layout(code).expect("a plain code");
        for first in 1..=16 {
            for forms in FORMS {
                for blocks in if row.data { 9..=14 } else { 65..=125 } {
                    let shape = Shape { first, blocks, forms, ..Shape::least(row) };
                    and_one_off(f, row, &built(row, shape, random));
                }
            }
        }
    }
}

pub fn secure_codes(f: &mut Take) {
    let mut random = Random::new(7);
    let bodies: Vec<Vec<u8>> = LAYOUTS.iter().map(|row| built(row, Shape::least(row), &mut random)).collect();
    for code in 0..=255 {
        for body in &bodies {
            for tail in [0, 1, 2, 16, 255, 1000] {
                let mut bytes = body.clone();
                random.fill(&mut bytes, tail);
                f(Kind::Secure, code, &bytes);
            }
        }
    }
    for row in LAYOUTS.iter().filter(|row| row.secure) {
        (0..=600).for_each(|count| f(Kind::Secure, row.code, &vec![count as u8; count]));
        for blocks in [1, 2, 15, 16, 254, 255] {
            for forms in FORMS {
                for behind in (0..=20).chain([255, 256, 600, 1000]) {
                    let shape = Shape { blocks, forms, behind, ..Shape::least(row) };
                    f(Kind::Secure, row.code, &built(row, shape, &mut random));
                }
            }
        }
    }
}

/// Bytes behind a known code, mostly small ones, so that counts pass often.
pub fn random_bytes(f: &mut Take) {
    let mut random = Random::new(8);
    let mut bytes = Vec::new();
    for _ in 0..3_000_000 {
        let row = random.one_of(&LAYOUTS);
        bytes.clear();
        if !row.secure {
            bytes.push(row.code);
        }
        if row.idm {
            random.fill(&mut bytes, 8);
        }
        let length = if random.once_in(50) { random.within(80, 700) } else { random.within(0, 40) };
        for _ in 0..length {
            bytes.push(likely(&mut random));
        }
        by_layout(f, &row, &bytes);
    }
}

fn likely(random: &mut Random) -> u8 {
    match random.within(0, 7) {
        0..=2 => random.within(0, 3) as u8,
        3 | 4 => random.byte() & 0x0F,
        5 => random.byte() | 0x80,
        6 => 0,
        _ => random.byte(),
    }
}
