//! Commands for the writer, many of which no accepted bytes give.
use crate::built::{Shape, built};
use crate::layouts::LAYOUTS;
use crate::random::Random;
use crate::rust_side;
use crate::values::{Kind, Values};

/// A command that felica-rs reads from good bytes, with up to three changes.
pub fn drawn(random: &mut Random) -> Values {
    let row = random.one_of(&LAYOUTS);
    let bytes = built(&row, Shape::drawn(&row, random), random);
    let kind = if row.secure { Kind::Secure } else { Kind::Payload };
    let mut handed = rust_side::answer(kind, row.code, &bytes).expect("felica-rs reads the bytes built by a layout");
    for _ in 0..random.one_of(&[0, 0, 1, 1, 1, 2, 3]) {
        change(&mut handed, random);
    }
    handed
}

fn change(handed: &mut Values, random: &mut Random) {
    match random.within(0, 18) {
        0 => handed.code = random.byte(),
        1 => handed.code = random.one_of(&LAYOUTS).code,
        2 => handed.idm[random.within(0, 7)] = random.byte(),
        3 => handed.idm = [0; 8],
        4 => handed.challenge[random.within(0, 15)] = random.byte(),
        5 => handed.challenge = [0; 16],
        6 => handed.selector = random.one_of(&[0, 1, 2, 0xFF]),
        7 => handed.number = random.one_of(&[0, 1, 0xFF00, 0xFFFF]),
        8 => handed.index = random.one_of(&[0, 1, 0xFF00]),
        9 => handed.option = random.one_of(&[0, 1, 2, 3, 0xFF]),
        10 => handed.choice = random.one_of(&[0, 1, 2, 3, 7, 8, 0x0F, 0x10]),
        11 => resize(&mut handed.first, random),
        12 => resize(&mut handed.second, random),
        13 => one_list(handed, random),
        14 => all_lists(handed, random),
        15 => element(handed, random),
        16 => handed.data.resize(random.one_of(&[0, 1, 15, 16, 17, 32, 208, 4080]), 0x11),
        17 => handed.package.resize(random.one_of(&[0, 1, 2, 16, 300]), 0x22),
        _ => *handed = Values { code: handed.code, ..Values::default() },
    }
}

fn resize(codes: &mut Vec<u16>, random: &mut Random) {
    codes.resize(random.one_of(&[0, 1, 2, 15, 16, 17, 31, 32, 33, 34, 255, 256, 257]), 0x1234);
}

fn one_list(handed: &mut Values, random: &mut Random) {
    let blocks = handed.numbers.len();
    let size = random.one_of(&[0, 1, 255, 256, blocks + 1, blocks.saturating_sub(1)]);
    match random.within(0, 2) {
        0 => handed.numbers.resize(size, 0x0100),
        1 => handed.places.resize(size, 0x03),
        _ => handed.modes.resize(size, 0x04),
    }
}

/// Lists of one length, and most often the data that belongs to it.
fn all_lists(handed: &mut Values, random: &mut Random) {
    let size = random.one_of(&[0, 1, 2, 13, 14, 80, 119, 120, 121, 122, 254, 255, 256, 257, 300]);
    handed.numbers.resize(size, random.one_of(&[0x00FF, 0x0100]));
    handed.places.resize(size, 0x0F);
    handed.modes.resize(size, 0x07);
    if !handed.data.is_empty() && !random.once_in(4) {
        handed.data.resize(16 * size, 0x33);
    }
}

fn element(handed: &mut Values, random: &mut Random) {
    let kind = random.within(0, 2);
    let number = random.one_of(&[0x0000, 0x00FF, 0x0100, 0xFFFF]);
    let (place, mode) = (random.one_of(&[0x0F, 0x10, 0x80, 0xFF]), random.one_of(&[0x07, 0x08, 0x80, 0xFF]));
    match kind {
        0 => set_one(&mut handed.numbers, number, random),
        1 => set_one(&mut handed.places, place, random),
        _ => set_one(&mut handed.modes, mode, random),
    }
}

fn set_one<T>(list: &mut [T], value: T, random: &mut Random) {
    if let Some(last) = list.len().checked_sub(1) {
        list[random.within(0, last)] = value;
    }
}
