//! Bytes built by a layout: the payload of a command, with counts of the caller's choice and every other value drawn from the accepted ones.
use crate::layouts::{Behind, Ending, Layout};
use crate::random::Random;

#[derive(Clone, Copy)]
pub enum Forms {
    Short,
    Long,
    Mixed,
}

pub const FORMS: [Forms; 3] = [Forms::Short, Forms::Long, Forms::Mixed];

/// The counts, which may be outside their ranges, and how many bytes stand behind where a layout allows any.
#[derive(Clone, Copy)]
pub struct Shape {
    pub first: usize,
    pub second: usize,
    pub blocks: usize,
    pub forms: Forms,
    pub behind: usize,
}

impl Shape {
    /// The least that the layout accepts.
    pub fn least(layout: &Layout) -> Self {
        let least = |range: Option<(usize, usize)>| range.map_or(0, |(least, _)| least);
        Shape {
            first: least(layout.first),
            second: least(layout.second),
            blocks: usize::from(layout.blocks),
            forms: Forms::Short,
            behind: 0,
        }
    }

    /// Any that the layout accepts, more often small than large.
    pub fn drawn(layout: &Layout, random: &mut Random) -> Self {
        let mut count = |range: Option<(usize, usize)>| {
            let (least, greatest) = range.unwrap_or((0, 0));
            let middle = greatest.min(least + 3);
            if random.once_in(4) { random.within(least, greatest) } else { random.within(least, middle) }
        };
        let (first, second) = (count(layout.first), count(layout.second));
        let blocks = count(layout.blocks.then_some((1, if layout.data { 13 } else { 60 })));
        let behind = if random.once_in(2) { 0 } else { random.within(0, 40) };
        Shape { first, second, blocks, forms: random.one_of(&FORMS), behind }
    }
}

pub fn built(layout: &Layout, shape: Shape, random: &mut Random) -> Vec<u8> {
    let mut bytes = Vec::new();
    if !layout.secure {
        bytes.push(layout.code);
    }
    if layout.idm {
        random.fill(&mut bytes, 8);
    }
    if let Some(greatest) = layout.selector {
        bytes.push(random.within(0, greatest.into()) as u8);
    }
    if layout.first.is_some() {
        put_codes(&mut bytes, shape.first, random);
    }
    if layout.second.is_some() {
        put_codes(&mut bytes, shape.second, random);
    }
    if layout.blocks {
        bytes.push(shape.blocks as u8);
        (0..shape.blocks).for_each(|_| put_element(&mut bytes, shape.forms, random));
    }
    if layout.data {
        random.fill(&mut bytes, 16 * shape.blocks);
    }
    put_ending(&mut bytes, layout.ending, random);
    if layout.behind != Behind::Nothing {
        random.fill(&mut bytes, shape.behind);
    }
    bytes
}

fn put_codes(bytes: &mut Vec<u8>, count: usize, random: &mut Random) {
    bytes.push(count as u8);
    random.fill(bytes, 2 * count);
}

fn put_element(bytes: &mut Vec<u8>, forms: Forms, random: &mut Random) {
    let short = match forms {
        Forms::Short => true,
        Forms::Long => false,
        Forms::Mixed => random.once_in(2),
    };
    let head = random.byte() & 0x7F;
    let low = if random.once_in(4) { random.one_of(&[0x00, 0xFF]) } else { random.byte() };
    match short {
        true => bytes.extend([head | 0x80, low]),
        false => bytes.extend([head, low, random.one_of(&[0x00, 0x00, 0x01, 0xFF])]),
    }
}

fn put_ending(bytes: &mut Vec<u8>, ending: Ending, random: &mut Random) {
    match ending {
        Ending::Bytes(count) => random.fill(bytes, count),
        Ending::Word => random.fill(bytes, 2),
        Ending::Words => random.fill(bytes, 4),
        Ending::Reserved => bytes.extend([0, 0]),
        Ending::Polling => {
            random.fill(bytes, 2);
            bytes.push(random.one_of(&[0x00, 0x01, 0x02]));
            bytes.push(random.one_of(&[0x00, 0x01, 0x03, 0x07, 0x0F]));
        }
        Ending::Parameter => {
            let (encryption, packet) = (random.byte() & 1, random.byte() & 1);
            bytes.extend([0, 0, 0, 0, encryption, packet, 0, 0]);
        }
    }
}
