//! What our parser answers, as plain values: the lists and the data are read from the payload at the parts that it names.
use crate::layouts::{Behind, layout};
use crate::values::{Answer, Kind, Values, payload};
use felica::{Command, Parsed, Part};

/// Err says which part is not where its layout puts it.
pub fn answer(kind: Kind, code: u8, bytes: &[u8]) -> Result<Answer, String> {
    let parsed = match kind {
        Kind::Frame => felica::parse_frame(bytes),
        Kind::Payload => felica::parse_payload(bytes),
        Kind::Secure => felica::parse_secure_payload(code, bytes),
    };
    answer_of(parsed, payload(kind, bytes))
}

pub fn answer_of(parsed: Result<Parsed, felica::Refusal>, payload: &[u8]) -> Result<Answer, String> {
    match parsed {
        Ok(Parsed { command, long }) => {
            same_long(long, long_by_layout(command.code, payload)?)?;
            values(&command, payload).map(Ok)
        }
        Err(refusal) => Ok(Err(refusal.into())),
    }
}

fn values(command: &Command, payload: &[u8]) -> Result<Values, String> {
    check_places(command, payload)?;
    let elements = elements(payload, command.block_list).ok_or("the block list leaves the payload")?;
    Ok(Values {
        code: command.code,
        idm: command.idm,
        challenge: command.challenge,
        selector: command.selector,
        number: command.number,
        index: command.index,
        option: command.option,
        choice: command.choice,
        first: codes(payload, command.first).ok_or("the first codes leave the payload")?,
        second: codes(payload, command.second).ok_or("the second codes leave the payload")?,
        numbers: elements.numbers,
        places: elements.places,
        modes: elements.modes,
        data: bytes(payload, command.data).ok_or("the data leaves the payload")?,
        package: bytes(payload, command.package).ok_or("the package leaves the payload")?,
    })
}

fn bytes(payload: &[u8], part: Part) -> Option<Vec<u8>> {
    Some(payload.get(part.start..)?.get(..part.count)?.to_vec())
}

fn codes(payload: &[u8], part: Part) -> Option<Vec<u16>> {
    let pairs = payload.get(part.start..)?.get(..part.count.checked_mul(2)?)?;
    Some(pairs.chunks_exact(2).map(|pair| u16::from_le_bytes([pair[0], pair[1]])).collect())
}

#[derive(Default)]
struct Elements {
    numbers: Vec<u16>,
    places: Vec<u8>,
    modes: Vec<u8>,
    long: u16,
    end: usize,
}

fn elements(payload: &[u8], part: Part) -> Option<Elements> {
    let mut read = Elements { end: part.start, ..Elements::default() };
    for _ in 0..part.count {
        let head = *payload.get(read.end)?;
        let low = *payload.get(read.end + 1)?;
        let high = if head & 0x80 == 0 { *payload.get(read.end + 2)? } else { 0 };
        read.numbers.push(u16::from_le_bytes([low, high]));
        read.places.push(head & 0x0F);
        read.modes.push(head >> 4 & 0x07);
        read.long += u16::from(head & 0x80 == 0);
        read.end += if head & 0x80 == 0 { 3 } else { 2 };
    }
    Some(read)
}

/// Each part begins behind what stands before it in field order, with the count that the payload has there; a part that the layout lacks is 0 and 0.
fn check_places(command: &Command, payload: &[u8]) -> Result<(), String> {
    let row = layout(command.code).ok_or_else(|| format!("a command with the code {:02X}", command.code))?;
    let mut at = row.front();
    let first = counted(payload, row.first.is_some(), &mut at)?;
    at += 2 * first.count;
    let second = counted(payload, row.second.is_some(), &mut at)?;
    at += 2 * second.count;
    let block_list = counted(payload, row.blocks, &mut at)?;
    if row.blocks {
        at = elements(payload, block_list).ok_or("the layout leaves the payload")?.end;
    }
    let data = if row.data { Part { start: at, count: 16 * block_list.count } } else { NONE };
    at += data.count + row.ending.size();
    let left = payload.len().checked_sub(at).ok_or("the layout leaves the payload")?;
    let package = if row.behind == Behind::Package { Part { start: at, count: left } } else { NONE };
    same("first codes", command.first, first)?;
    same("second codes", command.second, second)?;
    same("block list", command.block_list, block_list)?;
    same("data", command.data, data)?;
    same("package", command.package, package)
}

/// How many elements of an accepted payload are long.
pub fn long_by_layout(code: u8, payload: &[u8]) -> Result<u16, String> {
    let row = layout(code).ok_or_else(|| format!("a command with the code {code:02X}"))?;
    let mut at = row.front();
    for there in [row.first.is_some(), row.second.is_some()] {
        at += 2 * counted(payload, there, &mut at)?.count;
    }
    let block_list = counted(payload, row.blocks, &mut at)?;
    Ok(elements(payload, block_list).ok_or("the layout leaves the payload")?.long)
}

fn same_long(ours: u16, right: u16) -> Result<(), String> {
    if ours == right {
        return Ok(());
    }
    Err(format!("{ours} elements said to be long, by the layout {right}"))
}

const NONE: Part = Part { start: 0, count: 0 };

fn counted(payload: &[u8], there: bool, at: &mut usize) -> Result<Part, String> {
    if !there {
        return Ok(NONE);
    }
    let count = *payload.get(*at).ok_or("the layout leaves the payload")?;
    *at += 1;
    Ok(Part { start: *at, count: count.into() })
}

fn same(name: &str, ours: Part, right: Part) -> Result<(), String> {
    if (ours.start, ours.count) == (right.start, right.count) {
        return Ok(());
    }
    Err(format!("{name}: start {} count {}, by the layout {} and {}", ours.start, ours.count, right.start, right.count))
}
