//! The writer: against the writer of this program, against both parsers, and against the bytes that gave the command.
use crate::layouts::{Behind, layout};
use crate::values::{Kind, Refusal, Values, payload, shown};
use crate::{ours, rust_side, writer};

const FILL: u8 = 0xA5;

/// Hands the writer what the accepted bytes gave.
pub fn check_accepted(kind: Kind, bytes: &[u8], expected: &Values) -> Result<(), String> {
    let room = bytes.len() + 8;
    let longer = longer(expected, payload(kind, bytes))?;
    let accepted = bytes.len() + usize::from(kind == Kind::Payload);
    let shortest = accepted - longer;
    let Some(written) = check(expected, room)? else {
        let fits = kind != Kind::Payload || shortest <= 255;
        return if fits { Err("the writer refused what was accepted".into()) } else { Ok(()) };
    };
    if written.len() != shortest {
        return Err(format!("the writer wrote {} bytes instead of {shortest}", written.len()));
    }
    let same = if kind == Kind::Payload { &written[1..] } else { &written };
    if longer == 0 && same != bytes {
        return Err(format!("the writer wrote other bytes than the accepted ones: {written:02X?}"));
    }
    check_sizes(expected, &written)
}

/// How many bytes the accepted form has more than the shortest: one for each long form of a number below 256, and the ignored tail.
fn longer(expected: &Values, payload: &[u8]) -> Result<usize, String> {
    let row = layout(expected.code).ok_or("a command of an unknown code")?;
    if !row.blocks {
        return Ok(0);
    }
    let mut at = row.block_count_at(expected.first.len()) + 1;
    let mut longer = 0;
    for number in &expected.numbers {
        let long = payload[at] & 0x80 == 0;
        longer += usize::from(long && *number < 256);
        at += if long { 3 } else { 2 };
    }
    let tail = payload.len() - at - expected.data.len();
    if tail > 0 && row.behind != Behind::Ignored {
        return Err("bytes behind a layout that ends where the bytes end".into());
    }
    Ok(longer + tail)
}

/// Both writers with a buffer of this size: the same answer, and the same buffer after the call. What was written is read back by both parsers.
pub fn check(expected: &Values, size: usize) -> Result<Option<Vec<u8>>, String> {
    let handed = expected.handed();
    let (mut our_buffer, mut buffer) = (vec![FILL; size + 4], vec![FILL; size + 4]);
    let ours = felica::write(&handed, &mut our_buffer[..size]).map_err(Refusal::from);
    let right =
        writer::write(&handed, &mut buffer[..size]).map_err(|(number, code)| Refusal { number, code: Some(code) });
    if ours != right {
        return Err(format!("the writer with a buffer of {size}: {} instead of {}", outcome(ours), outcome(right)));
    }
    if our_buffer != buffer {
        return Err(format!("the writer with a buffer of {size} left {our_buffer:02X?} instead of {buffer:02X?}"));
    }
    let Ok(length) = right else {
        let untouched = our_buffer.iter().all(|byte| *byte == FILL);
        return if untouched { Ok(None) } else { Err("a refusal of the writer touched the buffer".into()) };
    };
    if our_buffer[length..].iter().any(|byte| *byte != FILL) {
        return Err("the writer touched bytes behind what it wrote".into());
    }
    our_buffer.truncate(length);
    read_back(expected, &our_buffer)?;
    Ok(Some(our_buffer))
}

fn outcome(written: Result<usize, Refusal>) -> String {
    match written {
        Ok(length) => format!("{length} bytes"),
        Err(refusal) => refusal.to_string(),
    }
}

fn read_back(expected: &Values, written: &[u8]) -> Result<(), String> {
    let secure = layout(expected.code).is_some_and(|row| row.secure);
    let kind = if secure { Kind::Secure } else { Kind::Frame };
    let ours = ours::answer(kind, expected.code, written)?;
    let rust = rust_side::answer(kind, expected.code, written);
    if ours.as_ref() != Ok(expected) || rust.as_ref() != Ok(expected) {
        let (ours, rust) = (shown(&ours), shown(&rust));
        return Err(format!("what was written, {written:02X?}, is read back as {ours} by ours, {rust} by felica-rs"));
    }
    Ok(())
}

/// A buffer that just holds the shortest form, and one that lacks a byte.
fn check_sizes(expected: &Values, written: &[u8]) -> Result<(), String> {
    if check(expected, written.len())?.as_deref() != Some(written) {
        return Err("the writer does not fill a buffer of just its size".into());
    }
    match written.len().checked_sub(1) {
        Some(size) if check(expected, size)?.is_some() => Err("the writer wrote to a buffer that is too short".into()),
        _ => Ok(()),
    }
}
