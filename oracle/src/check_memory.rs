//! The four arrays that parser and list reader for C write: all of them with a command, none with a refusal.
use crate::ours;
use crate::values::{Answer, Kind, Refusal, Values, payload};
use felica::ffi;

#[derive(Clone, PartialEq, Eq)]
struct Memory {
    idm: [u8; 8],
    challenge: [u8; 16],
    fields: [u16; 5],
    parts: [usize; 10],
}

const FILLED: Memory = Memory { idm: [0xA1; 8], challenge: [0xB2; 16], fields: [0xC3D4; 5], parts: [usize::MAX; 10] };
const ZERO: Memory = Memory { idm: [0; 8], challenge: [0; 16], fields: [0; 5], parts: [0; 10] };

pub fn check(kind: Kind, code: u8, bytes: &[u8], answer: &Answer) -> Result<(), String> {
    let (start, size) = (bytes.as_ptr(), bytes.len());
    let long_count = match answer {
        Ok(expected) => ours::long_by_layout(expected.code, payload(kind, bytes))?,
        Err(_) => 0,
    };
    check_call("parser", answer, long_count, &mut |memory| {
        let Memory { idm, challenge, fields, parts } = memory;
        // SAFETY: start and size are those of `bytes`, and the four arrays are there and apart.
        unsafe {
            match kind {
                Kind::Frame => ffi::felica_parse_frame(start, size, idm, challenge, fields, parts),
                Kind::Payload => ffi::felica_parse_payload(start, size, idm, challenge, fields, parts),
                Kind::Secure => ffi::felica_parse_secure_payload(code, start, size, idm, challenge, fields, parts),
            }
        }
    })?;
    let Ok(expected) = answer else {
        return check_lists(kind, code, bytes, &Values::default(), answer, long_count);
    };
    check_lists(kind, code, bytes, expected, answer, long_count)?;
    if expected.first.is_empty() && expected.second.is_empty() && expected.numbers.is_empty() {
        return Ok(());
    }
    let too_small = Err(Refusal { number: 21, code: Some(expected.code) });
    check_lists(kind, code, bytes, &Values::default(), &too_small, 0)
}

/// The list reader with buffers of just the sizes of these lists.
fn check_lists(
    kind: Kind,
    code: u8,
    bytes: &[u8],
    sizes: &Values,
    answer: &Answer,
    long_count: u16,
) -> Result<(), String> {
    let (at, size) = (bytes.as_ptr(), bytes.len());
    let mut lent = sizes.clone();
    let (first, firsts) = (lent.first.as_mut_ptr(), lent.first.len());
    let (second, seconds) = (lent.second.as_mut_ptr(), lent.second.len());
    let (block, blocks) = (lent.numbers.as_mut_ptr(), lent.numbers.len());
    let (place, mode) = (lent.places.as_mut_ptr(), lent.modes.as_mut_ptr());
    macro_rules! list {
        ($function:ident, $memory:ident $(, $code:ident)?) => {
            ffi::$function(
                $($code,)? at, size, first, firsts, second, seconds, block, blocks, place, blocks, mode, blocks,
                &mut $memory.idm, &mut $memory.challenge, &mut $memory.fields, &mut $memory.parts,
            )
        };
    }
    // SAFETY: each pointer goes with the size of its own slice, and the four arrays are there and apart.
    check_call("list reader", answer, long_count, &mut |memory| unsafe {
        match kind {
            Kind::Frame => list!(felica_list_frame, memory),
            Kind::Payload => list!(felica_list_payload, memory),
            Kind::Secure => list!(felica_list_secure_payload, memory, code),
        }
    })
}

fn check_call(
    name: &str,
    answer: &Answer,
    long_count: u16,
    call: &mut dyn FnMut(&mut Memory) -> ffi::FelicaAnswer,
) -> Result<(), String> {
    let right = match answer {
        Ok(expected) => ffi::FelicaAnswer { refusal: 0, code: expected.code, long_count },
        Err(refusal) => ffi::FelicaAnswer { refusal: refusal.number, code: refusal.code.unwrap_or(0), long_count },
    };
    let (mut filled, mut zero) = (FILLED, ZERO);
    for memory in [&mut filled, &mut zero] {
        let given = call(memory);
        if given != right {
            return Err(format!("{name} for C: {given:?} instead of {right:?}"));
        }
    }
    match answer {
        Ok(_) if filled != zero => Err(format!("{name} for C: a command left part of the memory as it was")),
        Err(_) if filled != FILLED || zero != ZERO => Err(format!("{name} for C: a refusal touched the memory")),
        _ => Ok(()),
    }
}
