//! FeliCa Standard commands: the proved parser, list reader and writer of libfelica_c.a, as safe functions.
//!
//! The parser reads a frame, a payload, or the decrypted payload of a secure code, and gives the command, with how many
//! of its elements were long, or one numbered refusal. The list reader does the same and writes the command's lists to
//! five lent buffers. The writer makes the shortest frame of a plain command and the shortest payload of a secure one.
//! include/felica.h has the contracts, the table of what each command has, and the numbers of the refusals.
//!
//! With the archive of c/archive no function panics. The package needs `core` alone, the archive's writer `memcpy`
//! and `memset`.

#![no_std]

pub mod ffi;
mod ground;

use ffi::FelicaAnswer;
pub use ground::{Ground, Refusal};

/// Bytes of the longest frame.
pub const MAX_FRAME: usize = 255;

/// Codes of the longest code list, first or second.
pub const MAX_CODES: usize = 32;

/// Elements of the longest block list.
pub const MAX_BLOCKS: usize = 255;

/// A list, the data or the package, as a part of the payload: the place of its first byte, counted from the payload's
/// first, and how many entries it has. The payload of a frame is `frame[1..]`. Both are 0 where the command lacks it.
#[derive(Clone, Copy, Debug, Default, PartialEq, Eq)]
pub struct Part {
    pub start: usize,
    pub count: usize,
}

/// A command. Fields that it lacks are zero.
#[derive(Clone, Copy, Debug, Default, PartialEq, Eq)]
pub struct Command {
    pub code: u8,
    pub idm: [u8; 8],
    /// 40 and 42: the challenge. 10 and 12: their challenge of 8 bytes, then eight zeros. 80: the issue id, then the
    /// issue parameter.
    pub challenge: [u8; 16],
    /// 28: node property type. 40: operation parameter.
    pub selector: u8,
    /// 00: system code. 0A: service index. 1A: parent node code. 24: node code. 2E: container property.
    /// 82: area code. 84: service code.
    pub number: u16,
    /// 1A: index.
    pub index: u16,
    /// 00: request code. 20: encryption type.
    pub option: u8,
    /// 00: time slots. 20: packet type.
    pub choice: u8,
    /// Codes of two bytes, low byte first; of 10 the areas.
    pub first: Part,
    /// 10: the services.
    pub second: Part,
    pub block_list: Part,
    pub data: Part,
    pub package: Part,
}

/// What a parse gives: the command, and how many elements of its block list were long. Two frames of one command may
/// differ in that count.
#[derive(Clone, Copy, Debug, Default, PartialEq, Eq)]
pub struct Parsed {
    pub command: Command,
    pub long: u16,
}

/// What the list reader writes to: first codes, second codes, block numbers, service places and access modes. Lengths
/// of `MAX_CODES` for codes and of `MAX_BLOCKS` for the others are always enough.
#[derive(Debug)]
pub struct Buffers<'a> {
    pub first: &'a mut [u16],
    pub second: &'a mut [u16],
    pub numbers: &'a mut [u16],
    pub places: &'a mut [u8],
    pub modes: &'a mut [u8],
}

/// A command as the writer takes it. Fields that the command lacks must be zero and lists empty, as `default()` has
/// them.
#[derive(Clone, Copy, Debug, Default, PartialEq, Eq)]
pub struct Handed<'a> {
    pub code: u8,
    pub idm: [u8; 8],
    pub challenge: [u8; 16],
    pub selector: u8,
    pub number: u16,
    pub index: u16,
    pub option: u8,
    pub choice: u8,
    pub first: &'a [u16],
    pub second: &'a [u16],
    pub numbers: &'a [u16],
    pub places: &'a [u8],
    pub modes: &'a [u8],
    pub data: &'a [u8],
    pub package: &'a [u8],
}

/// Reads a frame: a length byte that is the frame's size, then the payload of a plain command.
///
/// ```
/// use felica::{Ground, parse_frame};
///
/// // Polling: system code, request code, time slots.
/// let command = parse_frame(&[0x06, 0x00, 0x12, 0x34, 0x01, 0x0F])?.command;
/// assert_eq!(command.code, 0x00);
/// assert_eq!((command.number, command.option, command.choice), (0x1234, 0x01, 0x0F));
///
/// let refusal = parse_frame(&[0x02, 0x04]).unwrap_err();
/// assert_eq!((refusal.ground, refusal.code), (Ground::IdmMissing, Some(0x04)));
/// assert_eq!(refusal.to_string(), "refusal 6 of command 04: IDm missing");
/// # Ok::<(), felica::Refusal>(())
/// ```
pub fn parse_frame(frame: &[u8]) -> Result<Parsed, Refusal> {
    let mut lent = Lent::default();
    // SAFETY: the header asks for pointers that are not null and aligned, to memory that is there, holds values and is
    // at most PTRDIFF_MAX bytes: these are made of references, of which Rust asks the same. It asks that nobody writes
    // `frame` during the call: it is a `&`. And that what is written overlaps nothing else lent and is used by nobody
    // else: the arrays are this function's own.
    let answer = unsafe {
        ffi::felica_parse_frame(
            frame.as_ptr(),
            frame.len(),
            &mut lent.idm,
            &mut lent.challenge,
            &mut lent.fields,
            &mut lent.parts,
        )
    };
    lent.told(answer)
}

/// Reads the payload of a plain command, which begins with the code byte and may be longer than a frame can be.
///
/// ```
/// use felica::{Part, parse_payload};
///
/// // Read Without Encryption: IDm, one service, one block.
/// let payload = [0x06, 1, 2, 3, 4, 5, 6, 7, 8, 1, 0x0B, 0x10, 1, 0x80, 0x00];
/// let command = parse_payload(&payload)?.command;
/// assert_eq!((command.code, command.idm), (0x06, [1, 2, 3, 4, 5, 6, 7, 8]));
/// assert_eq!(command.first, Part { start: 10, count: 1 });
/// assert_eq!(payload[10..12], [0x0B, 0x10]);
/// assert_eq!(command.block_list, Part { start: 13, count: 1 });
/// # Ok::<(), felica::Refusal>(())
/// ```
pub fn parse_payload(payload: &[u8]) -> Result<Parsed, Refusal> {
    let mut lent = Lent::default();
    // SAFETY: as in `parse_frame`.
    let answer = unsafe {
        ffi::felica_parse_payload(
            payload.as_ptr(),
            payload.len(),
            &mut lent.idm,
            &mut lent.challenge,
            &mut lent.fields,
            &mut lent.parts,
        )
    };
    lent.told(answer)
}

/// Reads the decrypted payload of a secure code. It has no code byte.
///
/// ```
/// use felica::{Ground, Part, parse_secure_payload};
///
/// // Read: block 5 in short form and block 256 in long form.
/// let parsed = parse_secure_payload(0x14, &[2, 0x80, 0x05, 0x00, 0x00, 0x01])?;
/// assert_eq!(parsed.command.block_list, Part { start: 1, count: 2 });
/// assert_eq!(parsed.long, 1);
///
/// let refusal = parse_secure_payload(0x8E, &[0x00]).unwrap_err();
/// assert_eq!(refusal.ground, Ground::TrailingBytes);
/// # Ok::<(), felica::Refusal>(())
/// ```
pub fn parse_secure_payload(command_code: u8, payload: &[u8]) -> Result<Parsed, Refusal> {
    let mut lent = Lent::default();
    // SAFETY: as in `parse_frame`.
    let answer = unsafe {
        ffi::felica_parse_secure_payload(
            command_code,
            payload.as_ptr(),
            payload.len(),
            &mut lent.idm,
            &mut lent.challenge,
            &mut lent.fields,
            &mut lent.parts,
        )
    };
    lent.told(answer)
}

/// Does what `parse_frame` does, and writes the lists of the command to the front of the buffers. `BufferTooSmall`
/// comes exactly when a buffer is shorter than its list; a refusal leaves them as they were.
///
/// ```
/// use felica::{Buffers, MAX_BLOCKS, MAX_CODES, list_frame};
///
/// let (mut first, mut second, mut numbers) = ([0; MAX_CODES], [0; MAX_CODES], [0; MAX_BLOCKS]);
/// let (mut places, mut modes) = ([0; MAX_BLOCKS], [0; MAX_BLOCKS]);
/// let buffers = Buffers {
///     first: &mut first,
///     second: &mut second,
///     numbers: &mut numbers,
///     places: &mut places,
///     modes: &mut modes,
/// };
/// // Read Without Encryption: block 5 of the service in place 0, block 256 of that in place 1.
/// let frame = [0x15, 0x06, 1, 2, 3, 4, 5, 6, 7, 8, 2, 0x0B, 0x10, 0x09, 0x11, 2, 0x80, 0x05, 0x01, 0x00, 0x01];
/// let command = list_frame(&frame, buffers)?.command;
/// assert_eq!(first[..command.first.count], [0x100B, 0x1109]);
/// let blocks = ..command.block_list.count;
/// assert_eq!((&numbers[blocks], &places[blocks], &modes[blocks]), (&[5, 256][..], &[0, 1][..], &[0, 0][..]));
/// # Ok::<(), felica::Refusal>(())
/// ```
pub fn list_frame(frame: &[u8], buffers: Buffers<'_>) -> Result<Parsed, Refusal> {
    let mut lent = Lent::default();
    // SAFETY: as in `parse_frame`. The buffers are written too: they are `&mut`, so that they overlap neither one
    // another nor anything else lent, and nobody else uses them during the call.
    let answer = unsafe {
        ffi::felica_list_frame(
            frame.as_ptr(),
            frame.len(),
            buffers.first.as_mut_ptr(),
            buffers.first.len(),
            buffers.second.as_mut_ptr(),
            buffers.second.len(),
            buffers.numbers.as_mut_ptr(),
            buffers.numbers.len(),
            buffers.places.as_mut_ptr(),
            buffers.places.len(),
            buffers.modes.as_mut_ptr(),
            buffers.modes.len(),
            &mut lent.idm,
            &mut lent.challenge,
            &mut lent.fields,
            &mut lent.parts,
        )
    };
    lent.told(answer)
}

/// The same of what `parse_payload` takes.
///
/// ```
/// use felica::{Buffers, list_payload};
///
/// // Authentication1: an area, two services, a challenge of eight bytes. It has no block list.
/// let (mut areas, mut services) = ([0; 1], [0; 2]);
/// let buffers =
///     Buffers { first: &mut areas, second: &mut services, numbers: &mut [], places: &mut [], modes: &mut [] };
/// let payload = [
///     0x10, 1, 2, 3, 4, 5, 6, 7, 8, // IDm
///     1, 0x00, 0x00, // areas
///     2, 0x09, 0x10, 0x09, 0x11, // services
///     0x81, 0x82, 0x83, 0x84, 0x85, 0x86, 0x87, 0x88, // challenge
/// ];
/// let command = list_payload(&payload, buffers)?.command;
/// assert_eq!((areas, services), ([0x0000], [0x1009, 0x1109]));
/// assert_eq!(command.challenge[..8], [0x81, 0x82, 0x83, 0x84, 0x85, 0x86, 0x87, 0x88]);
/// # Ok::<(), felica::Refusal>(())
/// ```
pub fn list_payload(payload: &[u8], buffers: Buffers<'_>) -> Result<Parsed, Refusal> {
    let mut lent = Lent::default();
    // SAFETY: as in `list_frame`.
    let answer = unsafe {
        ffi::felica_list_payload(
            payload.as_ptr(),
            payload.len(),
            buffers.first.as_mut_ptr(),
            buffers.first.len(),
            buffers.second.as_mut_ptr(),
            buffers.second.len(),
            buffers.numbers.as_mut_ptr(),
            buffers.numbers.len(),
            buffers.places.as_mut_ptr(),
            buffers.places.len(),
            buffers.modes.as_mut_ptr(),
            buffers.modes.len(),
            &mut lent.idm,
            &mut lent.challenge,
            &mut lent.fields,
            &mut lent.parts,
        )
    };
    lent.told(answer)
}

/// The same of what `parse_secure_payload` takes.
///
/// ```
/// use felica::{Buffers, Ground, list_secure_payload};
///
/// let (mut numbers, mut places, mut modes) = ([0; 2], [0; 2], [0; 2]);
/// let mut list = |payload: &[u8]| {
///     let buffers = Buffers {
///         first: &mut [],
///         second: &mut [],
///         numbers: &mut numbers,
///         places: &mut places,
///         modes: &mut modes,
///     };
///     list_secure_payload(0x44, payload, buffers)
/// };
/// // Three elements do not fit.
/// assert_eq!(list(&[3, 0x80, 0x05, 0x80, 0x06, 0x80, 0x07]).unwrap_err().ground, Ground::BufferTooSmall);
/// // Read v2: block 5, then block FFFF of the service in place 5, with access mode 1.
/// assert_eq!(list(&[2, 0x80, 0x05, 0x15, 0xFF, 0xFF])?.long, 1);
/// assert_eq!((numbers, places, modes), ([0x0005, 0xFFFF], [0, 5], [0, 1]));
/// # Ok::<(), felica::Refusal>(())
/// ```
pub fn list_secure_payload(command_code: u8, payload: &[u8], buffers: Buffers<'_>) -> Result<Parsed, Refusal> {
    let mut lent = Lent::default();
    // SAFETY: as in `list_frame`.
    let answer = unsafe {
        ffi::felica_list_secure_payload(
            command_code,
            payload.as_ptr(),
            payload.len(),
            buffers.first.as_mut_ptr(),
            buffers.first.len(),
            buffers.second.as_mut_ptr(),
            buffers.second.len(),
            buffers.numbers.as_mut_ptr(),
            buffers.numbers.len(),
            buffers.places.as_mut_ptr(),
            buffers.places.len(),
            buffers.modes.as_mut_ptr(),
            buffers.modes.len(),
            &mut lent.idm,
            &mut lent.challenge,
            &mut lent.fields,
            &mut lent.parts,
        )
    };
    lent.told(answer)
}

/// Writes the frame of a plain command, or the payload of a secure one, and answers its length. Bytes of `out` behind
/// it keep their values. `Unwritable` comes exactly when no accepted frame and no accepted secure payload gives the
/// command, otherwise `BufferTooSmall` exactly when the shortest form is longer than `out`; a refusal leaves `out` as
/// it was.
///
/// ```
/// use felica::{Ground, Handed, MAX_FRAME, write};
///
/// let mut out = [0; MAX_FRAME];
/// let polling = Handed { code: 0x00, number: 0x1234, option: 0x01, choice: 0x0F, ..Handed::default() };
/// let length = write(&polling, &mut out)?;
/// assert_eq!(out[..length], [0x06, 0x00, 0x12, 0x34, 0x01, 0x0F]);
///
/// let undefined = Handed { choice: 0x02, ..polling };
/// assert_eq!(write(&undefined, &mut out).unwrap_err().ground, Ground::Unwritable);
/// # Ok::<(), felica::Refusal>(())
/// ```
pub fn write(command: &Handed<'_>, out: &mut [u8]) -> Result<usize, Refusal> {
    // SAFETY: the pointers are made of references, as in `parse_frame`. What is read may overlap. `out`, the only
    // memory that is written, is `&mut`, so that it overlaps nothing else lent, and nobody else uses it during the
    // call.
    let written = unsafe {
        ffi::felica_write(
            command.code,
            &command.idm,
            &command.challenge,
            command.selector,
            command.number,
            command.index,
            command.option,
            command.choice,
            command.first.as_ptr(),
            command.first.len(),
            command.second.as_ptr(),
            command.second.len(),
            command.numbers.as_ptr(),
            command.numbers.len(),
            command.places.as_ptr(),
            command.places.len(),
            command.modes.as_ptr(),
            command.modes.len(),
            command.data.as_ptr(),
            command.data.len(),
            command.package.as_ptr(),
            command.package.len(),
            out.as_mut_ptr(),
            out.len(),
        )
    };
    match written.refusal {
        0 => Ok(written.length),
        number => Err(Refusal::told(number, Some(command.code))),
    }
}

// What the parser writes to, in the header's order.
#[derive(Default)]
struct Lent {
    idm: [u8; 8],
    challenge: [u8; 16],
    fields: [u16; 5],
    parts: [usize; 10],
}

impl Lent {
    fn told(self, answer: FelicaAnswer) -> Result<Parsed, Refusal> {
        match answer.refusal {
            0 => Ok(Parsed { command: self.command(answer.code), long: answer.long_count }),
            number @ 1..=3 => Err(Refusal::told(number, None)),
            number => Err(Refusal::told(number, Some(answer.code))),
        }
    }

    // Selector, option and choice hold bytes, so that the conversions lose nothing.
    fn command(self, code: u8) -> Command {
        let [selector, number, index, option, choice] = self.fields;
        let part = |at: usize| Part { start: self.parts[at], count: self.parts[at + 1] };
        Command {
            code,
            idm: self.idm,
            challenge: self.challenge,
            selector: selector as u8,
            number,
            index,
            option: option as u8,
            choice: choice as u8,
            first: part(0),
            second: part(2),
            block_list: part(4),
            data: part(6),
            package: part(8),
        }
    }
}
