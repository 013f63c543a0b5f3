//! felica-rs refuses by a text. From the whole text: document 01's number, and the code of the command that the text names.
use crate::values::Refusal;

/// What felica-rs calls each command in its texts.
const NAMES: [(u8, &str); 33] = [
    (0x00, "polling"),
    (0x02, "request service"),
    (0x04, "request response"),
    (0x06, "read without encryption"),
    (0x08, "write without encryption"),
    (0x0A, "search service code"),
    (0x0C, "request system code"),
    (0x0E, "request block information"),
    (0x10, "authentication1"),
    (0x12, "authentication2"),
    (0x14, "secure read"),
    (0x16, "secure write"),
    (0x1A, "request code list"),
    (0x1E, "request block information ex"),
    (0x20, "set parameter"),
    (0x22, "get container issue information"),
    (0x24, "get area information"),
    (0x28, "get node property"),
    (0x2E, "get container property"),
    (0x32, "request service v2"),
    (0x38, "get system status"),
    (0x3A, "request product information"),
    (0x3C, "request specification version"),
    (0x3E, "reset mode"),
    (0x40, "authentication1 v2"),
    (0x42, "authentication2 v2"),
    (0x44, "secure read"),
    (0x46, "secure write"),
    (0x70, "get container id"),
    (0x80, "register issue id"),
    (0x82, "register area"),
    (0x84, "register service"),
    (0x8E, "change system block"),
];

/// Whose text it is: that of any code, or of these alone.
const ANY: &[u8] = &[];
const PLAIN: &[u8] = &[
    0x00, 0x02, 0x04, 0x06, 0x08, 0x0A, 0x0C, 0x0E, 0x10, 0x12, 0x1A, 0x1E, 0x20, 0x22, 0x24, 0x28, 0x2E, 0x32, 0x38,
    0x3A, 0x3C, 0x3E, 0x40, 0x42, 0x70,
];
const SECURE: &[u8] = &[0x14, 0x16, 0x44, 0x46, 0x80, 0x82, 0x84, 0x8E];
const FIXED: &[u8] = &[0x00, 0x0A, 0x1A, 0x20, 0x22, 0x24, 0x28, 0x2E, 0x38, 0x3C, 0x3E, 0x70, 0x80, 0x82, 0x84];
const SERVICES: &[u8] = &[0x02, 0x06, 0x08, 0x32];
const NODES: &[u8] = &[0x0E, 0x1E, 0x28, 0x40];
const PLAIN_BLOCKS: &[u8] = &[0x06, 0x08];
const SECURE_BLOCKS: &[u8] = &[0x14, 0x16, 0x44, 0x46];
const BLOCKS: &[u8] = &[0x06, 0x08, 0x14, 0x16, 0x44, 0x46];

/// In a pattern `*` is the command's name, and `#`, `$` and `@` are the code and Polling's request code and time slots, in two hexadecimal digits.
const PATTERNS: [(u8, &str, &[u8]); 38] = [
    (1, "empty Felica frame", ANY),
    (2, "length byte does not match frame length", ANY),
    (3, "empty command payload", ANY),
    (4, "secure command payload requires decryption", SECURE),
    (5, "unsupported command code: 0x#", ANY),
    (5, "unsupported secure command code: 0x#", ANY),
    (6, "missing idm", PLAIN),
    (7, "* payload too short", FIXED),
    (7, "* missing challenge1a", &[0x10, 0x40]),
    (7, "* missing challenge2b", &[0x12, 0x42]),
    (7, "* missing operation parameter", &[0x40]),
    (8, "* payload has trailing bytes", PLAIN),
    (8, "* payload must be empty", &[0x8E]),
    (9, "* service count is missing", SERVICES),
    (9, "* node count is missing", NODES),
    (9, "* missing area count", &[0x10]),
    (9, "* block count is missing", SECURE_BLOCKS),
    (10, "* service count out of range", SERVICES),
    (10, "* node count out of range", NODES),
    (10, "* area count out of range", &[0x10]),
    (10, "* block count out of range", SECURE_BLOCKS),
    (11, "* block count is missing", PLAIN_BLOCKS),
    (11, "* missing service count", &[0x10]),
    (12, "* block count out of range", PLAIN_BLOCKS),
    (12, "* service count out of range", &[0x10]),
    (13, "u16 list truncated", PLAIN),
    (14, "block list truncated", BLOCKS),
    (15, "block list missing short block number", BLOCKS),
    (16, "block list missing long block number", BLOCKS),
    (17, "* data truncated", &[0x08, 0x16, 0x46]),
    (18, "* reserved bytes must be 0x00", &[0x22, 0x38, 0x3C, 0x3E, 0x70]),
    (18, "* reserved bytes D0-D3 must be 0x00", &[0x20]),
    (18, "* reserved bytes D6-D7 must be 0x00", &[0x20]),
    (19, "* request code 0x$ is reserved", &[0x00]),
    (19, "* encryption type out of range", &[0x20]),
    (19, "* type out of range", &[0x28]),
    (20, "* time slot value 0x@ is not defined", &[0x00]),
    (20, "* packet type out of range", &[0x20]),
];

/// The refusal that a text means, where `code` was read or handed in. A text with the name of another command gives that command's code.
pub fn refusal(text: &str, code: u8, payload: &[u8]) -> Option<Refusal> {
    let name = NAMES.iter().find(|row| row.0 == code).map_or("", |row| row.1);
    let own = number(text, code, name, payload).map(|number| (number, code));
    let other = || NAMES.iter().find_map(|row| Some((number(text, row.0, row.1, payload)?, row.0)));
    let (number, code) = own.or_else(other)?;
    Some(Refusal { number, code: (number >= 4).then_some(code) })
}

fn number(text: &str, code: u8, name: &str, payload: &[u8]) -> Option<u8> {
    let whose = |codes: &[u8]| codes.is_empty() || codes.contains(&code);
    let found = PATTERNS.iter().find(|row| whose(row.2) && fits(text, row.1, code, name, payload));
    found.map(|row| row.0)
}

fn fits(text: &str, pattern: &str, code: u8, name: &str, payload: &[u8]) -> bool {
    let mut rest = text.as_bytes();
    for mark in pattern.bytes() {
        let behind = match mark {
            b'*' => rest.strip_prefix(name.as_bytes()),
            b'#' => strip_byte(rest, Some(&code)),
            b'$' => strip_byte(rest, payload.get(3)),
            b'@' => strip_byte(rest, payload.get(4)),
            _ => rest.strip_prefix(&[mark]),
        };
        let Some(behind) = behind else { return false };
        rest = behind;
    }
    rest.is_empty()
}

fn strip_byte<'a>(text: &'a [u8], byte: Option<&u8>) -> Option<&'a [u8]> {
    const DIGITS: &[u8; 16] = b"0123456789ABCDEF";
    let byte = usize::from(*byte?);
    text.strip_prefix(&[DIGITS[byte >> 4], DIGITS[byte & 15]])
}
