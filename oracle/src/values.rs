//! What a parser answers, as plain values: the same for both.
use std::fmt;

/// What the bytes are: a frame, a payload with its code byte, or the payload of a secure code that is handed in.
#[derive(Clone, Copy, Debug, PartialEq, Eq)]
pub enum Kind {
    Frame,
    Payload,
    Secure,
}

/// A command with the fields of document 01, zero or empty where its layout lacks them.
#[derive(Clone, Debug, Default, PartialEq, Eq)]
pub struct Values {
    pub code: u8,
    pub idm: [u8; 8],
    pub challenge: [u8; 16],
    pub selector: u8,
    pub number: u16,
    pub index: u16,
    pub option: u8,
    pub choice: u8,
    pub first: Vec<u16>,
    pub second: Vec<u16>,
    pub numbers: Vec<u16>,
    pub places: Vec<u8>,
    pub modes: Vec<u8>,
    pub data: Vec<u8>,
    pub package: Vec<u8>,
}

/// Document 01's number of a ground and, from 4 up, the command code.
#[derive(Clone, Copy, Debug, PartialEq, Eq)]
pub struct Refusal {
    pub number: u8,
    pub code: Option<u8>,
}

pub type Answer = Result<Values, Refusal>;

/// An answer as text: bytes in hexadecimal, a refusal's number in decimal.
pub fn shown(answer: &Answer) -> String {
    match answer {
        Ok(command) => format!("{command:02X?}"),
        Err(refusal) => refusal.to_string(),
    }
}

impl fmt::Display for Refusal {
    fn fmt(&self, f: &mut fmt::Formatter) -> fmt::Result {
        match self.code {
            Some(code) => write!(f, "refusal {} of {code:02X}", self.number),
            None => write!(f, "refusal {}", self.number),
        }
    }
}

/// A case as text.
pub fn shown_case(kind: Kind, code: u8, bytes: &[u8]) -> String {
    let bytes: String = bytes.iter().map(|byte| format!("{byte:02X}")).collect();
    match kind {
        Kind::Frame => format!("frame {bytes}"),
        Kind::Payload => format!("payload {bytes}"),
        Kind::Secure => format!("secure code {code:02X}, payload {bytes}"),
    }
}

impl Values {
    pub fn handed(&self) -> felica::Handed<'_> {
        felica::Handed {
            code: self.code,
            idm: self.idm,
            challenge: self.challenge,
            selector: self.selector,
            number: self.number,
            index: self.index,
            option: self.option,
            choice: self.choice,
            first: &self.first,
            second: &self.second,
            numbers: &self.numbers,
            places: &self.places,
            modes: &self.modes,
            data: &self.data,
            package: &self.package,
        }
    }
}

impl From<felica::Refusal> for Refusal {
    fn from(refusal: felica::Refusal) -> Self {
        Refusal { number: refusal.number(), code: refusal.code }
    }
}

/// The bytes that parts count from.
pub fn payload(kind: Kind, bytes: &[u8]) -> &[u8] {
    match kind {
        Kind::Frame => bytes.get(1..).unwrap_or(&[]),
        Kind::Payload | Kind::Secure => bytes,
    }
}
