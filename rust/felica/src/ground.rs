use core::error::Error;
use core::fmt;

/// Why there is no command, or nothing was written. "First" and "second" count in field order; a secure block count is
/// a first. Its text says it in words.
#[derive(Clone, Copy, Debug, PartialEq, Eq, Hash)]
#[non_exhaustive]
pub enum Ground {
    EmptyFrame = 1,
    LengthByteWrong = 2,
    EmptyPayload = 3,
    SecureCode = 4,
    /// A plain code is unknown as a secure one.
    UnknownCode = 5,
    IdmMissing = 6,
    /// Also: challenge, operation or type byte missing.
    TooShort = 7,
    /// Also: 8E not empty.
    TrailingBytes = 8,
    FirstCountMissing = 9,
    FirstCountOutOfRange = 10,
    SecondCountMissing = 11,
    SecondCountOutOfRange = 12,
    CodeListTruncated = 13,
    BlockListTruncated = 14,
    ShortBlockNumberMissing = 15,
    LongBlockNumberMissing = 16,
    DataTruncated = 17,
    ReservedNotZero = 18,
    FirstTypeUndefined = 19,
    SecondTypeUndefined = 20,
    /// List reader and writer only.
    BufferTooSmall = 21,
    /// Writer only.
    Unwritable = 22,
}

impl Ground {
    /// All of them, by number.
    pub const ALL: [Ground; 22] = [
        Ground::EmptyFrame,
        Ground::LengthByteWrong,
        Ground::EmptyPayload,
        Ground::SecureCode,
        Ground::UnknownCode,
        Ground::IdmMissing,
        Ground::TooShort,
        Ground::TrailingBytes,
        Ground::FirstCountMissing,
        Ground::FirstCountOutOfRange,
        Ground::SecondCountMissing,
        Ground::SecondCountOutOfRange,
        Ground::CodeListTruncated,
        Ground::BlockListTruncated,
        Ground::ShortBlockNumberMissing,
        Ground::LongBlockNumberMissing,
        Ground::DataTruncated,
        Ground::ReservedNotZero,
        Ground::FirstTypeUndefined,
        Ground::SecondTypeUndefined,
        Ground::BufferTooSmall,
        Ground::Unwritable,
    ];

    /// 1 to 22, as in include/felica.h.
    pub const fn number(self) -> u8 {
        self as u8
    }

    /// The ground that has this number, if one has.
    pub fn from_number(number: u8) -> Option<Ground> {
        Ground::ALL.into_iter().find(|ground| ground.number() == number)
    }
}

impl fmt::Display for Ground {
    fn fmt(&self, f: &mut fmt::Formatter<'_>) -> fmt::Result {
        f.pad(match self {
            Ground::EmptyFrame => "empty frame",
            Ground::LengthByteWrong => "length byte is not the frame's size",
            Ground::EmptyPayload => "payload empty",
            Ground::SecureCode => "secure code in a plain frame or payload",
            Ground::UnknownCode => "code unknown here",
            Ground::IdmMissing => "IDm missing",
            Ground::TooShort => "too short",
            Ground::TrailingBytes => "bytes past the layout",
            Ground::FirstCountMissing => "first count missing",
            Ground::FirstCountOutOfRange => "first count outside its range",
            Ground::SecondCountMissing => "second count missing",
            Ground::SecondCountOutOfRange => "second count outside its range",
            Ground::CodeListTruncated => "code list cut off",
            Ground::BlockListTruncated => "element's first byte missing",
            Ground::ShortBlockNumberMissing => "short block number missing",
            Ground::LongBlockNumberMissing => "long block number not whole",
            Ground::DataTruncated => "data cut off",
            Ground::ReservedNotZero => "reserved byte not 00",
            Ground::FirstTypeUndefined => "request code, encryption type or property type undefined",
            Ground::SecondTypeUndefined => "time slots or packet type undefined",
            Ground::BufferTooSmall => "lent buffer too small",
            Ground::Unwritable => "no accepted frame or secure payload gives this command",
        })
    }
}

/// The ground of a refusal, and the command code, which `EmptyFrame`, `LengthByteWrong` and `EmptyPayload` lack.
#[derive(Clone, Copy, Debug, PartialEq, Eq, Hash)]
pub struct Refusal {
    pub ground: Ground,
    pub code: Option<u8>,
}

impl Refusal {
    // By the number that the archive gave, which is proved to be one of these where it is not 0. Only another archive
    // in its place could bring the panic, and to answer a command or some ground then would hide that.
    pub(crate) fn told(number: u8, code: Option<u8>) -> Refusal {
        let ground = Ground::from_number(number).expect("libfelica_c.a refuses with the numbers 1 to 22 alone");
        Refusal { ground, code }
    }

    /// The ground's number.
    pub const fn number(self) -> u8 {
        self.ground.number()
    }
}

impl fmt::Display for Refusal {
    fn fmt(&self, f: &mut fmt::Formatter<'_>) -> fmt::Result {
        match self.code {
            Some(code) => write!(f, "refusal {} of command {code:02X}: {}", self.number(), self.ground),
            None => write!(f, "refusal {}: {}", self.number(), self.ground),
        }
    }
}

impl Error for Refusal {}
