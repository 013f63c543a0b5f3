//! Document 01's layouts, one row a code. Every layout is one order of parts, each there or not.

/// The fixed bytes that end a body.
#[derive(Clone, Copy, PartialEq, Eq)]
pub enum Ending {
    Bytes(usize),
    Word,
    Words,
    Reserved,
    Polling,
    Parameter,
}

/// What may stand behind them.
#[derive(Clone, Copy, PartialEq, Eq)]
pub enum Behind {
    Nothing,
    Ignored,
    Package,
}

#[derive(Clone, Copy)]
pub struct Layout {
    pub code: u8,
    pub secure: bool,
    pub idm: bool,
    /// The greatest value of the byte in front of the code list.
    pub selector: Option<u8>,
    /// The least and the greatest count.
    pub first: Option<(usize, usize)>,
    pub second: Option<(usize, usize)>,
    pub blocks: bool,
    pub data: bool,
    pub ending: Ending,
    pub behind: Behind,
}

use Behind::{Ignored, Nothing, Package};
use Ending::{Bytes, Parameter, Polling, Reserved, Word, Words};

pub const LAYOUTS: [Layout; 33] = [
    plain(0x00, Polling),
    plain(0x02, Bytes(0)).idm().codes(1, 32),
    plain(0x04, Bytes(0)).idm(),
    plain(0x06, Bytes(0)).idm().codes(1, 16).blocks(),
    plain(0x08, Bytes(0)).idm().codes(1, 16).blocks().data(),
    plain(0x0A, Word).idm(),
    plain(0x0C, Bytes(0)).idm(),
    plain(0x0E, Bytes(0)).idm().codes(1, 32),
    plain(0x10, Bytes(8)).idm().codes(0, 32).more_codes(0, 32),
    plain(0x12, Bytes(8)).idm(),
    plain(0x1A, Words).idm(),
    plain(0x1E, Bytes(0)).idm().codes(1, 32),
    plain(0x20, Parameter).idm(),
    plain(0x22, Reserved).idm(),
    plain(0x24, Word).idm(),
    plain(0x28, Bytes(0)).idm().selector(1).codes(1, 16),
    plain(0x2E, Word),
    plain(0x32, Bytes(0)).idm().codes(1, 32),
    plain(0x38, Reserved).idm(),
    plain(0x3A, Bytes(0)).idm(),
    plain(0x3C, Reserved).idm(),
    plain(0x3E, Reserved).idm(),
    plain(0x40, Bytes(16)).idm().selector(0xFF).codes(1, 32),
    plain(0x42, Bytes(16)).idm(),
    plain(0x70, Reserved),
    secure(0x14, Bytes(0), Ignored).blocks(),
    secure(0x16, Bytes(0), Ignored).blocks().data(),
    secure(0x44, Bytes(0), Ignored).blocks(),
    secure(0x46, Bytes(0), Ignored).blocks().data(),
    secure(0x80, Bytes(16), Package),
    secure(0x82, Word, Package),
    secure(0x84, Word, Package),
    secure(0x8E, Bytes(0), Nothing),
];

pub fn layout(code: u8) -> Option<&'static Layout> {
    LAYOUTS.iter().find(|row| row.code == code)
}

const fn plain(code: u8, ending: Ending) -> Layout {
    Layout {
        code,
        secure: false,
        idm: false,
        selector: None,
        first: None,
        second: None,
        blocks: false,
        data: false,
        ending,
        behind: Nothing,
    }
}

const fn secure(code: u8, ending: Ending, behind: Behind) -> Layout {
    Layout { secure: true, behind, ..plain(code, ending) }
}

impl Layout {
    const fn idm(self) -> Layout {
        Layout { idm: true, ..self }
    }

    const fn selector(self, greatest: u8) -> Layout {
        Layout { selector: Some(greatest), ..self }
    }

    const fn codes(self, least: usize, greatest: usize) -> Layout {
        Layout { first: Some((least, greatest)), ..self }
    }

    const fn more_codes(self, least: usize, greatest: usize) -> Layout {
        Layout { second: Some((least, greatest)), ..self }
    }

    const fn blocks(self) -> Layout {
        Layout { blocks: true, ..self }
    }

    const fn data(self) -> Layout {
        Layout { data: true, ..self }
    }

    /// Where the first field behind IDm and selector begins in the payload.
    pub fn front(&self) -> usize {
        usize::from(!self.secure) + if self.idm { 8 } else { 0 } + usize::from(self.selector.is_some())
    }

    /// Where the count of the elements stands, behind a first list of so many codes.
    pub fn block_count_at(&self, first: usize) -> usize {
        self.front() + if self.first.is_some() { 1 + 2 * first } else { 0 }
    }
}

impl Ending {
    pub fn size(self) -> usize {
        match self {
            Bytes(count) => count,
            Word | Reserved => 2,
            Words | Polling => 4,
            Parameter => 8,
        }
    }
}
