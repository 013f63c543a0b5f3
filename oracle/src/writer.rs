//! A writer by document 01's layouts, as one would write it in Rust: it builds the shortest form in a `Vec` and copies it to the lent buffer.
use felica::Handed;

/// How many bytes were written; or the number of a refusal and the code handed in.
pub fn write(h: &Handed, out: &mut [u8]) -> Result<usize, (u8, u8)> {
    let bytes = shortest(h).ok_or((22, h.code))?;
    let front = out.get_mut(..bytes.len()).ok_or((21, h.code))?;
    front.copy_from_slice(&bytes);
    Ok(bytes.len())
}

/// None where no accepted frame and no accepted payload gives the command.
fn shortest(h: &Handed) -> Option<Vec<u8>> {
    let mut form = Form::new(h);
    match h.code {
        0x14 | 0x16 | 0x44 | 0x46 | 0x80 | 0x82 | 0x84 | 0x8E => form.secure()?,
        _ => {
            form.bytes.extend([0, h.code]);
            form.plain()?;
            form.bytes[0] = u8::try_from(form.bytes.len()).ok()?;
        }
    }
    form.others_blank().then_some(form.bytes)
}

/// The fields of a command, one bit each; those that a layout has are taken one by one.
const IDM: u16 = 1;
const SELECTOR: u16 = 1 << 1;
const FIRST: u16 = 1 << 2;
const SECOND: u16 = 1 << 3;
const BLOCKS: u16 = 1 << 4;
const DATA: u16 = 1 << 5;
const NUMBER: u16 = 1 << 6;
const INDEX: u16 = 1 << 7;
const OPTION: u16 = 1 << 8;
const CHOICE: u16 = 1 << 9;
const CHALLENGE_FRONT: u16 = 1 << 10;
const CHALLENGE_REST: u16 = 1 << 11;
const PACKAGE: u16 = 1 << 12;

struct Form<'a> {
    h: &'a Handed<'a>,
    bytes: Vec<u8>,
    taken: u16,
}

impl<'a> Form<'a> {
    fn new(h: &'a Handed<'a>) -> Self {
        let lists = 2 * (h.first.len() + h.second.len()) + 3 * h.numbers.len();
        Form { h, bytes: Vec::with_capacity(32 + lists + h.data.len() + h.package.len()), taken: 0 }
    }

    fn plain(&mut self) -> Option<()> {
        match self.h.code {
            0x00 => self.polling(),
            0x02 | 0x0E | 0x1E | 0x32 => self.idm().first(1, 32),
            0x04 | 0x0C | 0x3A => self.idm().done(),
            0x06 => self.idm().services_and_blocks(),
            0x08 => {
                self.idm().services_and_blocks()?;
                self.data()
            }
            0x0A | 0x24 => self.idm().number().done(),
            0x10 => {
                self.idm().first(0, 32)?;
                self.second(0, 32)?;
                self.challenge_8().done()
            }
            0x12 => self.idm().challenge_8().done(),
            0x1A => self.idm().number().index().done(),
            0x20 => self.idm().parameter(),
            0x22 | 0x38 | 0x3C | 0x3E => self.idm().zeros(2).done(),
            0x28 => self.idm().selector(1)?.first(1, 16),
            0x2E => self.number().done(),
            0x40 => {
                self.idm().selector(0xFF)?.first(1, 32)?;
                self.challenge_16().done()
            }
            0x42 => self.idm().challenge_16().done(),
            0x70 => self.zeros(2).done(),
            _ => None,
        }
    }

    fn secure(&mut self) -> Option<()> {
        match self.h.code {
            0x14 | 0x44 => self.blocks(),
            0x16 | 0x46 => {
                self.blocks()?;
                self.data()
            }
            0x80 => self.challenge_16().package().done(),
            0x82 | 0x84 => self.number().package().done(),
            _ => Some(()),
        }
    }

    fn done(&mut self) -> Option<()> {
        Some(())
    }

    fn idm(&mut self) -> &mut Self {
        self.taken |= IDM;
        self.bytes.extend_from_slice(&self.h.idm);
        self
    }

    fn selector(&mut self, greatest: u8) -> Option<&mut Self> {
        self.taken |= SELECTOR;
        self.bytes.push(self.h.selector);
        (self.h.selector <= greatest).then_some(self)
    }

    fn first(&mut self, least: usize, greatest: usize) -> Option<()> {
        self.taken |= FIRST;
        self.codes(self.h.first, least, greatest)
    }

    fn second(&mut self, least: usize, greatest: usize) -> Option<()> {
        self.taken |= SECOND;
        self.codes(self.h.second, least, greatest)
    }

    fn codes(&mut self, codes: &[u16], least: usize, greatest: usize) -> Option<()> {
        if codes.len() < least || codes.len() > greatest {
            return None;
        }
        self.bytes.push(codes.len() as u8);
        for code in codes {
            self.bytes.extend_from_slice(&code.to_le_bytes());
        }
        Some(())
    }

    fn services_and_blocks(&mut self) -> Option<()> {
        self.first(1, 16)?;
        self.blocks()
    }

    fn blocks(&mut self) -> Option<()> {
        self.taken |= BLOCKS;
        let Handed { numbers, places, modes, .. } = *self.h;
        if numbers.is_empty() || places.len() != numbers.len() || modes.len() != numbers.len() {
            return None;
        }
        self.bytes.push(u8::try_from(numbers.len()).ok()?);
        for ((&number, &place), &mode) in numbers.iter().zip(places).zip(modes) {
            if place > 15 || mode > 7 {
                return None;
            }
            let [low, high] = number.to_le_bytes();
            match high {
                0 => self.bytes.extend([0x80 | mode << 4 | place, low]),
                _ => self.bytes.extend([mode << 4 | place, low, high]),
            }
        }
        Some(())
    }

    fn data(&mut self) -> Option<()> {
        self.taken |= DATA;
        self.bytes.extend_from_slice(self.h.data);
        (self.h.data.len() == 16 * self.h.numbers.len()).then_some(())
    }

    fn number(&mut self) -> &mut Self {
        self.taken |= NUMBER;
        self.bytes.extend(self.h.number.to_le_bytes());
        self
    }

    fn index(&mut self) -> &mut Self {
        self.taken |= INDEX;
        self.bytes.extend(self.h.index.to_le_bytes());
        self
    }

    fn zeros(&mut self, count: usize) -> &mut Self {
        self.bytes.extend(std::iter::repeat_n(0, count));
        self
    }

    fn polling(&mut self) -> Option<()> {
        self.taken |= NUMBER | OPTION | CHOICE;
        let Handed { number, option, choice, .. } = *self.h;
        self.bytes.extend(number.to_be_bytes());
        self.bytes.extend([option, choice]);
        (option <= 2 && matches!(choice, 0x00 | 0x01 | 0x03 | 0x07 | 0x0F)).then_some(())
    }

    fn parameter(&mut self) -> Option<()> {
        self.taken |= OPTION | CHOICE;
        let Handed { option, choice, .. } = *self.h;
        self.bytes.extend([0, 0, 0, 0, option, choice, 0, 0]);
        (option <= 1 && choice <= 1).then_some(())
    }

    fn challenge_8(&mut self) -> &mut Self {
        self.taken |= CHALLENGE_FRONT;
        self.bytes.extend_from_slice(&self.h.challenge[..8]);
        self
    }

    fn challenge_16(&mut self) -> &mut Self {
        self.taken |= CHALLENGE_FRONT | CHALLENGE_REST;
        self.bytes.extend_from_slice(&self.h.challenge);
        self
    }

    fn package(&mut self) -> &mut Self {
        self.taken |= PACKAGE;
        self.bytes.extend_from_slice(self.h.package);
        self
    }

    fn others_blank(&self) -> bool {
        let h = self.h;
        let zero = |bytes: &[u8]| bytes.iter().all(|byte| *byte == 0);
        let blank = |field: u16, is_blank: bool| self.taken & field != 0 || is_blank;
        blank(IDM, zero(&h.idm))
            && blank(SELECTOR, h.selector == 0)
            && blank(FIRST, h.first.is_empty())
            && blank(SECOND, h.second.is_empty())
            && blank(BLOCKS, h.numbers.is_empty() && h.places.is_empty() && h.modes.is_empty())
            && blank(DATA, h.data.is_empty())
            && blank(NUMBER, h.number == 0)
            && blank(INDEX, h.index == 0)
            && blank(OPTION, h.option == 0)
            && blank(CHOICE, h.choice == 0)
            && blank(CHALLENGE_FRONT, zero(&h.challenge[..8]))
            && blank(CHALLENGE_REST, zero(&h.challenge[8..]))
            && blank(PACKAGE, h.package.is_empty())
    }
}
