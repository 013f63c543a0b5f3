//! The list reader against the answer that both parsers gave.
use crate::ours;
use crate::values::{Answer, Kind, Refusal, Values, payload, shown};
use felica::Buffers;

/// How many elements stand behind each buffer that a call is lent.
const BEHIND: usize = 3;

#[derive(Clone, Debug, PartialEq, Eq)]
struct OwnedBuffers {
    first: Vec<u16>,
    second: Vec<u16>,
    numbers: Vec<u16>,
    places: Vec<u8>,
    modes: Vec<u8>,
}

type Sizes = [usize; 5];

impl OwnedBuffers {
    fn fresh(sizes: Sizes) -> Self {
        let [first, second, numbers, places, modes] = sizes.map(|size| size + BEHIND);
        OwnedBuffers {
            first: vec![0xA1B2; first],
            second: vec![0xC3D4; second],
            numbers: vec![0xE5F6; numbers],
            places: vec![0xA7; places],
            modes: vec![0xB8; modes],
        }
    }

    fn with_lists(mut self, lists: &Values) -> Self {
        self.first[..lists.first.len()].copy_from_slice(&lists.first);
        self.second[..lists.second.len()].copy_from_slice(&lists.second);
        self.numbers[..lists.numbers.len()].copy_from_slice(&lists.numbers);
        self.places[..lists.places.len()].copy_from_slice(&lists.places);
        self.modes[..lists.modes.len()].copy_from_slice(&lists.modes);
        self
    }

    fn buffers(&mut self, sizes: Sizes) -> Buffers<'_> {
        Buffers {
            first: &mut self.first[..sizes[0]],
            second: &mut self.second[..sizes[1]],
            numbers: &mut self.numbers[..sizes[2]],
            places: &mut self.places[..sizes[3]],
            modes: &mut self.modes[..sizes[4]],
        }
    }
}

/// What the list reader is asked to read.
struct Asked<'a> {
    kind: Kind,
    code: u8,
    bytes: &'a [u8],
}

impl Asked<'_> {
    /// One call with buffers of these sizes: the right answer, and the memory after the call.
    fn gives(&self, sizes: Sizes, before: &OwnedBuffers, right: &Answer, after: &OwnedBuffers) -> Result<(), String> {
        let mut lent = before.clone();
        let buffers = lent.buffers(sizes);
        let parsed = match self.kind {
            Kind::Frame => felica::list_frame(self.bytes, buffers),
            Kind::Payload => felica::list_payload(self.bytes, buffers),
            Kind::Secure => felica::list_secure_payload(self.code, self.bytes, buffers),
        };
        let given = ours::answer_of(parsed, payload(self.kind, self.bytes))?;
        if given != *right {
            let (given, right) = (shown(&given), shown(right));
            return Err(format!("list reader with buffers of {sizes:?}: {given} instead of {right}"));
        }
        if lent != *after {
            return Err(format!("list reader with buffers of {sizes:?}: {lent:02X?} instead of {after:02X?}"));
        }
        Ok(())
    }
}

pub fn check(kind: Kind, code: u8, bytes: &[u8], answer: &Answer) -> Result<(), String> {
    let asked = Asked { kind, code, bytes };
    let Ok(expected) = answer else {
        let untouched = OwnedBuffers::fresh([0; 5]);
        asked.gives([0; 5], &untouched, answer, &untouched)?;
        return asked.gives([BEHIND; 5], &untouched, answer, &untouched);
    };
    let sizes = sizes(expected);
    let before = OwnedBuffers::fresh(sizes);
    let after = before.clone().with_lists(expected);
    asked.gives(sizes, &before, answer, &after)?;
    asked.gives(sizes.map(|size| size + BEHIND), &before, answer, &after)?;
    let too_small = Err(Refusal { number: 21, code: Some(expected.code) });
    for at in (0..5).filter(|at| sizes[*at] > 0) {
        let mut one_less = sizes;
        one_less[at] -= 1;
        asked.gives(one_less, &before, &too_small, &before)?;
    }
    Ok(())
}

fn sizes(lists: &Values) -> Sizes {
    [lists.first.len(), lists.second.len(), lists.numbers.len(), lists.places.len(), lists.modes.len()]
}
