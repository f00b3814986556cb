//! The lines a roll prints, into a lent buffer with room for the longest text; bytes past the text keep their values.
use super::{Made, Refusal, Word};

pub struct Text<'a> {
    bytes: &'a mut [u8],
    length: usize,
}

impl<'a> Text<'a> {
    pub fn new(bytes: &'a mut [u8]) -> Text<'a> {
        Text { bytes, length: 0 }
    }

    pub fn len(&self) -> usize {
        self.length
    }

    #[inline(always)]
    pub fn put(&mut self, part: &[u8]) {
        self.bytes[self.length..][..part.len()].copy_from_slice(part);
        self.length += part.len();
    }

    fn number(&mut self, number: u32) {
        let digits = number.checked_ilog10().unwrap_or(0) as usize + 1;
        let mut left = number;
        for digit in self.bytes[self.length..][..digits].iter_mut().rev() {
            *digit = b'0' + (left % 10) as u8;
            left /= 10;
        }
        self.length += digits;
    }

    pub fn bench(&mut self, own: u8, n: u8) {
        self.put(b"bench ");
        self.number(own.into());
        self.put(b" of ");
        self.number(n.into());
        self.put(b"\n");
    }

    pub fn begin(&mut self, beat: u32, answer: Result<(), Refusal>) {
        self.put(b"begin ");
        self.number(beat);
        match answer {
            Ok(()) => self.put(b" ok\n"),
            Err(refusal) => self.refusal(refusal),
        }
    }

    pub fn take(&mut self, answer: Result<Word, Refusal>) {
        match answer {
            Ok(Word::First) => self.put(b"take first\n"),
            Ok(Word::Second) => self.put(b"take second\n"),
            Ok(Word::Known) => self.put(b"take known\n"),
            Err(refusal) => {
                self.put(b"take");
                self.refusal(refusal);
            }
        }
    }

    pub fn act(&mut self, answer: Result<Made, Refusal>, decided: u8, parted: bool) {
        let blocks = match answer {
            Ok(Made::Nothing) => {
                self.put(b"act none ");
                0
            }
            Ok(Made::Log(blocks)) => {
                self.put(b"act log ");
                blocks
            }
            Ok(Made::Proposal(blocks)) => {
                self.put(b"act proposal ");
                blocks
            }
            Err(refusal) => {
                self.put(b"act");
                return self.refusal(refusal);
            }
        };
        self.number(blocks.into());
        self.put(b" ");
        self.number(decided.into());
        self.put(if parted { b" parted\n".as_slice() } else { b"\n".as_slice() });
    }

    fn refusal(&mut self, refusal: Refusal) {
        self.put(b" ");
        self.number(refusal.into());
        self.put(b"\n");
    }
}
