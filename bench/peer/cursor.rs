//! Reads a text from its front in one pass, without cutting lines or words first. `None` means a line that is not in
//! canonical form.

use crate::collector::Step;
use crate::machine::{Op, Slot};
use crate::text::Event;

pub struct Cursor<'a> {
    pub bytes: &'a [u8],
    pub at: usize,
}

impl Cursor<'_> {
    fn byte(&mut self) -> Option<u8> {
        let byte = *self.bytes.get(self.at)?;
        self.at += 1;
        Some(byte)
    }

    pub fn skip<const N: usize>(&mut self, word: &[u8; N]) -> Option<()> {
        let found = self.bytes[self.at..].first_chunk() == Some(word);
        found.then(|| self.at += N)
    }

    /// Reads digits without a leading zero. The caller tests what follows them.
    pub fn decimal(&mut self, most: u64) -> Option<u64> {
        let first = self.byte()?.wrapping_sub(b'0');
        if first > 9 {
            return None;
        }
        if first == 0 {
            return Some(0);
        }
        let mut value = u64::from(first);
        let from = self.at;
        while let Some(digit) = self.bytes.get(self.at).map(|byte| byte.wrapping_sub(b'0')).filter(|digit| *digit < 10) {
            // Nineteen digits always fit in 64 bits.
            value = if self.at - from < 18 {
                value * 10 + u64::from(digit)
            } else {
                value.checked_mul(10)?.checked_add(u64::from(digit))?
            };
            self.at += 1;
        }
        (value <= most).then_some(value)
    }

    /// Reads 0 to 15, without a branch for the second digit. A line end always follows, so there are two bytes.
    fn nibble(&mut self) -> Option<u8> {
        let word = self.bytes[self.at..].first_chunk::<2>()?;
        let (tens, ones) = (word[0].wrapping_sub(b'0'), word[1].wrapping_sub(b'0'));
        let two = u8::from(ones < 10);
        let n = tens.wrapping_add(two.wrapping_mul(tens.wrapping_mul(9).wrapping_add(ones)));
        if (tens > 9) | (n > 15) | ((two == 1) & (tens == 0)) {
            return None;
        }
        self.at += 1 + usize::from(two);
        Some(n)
    }

    fn slot(&mut self) -> Option<Slot> {
        let letter = self.byte()?;
        let index = self.nibble()?;
        ((letter == b'g') | (letter == b'r')).then_some(Slot { shared: letter == b'g', index })
    }

    fn slot_and_space(&mut self) -> Option<Slot> {
        let slot = self.slot()?;
        self.skip(b" ")?;
        Some(slot)
    }

    fn number_and_space(&mut self, most: u64) -> Option<u64> {
        let number = self.decimal(most)?;
        self.skip(b" ")?;
        Some(number)
    }

    /// Reads an event's line with its line feed.
    pub fn event(&mut self, version: u8) -> Option<Event> {
        let event = match self.byte()? {
            b'm' => {
                self.skip(b" ")?;
                let m = self.nibble()?;
                self.skip(b" ")?;
                Event::Mutate(m, self.op(version)?)
            }
            b'c' => {
                self.skip(b" ")?;
                Event::Collect(self.step(version)?)
            }
            _ => return None,
        };
        self.skip(b"\n")?;
        Some(event)
    }

    fn op(&mut self, version: u8) -> Option<Op> {
        match self.byte()? {
            b'n' => self.new_num_nil(),
            b'r' if version > 2 => {
                self.skip(b"aw ")?;
                let d = self.slot_and_space()?;
                let kind = self.number_and_space(255)? as u8;
                Some(Op::NewRaw { d, kind, len: self.decimal(65535)? as u16 })
            }
            b'm' => {
                self.skip(b"ove ")?;
                Some(Op::Move { d: self.slot_and_space()?, s: self.slot()? })
            }
            b'g' => {
                self.skip(b"et ")?;
                Some(Op::Get { d: self.slot_and_space()?, s: self.slot_and_space()?, i: self.decimal(65535)? as u16 })
            }
            b'p' => {
                self.skip(b"ut ")?;
                let s = self.slot_and_space()?;
                let i = self.number_and_space(65535)? as u16;
                Some(Op::Put { s, i, t: self.slot()? })
            }
            b's' => {
                self.skip(b"ame ")?;
                Some(Op::Same { s: self.slot_and_space()?, t: self.slot()? })
            }
            b'l' => {
                self.skip(b"ook ")?;
                Some(Op::Look { s: self.slot()? })
            }
            _ => None,
        }
    }

    fn new_num_nil(&mut self) -> Option<Op> {
        match self.byte()? {
            b'e' => {
                self.skip(b"w ")?;
                let d = self.slot_and_space()?;
                let kind = self.number_and_space(255)? as u8;
                Some(Op::New { d, kind, len: self.decimal(65535)? as u16 })
            }
            b'u' => {
                self.skip(b"m ")?;
                Some(Op::Num { d: self.slot_and_space()?, n: self.decimal(i64::MAX as u64)? })
            }
            b'i' => {
                self.skip(b"l ")?;
                Some(Op::Nil { d: self.slot()? })
            }
            _ => None,
        }
    }

    fn step(&mut self, version: u8) -> Option<Step> {
        match self.byte()? {
            b'b' => {
                self.skip(b"egin")?;
                if version < 2 || self.skip(b" ").is_none() {
                    return Some(Step::Begin(None));
                }
                let size = self.decimal(1_048_576).filter(|size| *size > 0)?;
                Some(Step::Begin(Some(size as u32)))
            }
            b'r' => self.skip(b"oots").map(|()| Step::Roots),
            b's' => self.skip(b"can").map(|()| Step::Scan),
            b'a' => {
                self.skip(b"pply ")?;
                Some(Step::Apply(self.nibble()?))
            }
            b'f' => self.skip(b"lip").map(|()| Step::Flip),
            b'd' => self.skip(b"rop").map(|()| Step::Drop),
            _ => None,
        }
    }
}
