//! The heading of a trace, and the text of replies.

use crate::collector::{Step, StepReply};
use crate::machine::{Op, Reply, View};

#[derive(Clone, Copy)]
pub enum Event {
    Mutate(u8, Op),
    Collect(Step),
}

pub enum Answer {
    Mutator(Reply),
    Collector(StepReply),
}

/// The words of a line, separated by one space.
struct Words<'a>(std::slice::Split<'a, u8, fn(&u8) -> bool>);

impl<'a> Words<'a> {
    fn new(line: &'a [u8]) -> Words<'a> {
        Words(line.split(|byte| *byte == b' '))
    }

    fn word(&mut self, wanted: &[u8]) -> Option<()> {
        (self.0.next()? == wanted).then_some(())
    }

    fn number(&mut self, most: u64) -> Option<u64> {
        decimal(self.0.next()?).filter(|n| *n <= most)
    }

    fn end(&mut self) -> Option<()> {
        self.0.next().is_none().then_some(())
    }
}

/// Reads digits without a leading zero.
pub fn decimal(digits: &[u8]) -> Option<u64> {
    if digits.is_empty() || (digits[0] == b'0' && digits.len() > 1) {
        return None;
    }
    digits.iter().try_fold(0u64, |n, digit| {
        let digit = digit.is_ascii_digit().then(|| u64::from(digit - b'0'))?;
        n.checked_mul(10)?.checked_add(digit)
    })
}

/// Returns the number of the event's mutator or log, or 0 if it has none.
pub fn mutator_of(event: &Event) -> u8 {
    match event {
        Event::Mutate(m, _) | Event::Collect(Step::Apply(m)) => *m,
        Event::Collect(_) => 0,
    }
}

fn sizes(line: &[u8]) -> Option<(u32, u8)> {
    let mut words = Words::new(line);
    words.word(b"space")?;
    let size = words.number(1_048_576).filter(|size| *size > 0)?;
    words.word(b"mutators")?;
    let mutators = words.number(16).filter(|mutators| *mutators > 0)?;
    words.end()?;
    Some((size as u32, mutators as u8))
}

/// Returns the line without its end, and the text after it.
pub fn cut(text: &[u8]) -> Option<(&[u8], &[u8])> {
    let end = text.iter().position(|byte| *byte == b'\n')?;
    Some((&text[..end], &text[end + 1..]))
}

pub fn header(text: &[u8]) -> Option<(u8, u32, u8, &[u8])> {
    let (first, rest) = cut(text)?;
    let version = match first {
        b"heaptrace 1" => 1,
        b"heaptrace 2" => 2,
        b"heaptrace 3" => 3,
        _ => return None,
    };
    let (second, rest) = cut(rest)?;
    let (size, mutators) = sizes(second)?;
    Some((version, size, mutators, rest))
}

pub fn push_answer(lines: &mut Vec<u8>, answer: &Answer) {
    match answer {
        Answer::Mutator(reply) => push_reply(lines, reply),
        Answer::Collector(reply) => push_step_reply(lines, reply),
    }
}

/// Appends a number in decimal and a byte after it.
fn push_number(lines: &mut Vec<u8>, mut n: u64, behind: u8) {
    let mut digits = [0; 21];
    let mut at = digits.len() - 1;
    digits[at] = behind;
    loop {
        at -= 1;
        digits[at] = b'0' + (n % 10) as u8;
        n /= 10;
        if n == 0 {
            break;
        }
    }
    lines.extend_from_slice(&digits[at..]);
}

fn push_step_reply(lines: &mut Vec<u8>, reply: &StepReply) {
    let line: &[u8] = match reply {
        StepReply::Busy => b"busy\n",
        StepReply::Begun => b"begun\n",
        StepReply::Idle => b"idle\n",
        StepReply::Clean => b"clean\n",
        StepReply::NoRoom => b"no room\n",
        StepReply::Copied => b"copied\n",
        StepReply::Passed => b"passed\n",
        StepReply::Scanned => b"scanned\n",
        StepReply::Applied => b"applied\n",
        StepReply::NotReady => b"not ready\n",
        StepReply::Flipped(pairs) => {
            lines.extend_from_slice(b"flipped ");
            return push_number(lines, *pairs as u64, b'\n');
        }
        StepReply::Dropped => b"dropped\n",
    };
    lines.extend_from_slice(line);
}

fn push_object(lines: &mut Vec<u8>, name: &[u8], kind: u8, len: u16) {
    lines.extend_from_slice(name);
    push_number(lines, u64::from(kind), b' ');
    push_number(lines, u64::from(len), b'\n');
}

fn push_reply(lines: &mut Vec<u8>, reply: &Reply) {
    let line: &[u8] = match reply {
        Reply::Full => b"full\n",
        Reply::Made => b"made\n",
        Reply::Done => b"done\n",
        Reply::NoObject => b"no object\n",
        Reply::NoField => b"no field\n",
        Reply::NoNumber => b"no number\n",
        Reply::Saw(View::Nil) => b"saw nil\n",
        Reply::Saw(View::Num(n)) => {
            lines.extend_from_slice(b"saw num ");
            return push_number(lines, *n, b'\n');
        }
        Reply::Saw(View::Obj { kind, len }) => return push_object(lines, b"saw obj ", *kind, *len),
        Reply::Saw(View::RawObj { kind, len }) => return push_object(lines, b"saw raw ", *kind, *len),
        Reply::Yes => b"yes\n",
        Reply::No => b"no\n",
    };
    lines.extend_from_slice(line);
}
