//! Pairs of heaps: their text, and the check of their certificates.

use crate::cursor::Cursor;
use std::fmt::Write;

/// The most bytes of a pair text.
pub const LIMIT: u64 = 67_108_864;

#[derive(Clone)]
pub struct Image {
    size: u64,
    words: Vec<u64>,
    end: u64,
    roots: Vec<u64>,
    /// Whether headers of raw objects are valid.
    raws: bool,
}

impl Image {
    pub fn new(raws: bool, size: usize, words: Vec<u64>, roots: Vec<u64>) -> Image {
        Image { size: size as u64, end: words.len() as u64, words, roots, raws }
    }

    /// The size, the words and the roots.
    pub fn parts(self) -> (usize, Vec<u64>, Vec<u64>) {
        (self.size as usize, self.words, self.roots)
    }
}

/// The lines of a text, each read from its front in one pass.
struct Lines<'a> {
    cursor: Cursor<'a>,
    number: u64,
}

impl<'a> Lines<'a> {
    /// Reads the next line with `read`, and then its line feed.
    fn next<T>(&mut self, read: impl Fn(&mut Cursor<'a>) -> Option<T>) -> Result<T, String> {
        let start = self.cursor.at;
        let found = read(&mut self.cursor).filter(|_| self.cursor.skip(b"\n").is_some());
        self.number += 1;
        found.ok_or_else(|| match memchr(&self.cursor.bytes[start..]) {
            true => format!("pair: bad line {}", self.number),
            false => "pair: ends early".to_string(),
        })
    }

    fn words(&mut self, count: u64) -> Result<Vec<u64>, String> {
        let mut words = Vec::with_capacity((count as usize).min(self.cursor.bytes.len() / 2));
        for _ in 0..count {
            words.push(self.next(|cursor| cursor.decimal(u64::MAX))?);
        }
        Ok(words)
    }

    fn count(&mut self, name: &'static [u8], most: u64) -> Result<u64, String> {
        self.next(|cursor| {
            behind(cursor, name)?;
            cursor.decimal(most)
        })
    }

    fn image(&mut self, name: &'static [u8], raws: bool) -> Result<Image, String> {
        let in_range = |n: &u64| (1..=1_048_576).contains(n);
        let (size, end) = self.next(|cursor| {
            behind(cursor, name)?;
            two(cursor).filter(|(size, end)| in_range(size) && in_range(end))
        })?;
        let words = self.words(end)?;
        let count = self.count(b"roots", 272)?;
        let roots = self.words(count)?;
        Ok(Image { size, words, end, roots, raws })
    }
}

/// Returns whether a line feed is left.
fn memchr(text: &[u8]) -> bool {
    text.contains(&b'\n')
}

/// Takes a name and a space.
fn behind(cursor: &mut Cursor<'_>, name: &[u8]) -> Option<()> {
    cursor.bytes[cursor.at..].strip_prefix(name)?;
    cursor.at += name.len();
    cursor.skip(b" ")
}

fn two(cursor: &mut Cursor<'_>) -> Option<(u64, u64)> {
    let first = cursor.decimal(u64::MAX)?;
    cursor.skip(b" ")?;
    Some((first, cursor.decimal(u64::MAX)?))
}

/// Returns where objects start, or the first wrong address.
fn starts(image: &Image) -> Result<Vec<bool>, usize> {
    if image.end > image.size || image.words[0] != 0 {
        return Err(0);
    }
    let mut starts = vec![false; image.words.len()];
    let mut at = 1;
    while at < image.words.len() {
        let header = image.words[at];
        let next = at + 2 + (header & 0xffff) as usize;
        if !(header >> 24 == 1 || (image.raws && header >> 24 == 3)) || next > image.words.len() {
            return Err(at);
        }
        starts[at] = true;
        at = next;
    }
    Ok(starts)
}

/// Returns the partner of each old address, or 0 if it has none; or the refusal.
fn partners(old: &Image, new: &Image, pairs: &[(u64, u64)]) -> Result<Vec<u64>, String> {
    let old_starts = starts(old).map_err(|at| format!("1 OldShape {at}"))?;
    let new_starts = starts(new).map_err(|at| format!("2 NewShape {at}"))?;
    if old.roots.len() != new.roots.len() {
        return Err("3 RootCount".to_string());
    }
    let is_start = |starts: &[bool], at: u64| starts.get(at as usize).copied().unwrap_or(false);
    let mut partners = vec![0; old.words.len()];
    let mut last = 0;
    for (k, (a, b)) in pairs.iter().enumerate() {
        if !is_start(&old_starts, *a) {
            return Err(format!("4 OldNotStart {k}"));
        } else if !is_start(&new_starts, *b) {
            return Err(format!("5 NewNotStart {k}"));
        } else if *b <= last {
            return Err(format!("6 NotRising {k}"));
        } else if partners[*a as usize] != 0 {
            return Err(format!("7 Twice {k}"));
        }
        partners[*a as usize] = *b;
        last = *b;
    }
    Ok(partners)
}

/// Returns whether both words are nil, or the same number, or references to a pair.
fn correspond(partners: &[u64], old: u64, new: u64) -> bool {
    if old == 0 || old % 2 == 1 {
        return old == new;
    }
    let partner = partners.get((old / 2) as usize).copied().unwrap_or(0);
    partner != 0 && new == 2 * partner
}

/// Returns the first refusal, if there is one.
pub fn check(old: &Image, new: &Image, pairs: &[(u64, u64)]) -> Result<(), String> {
    let partners = partners(old, new, pairs)?;
    for (k, (a, b)) in pairs.iter().enumerate() {
        let (a, b) = (*a as usize, *b as usize);
        if old.words[a] != new.words[b] {
            return Err(format!("8 HeaderDiffers {k}"));
        }
        let raw = old.words[a] >> 24 == 3;
        for i in 0..(old.words[a] & 0xffff) as usize {
            if raw && old.words[a + 2 + i] == new.words[b + 2 + i] {
                continue;
            }
            if raw || !correspond(&partners, old.words[a + 2 + i], new.words[b + 2 + i]) {
                return Err(format!("9 FieldDiffers {k} {i}"));
            }
        }
    }
    let differs = |slot: &usize| !correspond(&partners, old.roots[*slot], new.roots[*slot]);
    (0..old.roots.len()).find(differs).map_or(Ok(()), |slot| Err(format!("10 RootDiffers {slot}")))
}

/// Returns the images and the pairs of a text, or the line of its first fault.
pub fn read(text: &[u8]) -> Result<(Image, Image, Vec<(u64, u64)>), String> {
    if text.len() as u64 > LIMIT {
        return Err("pair: too large".to_string());
    }
    let mut lines = Lines { cursor: Cursor { bytes: text, at: 0 }, number: 0 };
    let raws = lines.next(|cursor| {
        cursor.skip(b"heappair ")?;
        cursor.decimal(2).filter(|version| *version > 0).map(|version| version == 2)
    })?;
    let old = lines.image(b"old", raws)?;
    let new = lines.image(b"new", raws)?;
    let count = lines.count(b"pairs", 524_287)?;
    let address = |n: &u64| *n <= u64::from(u32::MAX);
    let mut pairs = Vec::with_capacity((count as usize).min(text.len() / 4));
    for _ in 0..count {
        pairs.push(lines.next(|cursor| two(cursor).filter(|(a, b)| address(a) && address(b)))?);
    }
    lines.next(|cursor| cursor.skip(b"end"))?;
    if lines.cursor.at < text.len() {
        return Err(format!("pair: bad line {}", lines.number + 1));
    }
    Ok((old, new, pairs))
}

/// Returns the verdict on the pair that the text spells, with its status, or the line of the text's first fault.
pub fn verdict(text: &[u8]) -> Result<(String, u8), String> {
    let (old, new, pairs) = read(text)?;
    Ok(match check(&old, &new, &pairs) {
        Ok(()) => (format!("yes {}\n", pairs.len()), 0),
        Err(refusal) => (format!("refused {refusal}\n"), 1),
    })
}

fn push_image(text: &mut String, name: &str, image: &Image) {
    let _ = writeln!(text, "{name} {} {}", image.size, image.end);
    for word in &image.words {
        let _ = writeln!(text, "{word}");
    }
    let _ = writeln!(text, "roots {}", image.roots.len());
    for word in &image.roots {
        let _ = writeln!(text, "{word}");
    }
}

/// Returns the text of a flip's pair.
pub fn text(old: &Image, new: &Image, pairs: &[(u64, u64)]) -> Vec<u8> {
    let mut text = String::new();
    let _ = writeln!(text, "heappair {}", if old.raws { 2 } else { 1 });
    push_image(&mut text, "old", old);
    push_image(&mut text, "new", new);
    let _ = writeln!(text, "pairs {}", pairs.len());
    for (a, b) in pairs {
        let _ = writeln!(text, "{a} {b}");
    }
    text.push_str("end\n");
    text.into_bytes()
}
