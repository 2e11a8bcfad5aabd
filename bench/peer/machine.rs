//! The mutators' commands on a heap of words, without a collector.

#[derive(Clone, Copy)]
pub struct Slot {
    pub shared: bool,
    pub index: u8,
}

#[derive(Clone, Copy)]
pub enum Op {
    New { d: Slot, kind: u8, len: u16 },
    NewRaw { d: Slot, kind: u8, len: u16 },
    Num { d: Slot, n: u64 },
    Nil { d: Slot },
    Move { d: Slot, s: Slot },
    Get { d: Slot, s: Slot, i: u16 },
    Put { s: Slot, i: u16, t: Slot },
    Same { s: Slot, t: Slot },
    Look { s: Slot },
}

pub enum View {
    Nil,
    Num(u64),
    Obj { kind: u8, len: u16 },
    RawObj { kind: u8, len: u16 },
}

pub enum Reply {
    Full,
    Made,
    Done,
    NoObject,
    NoField,
    NoNumber,
    Saw(View),
    Yes,
    No,
}

/// The words of a space up to its end: word 0, and then objects back to back, each a header, a link and its fields.
pub struct Space {
    pub size: usize,
    pub words: Vec<u64>,
}

impl Space {
    pub fn new(size: usize) -> Space {
        let mut words = Vec::with_capacity(size);
        words.push(0);
        Space { size, words }
    }

    /// Returns the number of fields of the object at an address.
    pub fn len(&self, at: usize) -> usize {
        (self.words[at] & 0xffff) as usize
    }

    /// Returns whether the fields of an object are plain numbers.
    pub fn is_raw(&self, at: usize) -> bool {
        self.words[at] >> 24 == 3
    }

    /// Places a raw object of another space at the end with its fields.
    pub fn place_copy(&mut self, from: &Space, original: usize) -> Option<usize> {
        let (at, len) = (self.words.len(), from.len(original));
        if len + 2 > self.size - at {
            return None;
        }
        self.words.push(from.words[original]);
        self.words.push(original as u64);
        self.words.extend_from_slice(&from.words[original + 2..original + 2 + len]);
        Some(at)
    }

    /// Places an object with nil fields at the end, if there is room, and returns its address.
    pub fn place(&mut self, header: u64, link: u64) -> Option<usize> {
        let (at, len) = (self.words.len(), (header & 0xffff) as usize);
        if len + 2 > self.size - at {
            return None;
        }
        self.words.push(header);
        self.words.push(link);
        self.words.resize(at + 2 + len, 0);
        Some(at)
    }
}

/// Returns the address that a word refers to.
pub fn target(word: u64) -> Option<usize> {
    (word != 0 && word % 2 == 0).then_some((word / 2) as usize)
}

pub struct Heap {
    pub space: Space,
    pub roots: Vec<u64>,
}

impl Heap {
    pub fn new(size: u32, mutators: u8) -> Heap {
        Heap { space: Space::new(size as usize), roots: vec![0; 16 + 16 * mutators as usize] }
    }

    fn place(mutator: u8, slot: Slot) -> usize {
        slot.index as usize + usize::from(!slot.shared) * (16 + 16 * mutator as usize)
    }

    fn root(&self, mutator: u8, slot: Slot) -> u64 {
        self.roots[Heap::place(mutator, slot)]
    }

    fn take(&mut self, mutator: u8, slot: Slot, word: u64) -> Reply {
        self.roots[Heap::place(mutator, slot)] = word;
        Reply::Done
    }

    fn view(&self, word: u64) -> View {
        match target(word) {
            Some(at) => {
                let (kind, len) = ((self.space.words[at] >> 16) as u8, self.space.len(at) as u16);
                if self.space.is_raw(at) { View::RawObj { kind, len } } else { View::Obj { kind, len } }
            }
            None if word == 0 => View::Nil,
            None => View::Num(word / 2),
        }
    }

    fn make(&mut self, m: u8, d: Slot, first: u64, kind: u8, len: u16) -> Reply {
        let header = (first << 24) + (u64::from(kind) << 16) + u64::from(len);
        let Some(at) = self.space.place(header, 0) else {
            return Reply::Full;
        };
        self.take(m, d, 2 * at as u64);
        Reply::Made
    }

    /// Returns the address of a field of the object that the slot refers to, and whether the object is raw.
    fn field(&self, m: u8, s: Slot, i: u16) -> Result<(bool, usize), Reply> {
        let at = target(self.root(m, s)).ok_or(Reply::NoObject)?;
        if (i as usize) < self.space.len(at) { Ok((self.space.is_raw(at), at + 2 + i as usize)) } else { Err(Reply::NoField) }
    }

    fn get(&mut self, m: u8, d: Slot, s: Slot, i: u16) -> Result<Reply, Reply> {
        let (raw, field) = self.field(m, s, i)?;
        let held = self.space.words[field];
        let word = if raw { 2 * held + 1 } else { held };
        self.take(m, d, word);
        Ok(Reply::Saw(self.view(word)))
    }

    fn put(&mut self, m: u8, s: Slot, i: u16, t: Slot) -> Result<Reply, Reply> {
        let (raw, field) = self.field(m, s, i)?;
        let word = self.root(m, t);
        if raw && word % 2 == 0 {
            return Err(Reply::NoNumber);
        }
        self.space.words[field] = if raw { word / 2 } else { word };
        Ok(Reply::Done)
    }

    pub fn apply(&mut self, m: u8, op: Op) -> Reply {
        match op {
            Op::New { d, kind, len } => self.make(m, d, 1, kind, len),
            Op::NewRaw { d, kind, len } => self.make(m, d, 3, kind, len),
            Op::Num { d, n } => self.take(m, d, 2 * n + 1),
            Op::Nil { d } => self.take(m, d, 0),
            Op::Move { d, s } => self.take(m, d, self.root(m, s)),
            Op::Get { d, s, i } => self.get(m, d, s, i).unwrap_or_else(|refused| refused),
            Op::Put { s, i, t } => self.put(m, s, i, t).unwrap_or_else(|refused| refused),
            Op::Same { s, t } if self.root(m, s) == self.root(m, t) => Reply::Yes,
            Op::Same { .. } => Reply::No,
            Op::Look { s } => Reply::Saw(self.view(self.root(m, s))),
        }
    }

    /// Returns the object and the field that a `put` of mutator m writes.
    pub fn written(&self, m: u8, s: Slot, i: u16) -> Option<(usize, usize)> {
        Some((target(self.root(m, s))?, i as usize))
    }
}
