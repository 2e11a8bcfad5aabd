//! The collector: replicas, mutation logs, and checked flips.

use crate::machine::{Heap, Op, Reply, Space, target};
use crate::pair::{self, Image};
use std::collections::VecDeque;
use std::mem;

#[derive(Clone, Copy)]
pub enum Step {
    Begin(Option<u32>),
    Roots,
    Scan,
    Apply(u8),
    Flip,
    Drop,
}

pub enum StepReply {
    Busy,
    Begun,
    Idle,
    Clean,
    NoRoom,
    Copied,
    Passed,
    Scanned,
    Applied,
    NotReady,
    Flipped(usize),
    Dropped,
}

/// An open collection. The link of an original is its replica, and that of a replica its original.
struct Collection {
    new: Space,
    logs: Vec<VecDeque<(usize, usize)>>,
    scan: usize,
    field: usize,
}

/// The new space has no room.
struct NoRoom;

impl Collection {
    /// Returns the replica of an original, and places it first if there is none.
    fn replica(&mut self, old: &mut Space, at: usize) -> Result<usize, NoRoom> {
        if old.words[at + 1] == 0 {
            let placed = if old.is_raw(at) { self.new.place_copy(old, at) } else { self.new.place(old.words[at], at as u64) };
            let placed = placed.ok_or(NoRoom)?;
            old.words[at + 1] = placed as u64;
        }
        Ok(old.words[at + 1] as usize)
    }

    /// Returns the word, with a reference to an original replaced by one to its replica.
    fn moved(&mut self, old: &mut Space, word: u64) -> Result<u64, NoRoom> {
        target(word).map_or(Ok(word), |at| Ok(2 * self.replica(old, at)? as u64))
    }

    /// Brings a field of a replica up to date with its original.
    fn bring(&mut self, old: &mut Space, original: usize, replica: usize, field: usize) -> Result<(), NoRoom> {
        let held = old.words[original + 2 + field];
        let word = if old.is_raw(original) { held } else { self.moved(old, held)? };
        self.new.words[replica + 2 + field] = word;
        Ok(())
    }

    fn scan(&mut self, old: &mut Space) -> Result<StepReply, NoRoom> {
        if self.scan == self.new.words.len() {
            return Ok(StepReply::Clean);
        }
        let len = self.new.len(self.scan);
        if self.field == len || self.new.is_raw(self.scan) {
            self.scan += len + 2;
            self.field = 0;
            return Ok(StepReply::Passed);
        }
        self.bring(old, self.new.words[self.scan + 1] as usize, self.scan, self.field)?;
        self.field += 1;
        Ok(StepReply::Scanned)
    }

    fn roots(&mut self, heap: &mut Heap) -> Result<StepReply, NoRoom> {
        match heap.roots.iter().filter_map(|word| target(*word)).find(|at| heap.space.words[at + 1] == 0) {
            Some(at) => self.replica(&mut heap.space, at).map(|_| StepReply::Copied),
            None => Ok(StepReply::Clean),
        }
    }

    fn apply(&mut self, old: &mut Space, log: usize) -> Result<StepReply, NoRoom> {
        let Some(&(original, field)) = self.logs[log].front() else {
            return Ok(StepReply::Clean);
        };
        if old.words[original + 1] != 0 {
            self.bring(old, original, old.words[original + 1] as usize, field)?;
        }
        self.logs[log].pop_front();
        Ok(StepReply::Applied)
    }

    fn is_ready(&self, heap: &Heap) -> bool {
        let copied = |word: &u64| target(*word).is_none_or(|at| heap.space.words[at + 1] != 0);
        self.logs.iter().all(VecDeque::is_empty)
            && self.scan == self.new.words.len()
            && heap.roots.iter().all(copied)
    }

    /// (original, replica), in the order of the new space.
    fn pairs(&self) -> Vec<(u64, u64)> {
        let mut pairs = Vec::new();
        let mut at = 1;
        while at < self.new.words.len() {
            pairs.push((self.new.words[at + 1], at as u64));
            at += self.new.len(at) + 2;
        }
        pairs
    }
}

fn clear_links(space: &mut Space) {
    let mut at = 1;
    while at < space.words.len() {
        space.words[at + 1] = 0;
        at += space.len(at) + 2;
    }
}

pub struct World {
    heap: Heap,
    mutators: u8,
    open: Option<Collection>,
    /// Whether the pair of a flip is kept, and the pair of the last flip, as the checker saw it.
    keeps: bool,
    kept: Option<(Image, Image, Vec<(u64, u64)>)>,
}

impl World {
    pub fn new(size: u32, mutators: u8, keeps: bool) -> World {
        World { heap: Heap::new(size, mutators), mutators, open: None, keeps, kept: None }
    }

    /// Returns the pair of the last flip, and keeps it no longer.
    pub fn take_flip(&mut self) -> Option<(Image, Image, Vec<(u64, u64)>)> {
        self.kept.take()
    }

    pub fn size(&self) -> usize {
        self.heap.space.size
    }

    /// The first word that no object takes.
    pub fn end(&self) -> usize {
        self.heap.space.words.len()
    }

    pub fn mutate(&mut self, m: u8, op: Op) -> Reply {
        let written = match op {
            Op::Put { s, i, .. } => self.heap.written(m, s, i),
            _ => None,
        };
        let reply = self.heap.apply(m, op);
        if let (Some(collection), Some(entry), Reply::Done) = (&mut self.open, written, &reply) {
            collection.logs[m as usize].push_back(entry);
        }
        reply
    }

    fn begin(&mut self, size: usize) -> StepReply {
        let logs = vec![VecDeque::new(); self.mutators as usize];
        self.open = Some(Collection { new: Space::new(size), logs, scan: 1, field: 0 });
        StepReply::Begun
    }

    fn flip(&mut self) -> StepReply {
        let Some(collection) = self.open.take_if(|collection| collection.is_ready(&self.heap)) else {
            return StepReply::NotReady;
        };
        let pairs = collection.pairs();
        let moved = |word: &u64| target(*word).map_or(*word, |at| 2 * self.heap.space.words[at + 1]);
        let roots: Vec<_> = self.heap.roots.iter().map(moved).collect();
        let old_size = self.heap.space.size;
        let old = Image::new(true, old_size, mem::take(&mut self.heap.space.words), mem::take(&mut self.heap.roots));
        let new = Image::new(true, collection.new.size, collection.new.words, roots);
        assert!(pair::check(&old, &new, &pairs).is_ok(), "a flip is refused");
        let count = pairs.len();
        let (size, words, roots) = if self.keeps {
            let parts = new.clone().parts();
            self.kept = Some((old, new, pairs));
            parts
        } else {
            new.parts()
        };
        self.heap.space = Space { size, words };
        self.heap.roots = roots;
        clear_links(&mut self.heap.space);
        StepReply::Flipped(count)
    }

    pub fn collect(&mut self, step: Step) -> StepReply {
        let Some(collection) = &mut self.open else {
            return match step {
                Step::Begin(size) => self.begin(size.map_or(self.heap.space.size, |size| size as usize)),
                _ => StepReply::Idle,
            };
        };
        let answered = match step {
            Step::Begin(_) => Ok(StepReply::Busy),
            Step::Roots => collection.roots(&mut self.heap),
            Step::Scan => collection.scan(&mut self.heap.space),
            Step::Apply(log) => collection.apply(&mut self.heap.space, log as usize),
            Step::Flip => Ok(self.flip()),
            Step::Drop => {
                self.open = None;
                clear_links(&mut self.heap.space);
                Ok(StepReply::Dropped)
            }
        };
        answered.unwrap_or_else(|NoRoom| StepReply::NoRoom)
    }
}
