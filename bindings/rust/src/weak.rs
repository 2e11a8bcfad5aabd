//! Weak handles of objects, and tokens for finalizers, as those of `herbpond.h`.
//!
//! A weak handle does not keep its object alive. Once the object died, the handle gives nothing, and the table tells the program the handle's token. So a
//! finalizer gets what the program needs to clean up, and never the object.
//!
//! Handles follow their objects over each flip that a call of the table makes. A program that flips by other calls calls [`Table::follow`] after each
//! flip, before the next collection begins. Nothing here is proved. A program that calls [`Table::weak_get`] gives up two claims, as one that calls
//! [`Heap::refer`].
//!
//! ```
//! use gcflip::weak::Table;
//! use gcflip::{Heap, Place};
//!
//! const FILE: Place = Place(0);
//!
//! # fn main() -> gcflip::Result<()> {
//! let heap = Heap::open(100, 1)?;
//! let mut table = Table::new(&heap);
//! heap.new_object(FILE, 1, 1)?;
//! let handle = table.weak_new(FILE, 42)?;
//! table.collect()?;
//! assert!(table.weak_get(Place(1), handle)? && heap.is_same(FILE, Place(1))?);
//! heap.set_nil(FILE)?;
//! heap.set_nil(Place(1))?;
//! table.collect()?;
//! assert_eq!((table.weak_get(FILE, handle)?, table.weak_next_dead()?), (false, Some(42)));
//! # Ok(())
//! # }
//! ```

use crate::heap::{Error, Heap, Place, Result, Step};
use crate::sys::Pace;

/// A weak handle. No two handles of a table are the same.
#[derive(Clone, Copy, Debug, PartialEq, Eq, Hash)]
pub struct Weak(u64);

impl Weak {
    /// Returns the handle as a number from 1 to [`MOST_INT`](crate::values::MOST_INT), so that a field can hold it as an integer.
    pub const fn number(self) -> u64 {
        self.0
    }

    /// Returns the handle with this number. A table refuses one that it did not give.
    pub const fn from_number(number: u64) -> Weak {
        Weak(number)
    }
}

const MOST_USES: u32 = (1 << 29) - 1;
const MOST_ENTRIES: usize = 1 << 31;

/// What the table knows of an entry, whose object is alive, died, or died before the handle was freed.
#[derive(Clone, Copy, Debug, PartialEq, Eq)]
enum State {
    Unused,
    Alive { address: u32 },
    Dead,
    Freed,
}

#[derive(Debug)]
struct Entry {
    token: u64,
    state: State,
    /// The number of handles that have had this entry.
    uses: u32,
}

/// The weak handles of a heap. A flip takes constant time for each handle, and no other call takes longer because there are handles.
#[derive(Debug)]
pub struct Table<'h> {
    heap: &'h Heap,
    entries: Vec<Entry>,
    /// The numbers of dead and freed entries, and of unused ones.
    dead: Vec<u32>,
    unused: Vec<u32>,
    alive: usize,
    /// The flips up to which the objects were followed.
    flips: u64,
}

impl<'h> Table<'h> {
    /// Returns a table without handles.
    pub fn new(heap: &'h Heap) -> Table<'h> {
        Table { heap, entries: Vec::new(), dead: Vec::new(), unused: Vec::new(), alive: 0, flips: flips_of(heap) }
    }

    /// Returns a weak handle of the object that the root refers to, with a token of the program's choice.
    ///
    /// # Errors
    ///
    /// Returns `NoObject`, `OutOfRange` if there is no such root, `NoMemory` if the table cannot grow, or the errors of [`Table::follow`].
    pub fn weak_new(&mut self, root: Place, token: u64) -> Result<Weak> {
        self.follow()?;
        let state = State::Alive { address: self.heap.address(root)?.ok_or(Error::NoObject)? };
        let number = self.unused_entry()?;
        let entry = &mut self.entries[number as usize];
        *entry = Entry { token, state, uses: entry.uses + 1 };
        self.alive += 1;
        Ok(Weak(u64::from(entry.uses) << 32 | u64::from(number)))
    }

    /// Puts a reference to the object of a handle into the root, and returns true. Returns false if the object died or the handle was freed; the root then
    /// keeps its value.
    ///
    /// # Errors
    ///
    /// Returns `OutOfRange` if there is no such root or if the table gave no such handle, or the errors of [`Table::follow`].
    pub fn weak_get(&mut self, root: Place, weak: Weak) -> Result<bool> {
        self.heap.look(root)?;
        self.follow()?;
        match self.find(weak)?.map(|number| self.entries[number].state) {
            Some(State::Alive { address }) => self.heap.refer(root, address).map(|()| true),
            _ => Ok(false),
        }
    }

    /// Frees a handle, whose token is not told any more. Does nothing if it was freed before.
    ///
    /// # Errors
    ///
    /// Returns `OutOfRange` if the table gave no such handle.
    pub fn weak_free(&mut self, weak: Weak) -> Result<()> {
        let Some(number) = self.find(weak)? else {
            return Ok(());
        };
        if self.entries[number].state == State::Dead {
            self.entries[number].state = State::Freed;
        } else {
            self.alive -= 1;
            self.recycle(number);
        }
        Ok(())
    }

    /// Returns the token of a handle whose object died, and frees the handle. Returns `None` if there is none.
    ///
    /// # Errors
    ///
    /// Returns the errors of [`Table::follow`].
    pub fn weak_next_dead(&mut self) -> Result<Option<u64>> {
        self.follow()?;
        while let Some(number) = self.dead.pop() {
            let Entry { token, state, .. } = self.entries[number as usize];
            self.recycle(number as usize);
            if state == State::Dead {
                return Ok(Some(token));
            }
        }
        Ok(None)
    }

    /// Follows the objects of handles over a new flip.
    ///
    /// # Errors
    ///
    /// Returns `OutOfRange` if two flips passed, or if the next collection began: the table then cannot know where the objects are.
    pub fn follow(&mut self) -> Result<()> {
        let flips = flips_of(self.heap);
        if flips != self.flips && self.alive > 0 {
            if flips != self.flips + 1 {
                return Err(Error::OutOfRange);
            }
            self.move_all()?;
        }
        self.flips = flips;
        Ok(())
    }

    /// Ends the open collection, and performs a whole one, which frees all that no root reaches now.
    ///
    /// # Errors
    ///
    /// Returns `NoMemory`, or the errors of [`Table::follow`].
    pub fn collect(&mut self) -> Result<()> {
        if self.heap.counts().is_open {
            self.flip()?;
        }
        self.flip()
    }

    /// Makes room for so many words: performs the steps that are due, and whole collections if fewer words are free then.
    ///
    /// # Errors
    ///
    /// Returns `Full` if fewer words are free after a whole collection, `NoMemory` if there is no room and a collection gets no memory, `OutOfRange` if the
    /// pace's factor is, or the errors of [`Table::follow`].
    pub fn reserve(&mut self, pace: &mut Pace, words: u32) -> Result<()> {
        match self.heap.work_paced(pace, words) {
            // An allocation that has room does not wait for the memory of a collection.
            Ok(_) | Err(Error::NoMemory) => self.follow()?,
            Err(error) => return Err(error),
        }
        if self.heap.room() < words {
            self.collect()?;
            self.heap.remember(pace)?;
        }
        if self.heap.room() < words {
            return Err(Error::Full);
        }
        Ok(())
    }

    /// Ends the open collection by its flip, or performs a whole one if none is open.
    fn flip(&mut self) -> Result<()> {
        loop {
            match self.heap.work(u32::MAX)?.last {
                Some(Step::Flipped { .. }) => return self.follow(),
                Some(Step::NoRoom) => self.heap.give_up()?,
                _ => {}
            }
        }
    }

    /// Writes to each handle where the last flip moved its object, or adds it to those of the dead.
    fn move_all(&mut self) -> Result<()> {
        for (entry, number) in self.entries.iter_mut().zip(0..) {
            let State::Alive { address } = entry.state else { continue };
            if let Some(address) = self.heap.moved(address)? {
                entry.state = State::Alive { address };
            } else {
                entry.state = State::Dead;
                self.alive -= 1;
                self.dead.push(number);
            }
        }
        Ok(())
    }

    /// Returns the number of an unused entry, or of one more. The lists then have room for it.
    fn unused_entry(&mut self) -> Result<u32> {
        if let Some(number) = self.unused.pop() {
            return Ok(number);
        }
        let count = self.entries.len();
        if count == MOST_ENTRIES {
            return Err(Error::NoMemory);
        }
        self.entries.try_reserve(1).map_err(|_| Error::NoMemory)?;
        for list in [&mut self.dead, &mut self.unused] {
            list.try_reserve(count + 1 - list.len()).map_err(|_| Error::NoMemory)?;
        }
        self.entries.push(Entry { token: 0, state: State::Unused, uses: 0 });
        Ok(count as u32)
    }

    /// Makes an entry unused. One that had as many handles as it can have is left out.
    fn recycle(&mut self, number: usize) {
        let entry = &mut self.entries[number];
        entry.state = State::Unused;
        if entry.uses < MOST_USES {
            self.unused.push(number as u32);
        }
    }

    /// Returns the number of a handle's entry, or `None` if the handle was freed.
    fn find(&self, weak: Weak) -> Result<Option<usize>> {
        let (number, uses) = (weak.0 as u32 as usize, weak.0 >> 32);
        let entry = self.entries.get(number).ok_or(Error::OutOfRange)?;
        if uses == 0 || uses > u64::from(entry.uses) {
            return Err(Error::OutOfRange);
        }
        let is_held = uses == u64::from(entry.uses) && matches!(entry.state, State::Alive { .. } | State::Dead);
        Ok(is_held.then_some(number))
    }
}

/// Returns the number of flips since the heap was opened.
fn flips_of(heap: &Heap) -> u64 {
    let checks = heap.flip_checks();
    checks.along + checks.whole
}
