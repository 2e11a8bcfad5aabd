//! References that own a root, typed by the kinds of objects: safe code over [`Heap`], for one mutator.
//!
//! ```
#![doc = include_str!("../examples/typed_roots.rs")]
//! ```
//!
//! A root cannot outlive its heap:
//!
//! ```compile_fail,E0597
//! # use gcflip::rooted::{FieldOf, Kind, Rooted};
//! # struct Pair;
//! # impl Kind for Pair { const KIND: u8 = 1; const FIELDS: u16 = 2; }
//! let pair = {
//!     let heap = Rooted::open(4096, 100).unwrap();
//!     heap.make::<Pair>().unwrap()
//! };
//! # drop(pair);
//! ```
//!
//! A field of another kind is no field of it:
//!
//! ```compile_fail,E0308
//! # use gcflip::rooted::{FieldOf, Kind, Rooted};
//! # struct Pair;
//! # impl Kind for Pair { const KIND: u8 = 1; const FIELDS: u16 = 2; }
//! # struct Point;
//! # impl Kind for Point { const KIND: u8 = 2; const FIELDS: u16 = 3; }
//! const X: FieldOf<Point, u64> = FieldOf::at(0);
//! let heap = Rooted::open(4096, 100).unwrap();
//! let pair = heap.make::<Pair>().unwrap();
//! pair.get_number(X).unwrap();
//! ```

use crate::heap::{words_of, Counts, Error, Heap, Options, Place, Result, Step, Value};
use crate::sys::Pace;
use std::cell::{Cell, RefCell};
use std::fmt;
use std::marker::PhantomData;

/// The root that values pass through. It holds a number or nil between two calls.
const PASSING: Place = Place::own(MUTATOR, 0);
/// A root that always holds nil.
const NIL: Place = Place::own(MUTATOR, 1);
const MUTATOR: u8 = 0;
const MUTATORS: u8 = 1;

/// A kind of objects. Two types that have one number are not told apart by the heap.
pub trait Kind {
    /// The number of the kind.
    const KIND: u8;
    /// The number of fields that each object of this kind has.
    const FIELDS: u16;
}

/// A field of objects of kind `K`, for values of type `T`: `u64` for numbers, or the kind of the objects that it refers to.
pub struct FieldOf<K, T>(u16, PhantomData<(K, T)>);

impl<K, T> fmt::Debug for FieldOf<K, T> {
    fn fmt(&self, formatter: &mut fmt::Formatter) -> fmt::Result {
        formatter.debug_tuple("FieldOf").field(&self.0).finish()
    }
}

impl<K, T> Clone for FieldOf<K, T> {
    fn clone(&self) -> Self {
        *self
    }
}

impl<K, T> Copy for FieldOf<K, T> {}

impl<K: Kind, T> FieldOf<K, T> {
    /// Returns the field with this number, counted from 0.
    ///
    /// # Panics
    ///
    /// Panics if the kind has no such field; in a constant, the program does not compile.
    pub const fn at(number: u16) -> Self {
        assert!(number < K::FIELDS, "the kind has fewer fields");
        FieldOf(number, PhantomData)
    }
}

/// What a [`Rooted`] heap did since it was opened.
#[derive(Clone, Copy, Debug, Default, PartialEq, Eq)]
pub struct Stats {
    /// The objects that were made.
    pub objects: u64,
    /// The words that they took.
    pub words: u64,
    /// The flips.
    pub flips: u64,
    /// The steps of the collector.
    pub steps: u64,
    /// The words that replicas took.
    pub copied: u64,
    /// The most steps in one call.
    pub longest: u32,
    /// The objects for which there was no room after whole collections.
    pub full: u64,
}

/// A heap whose objects are held by values of type [`Root`]. The collector works before each allocation, as [`Pace::default`] says.
#[derive(Debug)]
pub struct Rooted {
    heap: Heap,
    pace: RefCell<Pace>,
    /// But for the flips, which the heap counts.
    stats: Cell<Stats>,
    /// The words up to which the heap grows; 0 if it does not.
    most: u32,
    /// The extra roots that no `Root` has. It has room for all of them, so that the drop of a `Root` does not allocate.
    unused: RefCell<Vec<u32>>,
    roots: u32,
}

impl Rooted {
    /// Opens an empty heap of `size` words, at least 1, in which at most `roots` values of type [`Root`] can exist at a time.
    ///
    /// # Errors
    ///
    /// Returns `OutOfRange` if `size` is 0 or `roots` is above 1,048,576, or `NoMemory`.
    pub fn open(size: u32, roots: u32) -> Result<Rooted> {
        let heap = Heap::open_with(Options::new(size, MUTATORS).extra_roots(roots))?;
        Ok(Rooted {
            heap,
            pace: RefCell::default(),
            stats: Cell::default(),
            most: 0,
            unused: RefCell::new((0..roots).rev().collect()),
            roots,
        })
    }

    /// Lets the heap grow up to `most` words. A collection takes a larger space if there is too little room, or if more than half of the heap was in use after
    /// the last flip.
    pub fn growing(mut self, most: u32) -> Rooted {
        self.most = most;
        self
    }

    /// Makes an object of kind `K` whose fields are nil. Before that it performs the steps of the collector that are due, and whole collections if
    /// there is still no room.
    ///
    /// # Errors
    ///
    /// Returns `FrameFull` if no root is left, `Full` if the heap has no room for the object after whole collections, or `NoMemory` if there is no room and
    /// a collection gets no memory. The program then has the same objects as before.
    pub fn make<K: Kind>(&self) -> Result<Root<'_, K>> {
        let made = self.root()?;
        let words = words_of(u32::from(K::FIELDS));
        self.reserve(words)?;
        self.heap.new_object(made.place(), K::KIND, K::FIELDS)?;
        self.count(|stats| {
            stats.objects += 1;
            stats.words += u64::from(words);
        });
        Ok(made)
    }

    /// Performs a whole collection, after the open one if there is one, and returns the number of pairs of its flip.
    ///
    /// # Errors
    ///
    /// Returns `NoMemory`. The steps before the failure stay done.
    pub fn collect(&self) -> Result<u32> {
        let work = self.heap.collect()?;
        self.heap.remember(&mut self.pace.borrow_mut())?;
        self.worked(work.steps, work.copied);
        Ok(work.pairs())
    }

    /// Returns what the heap did since it was opened.
    pub fn stats(&self) -> Stats {
        let checks = self.heap.flip_checks();
        Stats { flips: checks.along + checks.whole, ..self.stats.get() }
    }

    /// Reads how full the heap is, and how far an open collection has come.
    pub fn counts(&self) -> Counts {
        self.heap.counts()
    }

    /// Returns how many values of type [`Root`] exist now.
    pub fn roots_in_use(&self) -> usize {
        self.roots as usize - self.unused.borrow().len()
    }

    /// Takes a root, which holds nil, for a reference to an object of kind `K`.
    fn root<K>(&self) -> Result<Root<'_, K>> {
        let number = self.unused.borrow_mut().pop().ok_or(Error::FrameFull)?;
        Ok(Root { owner: self, number, kind: PhantomData })
    }

    /// Makes room for so many words.
    fn reserve(&self, words: u32) -> Result<()> {
        self.grow(words, false)?;
        match self.heap.work_paced(&mut self.pace.borrow_mut(), words) {
            Ok(work) => work.into_iter().for_each(|work| self.worked(work.steps, work.copied)),
            // An allocation that has room does not wait for the memory of a collection.
            Err(Error::NoMemory) => {}
            Err(error) => return Err(error),
        }
        if self.heap.room() < words {
            self.wait(words)?;
        }
        // A collection that was open has ended in a space of the old size.
        if self.heap.room() < words && self.heap.counts().size < self.most {
            self.wait(words)?;
        }
        if self.heap.room() < words {
            self.count(|stats| stats.full += 1);
            return Err(Error::Full);
        }
        Ok(())
    }

    /// Ends the open collection, or one that takes a larger space if the heap may grow. If that makes too little room, or if there is none, performs a whole
    /// one. It begins no other, whose memory may be refused.
    fn wait(&self, words: u32) -> Result<()> {
        self.grow(words, true)?;
        if self.heap.counts().is_open {
            self.flip()?;
        }
        if self.heap.room() < words {
            self.collect()?;
        }
        Ok(())
    }

    /// Ends the open collection by its flip.
    fn flip(&self) -> Result<()> {
        loop {
            let work = self.heap.work(u32::MAX)?;
            self.worked(work.steps, work.copied);
            match work.last {
                Some(Step::Flipped { .. }) => return self.heap.remember(&mut self.pace.borrow_mut()),
                Some(Step::NoRoom) => self.heap.give_up()?,
                _ => {}
            }
        }
    }

    /// Begins a collection with a larger space, if none is open and the heap may grow. If `now` is false, one has also to be due, and more than half of the heap in
    /// use after the last flip. If the system refuses the memory, the next steps begin one of the same size.
    fn grow(&self, words: u32, now: bool) -> Result<()> {
        let counts = self.heap.counts();
        if counts.is_open || counts.size >= self.most {
            return Ok(());
        }
        let is_wanted = || {
            let pace = self.pace.borrow();
            u64::from(pace.left) * 2 > u64::from(counts.size) && self.heap.steps_due(&pace, words) > 0
        };
        if !now && !is_wanted() {
            return Ok(());
        }
        match self.heap.begin_sized(counts.size.saturating_mul(2).saturating_add(words).min(self.most)) {
            Err(Error::NoMemory) => Ok(()),
            begun => begun,
        }
    }

    /// Counts what a call of the collector did.
    fn worked(&self, steps: u32, copied: u32) {
        self.count(|stats| {
            stats.steps += u64::from(steps);
            stats.copied += u64::from(copied);
            stats.longest = stats.longest.max(steps);
        });
    }

    fn count(&self, note: impl FnOnce(&mut Stats)) {
        let mut stats = self.stats.get();
        note(&mut stats);
        self.stats.set(stats);
    }
}

/// A reference to an object of kind `K`, which it keeps alive. It owns a root of the heap, and gives it back when it is dropped.
pub struct Root<'h, K> {
    owner: &'h Rooted,
    /// The extra root.
    number: u32,
    kind: PhantomData<K>,
}

impl<K> fmt::Debug for Root<'_, K> {
    fn fmt(&self, formatter: &mut fmt::Formatter) -> fmt::Result {
        formatter.debug_tuple("Root").field(&self.number).finish()
    }
}

impl<K> Drop for Root<'_, K> {
    fn drop(&mut self) {
        self.owner.heap.clear_roots(self.number..self.number + 1).expect("the heap has this root");
        self.owner.unused.borrow_mut().push(self.number);
    }
}

impl<K> Root<'_, K> {
    fn place(&self) -> Place {
        Place::extra(MUTATORS, self.number)
    }

    /// Returns whether both refer to one object. Objects of two heaps are never one.
    pub fn is_same<T>(&self, other: &Root<'_, T>) -> bool {
        let heap = &self.owner.heap;
        std::ptr::eq(self.owner, other.owner) && heap.is_same(self.place(), other.place()).expect("the heap has both roots")
    }
}

impl<'h, K: Kind> Root<'h, K> {
    /// Returns another reference to the object.
    ///
    /// # Errors
    ///
    /// Returns `FrameFull` if no root is left.
    pub fn try_clone(&self) -> Result<Root<'h, K>> {
        let copy = self.owner.root()?;
        self.owner.heap.copy(copy.place(), self.place())?;
        Ok(copy)
    }

    /// Returns the number in a field, or `None` if the field is nil.
    ///
    /// # Errors
    ///
    /// Returns `NoNumber` if the field has a reference, because two types have one kind.
    pub fn get_number(&self, field: FieldOf<K, u64>) -> Result<Option<u64>> {
        match self.owner.heap.get(PASSING, self.place(), field.0.into())? {
            Value::Number(number) => Ok(Some(number)),
            Value::Nil => Ok(None),
            Value::Object { .. } | Value::RawObject { .. } => {
                self.owner.heap.copy(PASSING, NIL)?;
                Err(Error::NoNumber)
            }
        }
    }

    /// Puts a number below 2^63 into a field.
    ///
    /// # Errors
    ///
    /// Returns `OutOfRange` if the number is larger, or, while a collection is open, `NoMemory`. Then nothing has changed.
    pub fn put_number(&self, field: FieldOf<K, u64>, number: u64) -> Result<()> {
        self.owner.heap.set_number(PASSING, number)?;
        self.owner.heap.put(MUTATOR, self.place(), field.0.into(), PASSING)
    }

    /// Returns a reference to the object that a field refers to, or `None` if the field is nil.
    ///
    /// # Errors
    ///
    /// Returns `FrameFull` if no root is left, or `NoObject` if the field has a number or refers to an object of another kind, because two types have one
    /// kind.
    pub fn get_root<T: Kind>(&self, field: FieldOf<K, T>) -> Result<Option<Root<'h, T>>> {
        let found = self.owner.root()?;
        match self.owner.heap.get(found.place(), self.place(), field.0.into())? {
            Value::Object { kind, fields } if (kind, fields) == (T::KIND, T::FIELDS) => Ok(Some(found)),
            Value::Nil => Ok(None),
            _ => Err(Error::NoObject),
        }
    }

    /// Puts a reference into a field.
    ///
    /// # Errors
    ///
    /// Returns `OutOfRange` if the other object is in another heap, or, while a collection is open, `NoMemory`. Then nothing has changed.
    pub fn put_root<T: Kind>(&self, field: FieldOf<K, T>, other: &Root<'_, T>) -> Result<()> {
        if !std::ptr::eq(self.owner, other.owner) {
            return Err(Error::OutOfRange);
        }
        self.owner.heap.put(MUTATOR, self.place(), field.0.into(), other.place())
    }

    /// Puts nil into a field.
    ///
    /// # Errors
    ///
    /// Returns `NoMemory` only while a collection is open. Then nothing has changed.
    pub fn put_nil<T>(&self, field: FieldOf<K, T>) -> Result<()> {
        self.owner.heap.put(MUTATOR, self.place(), field.0.into(), NIL)
    }
}
