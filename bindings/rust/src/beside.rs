//! A heap whose collector works in a thread of its own, beside the program. **A program that makes no safepoints is never stopped, and then no collection
//! ends.** Needs the feature `beside`, and the library `libgcflip_beside`.
//!
//! The collector copies objects while the program reads and writes them, without a lock. It stops the program only at *safepoints*, where every
//! flip has to pass the checker. A safepoint is a call, [`Mutator::safepoint`].
//!
//! The proofs are about the calls of `gcflip_beside.h`: each command gets the reply of a heap without a collector. The loop of the collector's thread,
//! `gcflip_thread.c`, is not proved. The tests run it. This crate takes it in place of `std::thread`, so that C, Rust and Python have one loop.
//!
//! ```
//! use gcflip::beside::Mutator;
//! use gcflip::{Error, Place, Value};
//!
//! const LIST: Place = Place::shared(0);
//! const CELL: Place = Place::shared(1);
//! const NUMBER: Place = Place::shared(2);
//!
//! # fn main() -> gcflip::Result<()> {
//! let mutator = Mutator::open(65536)?;
//! for number in 0..100_000 {
//!     while mutator.new_object(CELL, 1, 2) == Err(Error::Full) {
//!         mutator.collect()?;
//!     }
//!     mutator.put_number(CELL, 0, number)?;
//!     if number % 100 != 0 {
//!         mutator.put(CELL, 1, LIST)?; // each hundredth cell begins a new list, and the old one is garbage
//!     }
//!     mutator.copy(LIST, CELL)?;
//!     mutator.safepoint();
//! }
//! assert_eq!(mutator.get(NUMBER, LIST, 0)?, Value::Number(99_999));
//! assert!(mutator.counts().flips > 0);
//! # Ok(())
//! # }
//! ```

use crate::heap::{found, replied, value_of, Place, Result, Value};
use crate::sys::beside::{Handle, RawBesideOptions};
use crate::sys::{self, FlipChecks, Frame, Pace};
use std::fmt;
use std::ops::Range;
use std::time::Duration;

/// How to open a heap: [`Mutator::open_with`] takes it.
#[derive(Clone, Debug, PartialEq, Eq)]
#[non_exhaustive]
pub struct Options {
    /// The words of the heap, at least 1.
    pub size: u32,
    /// The number of roots beside the 32 slots, at most 1048576.
    pub extra_roots: u32,
    /// When a collection begins: its factor and its least words count.
    pub pace: Pace,
    /// Each flip with this number, counted from the last one, checks both spaces whole while the mutator waits. If it is 0, none does for its number.
    pub whole_each: u32,
}

impl Options {
    /// Returns the options of a heap of `size` words, without extra roots, with the default pace. No flip checks both spaces whole for its
    /// number.
    pub fn new(size: u32) -> Options {
        Options { size, extra_roots: 0, pace: Pace::default(), whole_each: 0 }
    }

    /// Returns the same options with this number of extra roots.
    pub fn extra_roots(self, count: u32) -> Options {
        Options { extra_roots: count, ..self }
    }

    /// Returns the same options with this pace.
    pub fn pace(self, pace: Pace) -> Options {
        Options { pace, ..self }
    }

    /// Returns the same options, where each flip with this number checks both spaces whole.
    pub fn whole_each(self, flips: u32) -> Options {
        Options { whole_each: flips, ..self }
    }
}

/// What has happened since the heap was opened.
#[derive(Clone, Copy, Debug, PartialEq, Eq)]
pub struct Counts {
    /// The flips that were made.
    pub flips: u64,
    /// The flips for which memory ran out.
    pub failed: u64,
    /// The safepoints at which the mutator stopped.
    pub stops: u64,
    /// The stops of the flip that took most.
    pub most_stops: u64,
    /// The safepoints that waited until the collector had caught up, or had flipped.
    pub throttled: u64,
    /// The time that the mutator waited at safepoints, together.
    pub waited: Duration,
    /// The longest wait of a safepoint.
    pub longest_wait: Duration,
}

/// Where a mutator stands after [`Mutator::try_safepoint`].
///
/// ```
/// use gcflip::beside::{Mutator, Safepoint};
///
/// # fn main() -> gcflip::Result<()> {
/// let mutator = Mutator::open(4096)?;
/// while mutator.try_safepoint() == Safepoint::Parked {
///     std::thread::yield_now(); // or do something else that needs no command of this heap
/// }
/// # Ok(())
/// # }
/// ```
#[derive(Clone, Copy, Debug, PartialEq, Eq, Hash)]
pub enum Safepoint {
    /// It runs.
    Runs,
    /// It runs, but has allocated faster than the collector copies, so [`Mutator::safepoint`] would wait. A program that goes on may find the heap full.
    Ahead,
    /// It has stopped. Commands return [`Error::Parked`](crate::Error::Parked) until a later safepoint lets it go on.
    Parked,
}

/// A heap with one mutator, whose collector has a thread of its own. The thread ends, and the heap is freed, when it is dropped.
///
/// A root is named by its place: the shared slots and mutator 0's own ones, and then the extra roots of a heap with one mutator, as
/// [`Place`] names them.
///
/// It may move between threads, but only one thread at a time may use it: it is `Send` but not `Sync`.
///
/// ```
/// fn moves<T: Send>() {}
/// moves::<gcflip::beside::Mutator>();
/// ```
///
/// ```compile_fail,E0277
/// fn is_shared<T: Sync>() {}
/// is_shared::<gcflip::beside::Mutator>();
/// ```
pub struct Mutator {
    handle: Handle,
}

impl fmt::Debug for Mutator {
    fn fmt(&self, formatter: &mut fmt::Formatter) -> fmt::Result {
        formatter.debug_struct("Mutator").field("room", &self.room()).field("counts", &self.counts()).finish()
    }
}

impl Mutator {
    /// Opens an empty heap of `size` words, at least 1, and starts its collector's thread. All roots hold nil.
    ///
    /// # Errors
    ///
    /// Returns `OutOfRange`, or `NoMemory` also if the thread cannot be started.
    pub fn open(size: u32) -> Result<Mutator> {
        Mutator::open_with(&Options::new(size))
    }

    /// Opens an empty heap with these options, and starts its collector's thread. All roots hold nil.
    ///
    /// # Errors
    ///
    /// Returns `OutOfRange`, or `NoMemory` also if the thread cannot be started.
    pub fn open_with(options: &Options) -> Result<Mutator> {
        let Options { size, extra_roots, ref pace, whole_each } = *options;
        match Handle::open(&RawBesideOptions::new(size, extra_roots, whole_each), pace) {
            Ok(handle) => Ok(Mutator { handle }),
            Err(answer) => Err(replied(answer).expect_err("an opened heap has a handle")),
        }
    }

    /// Lets the heap grow up to `most` words. A collection takes a larger space if [`reserve`](Mutator::reserve) finds too little room, or if more than half of the
    /// heap was in use after the last flip. With 0 it does not grow.
    ///
    /// ```
    /// use gcflip::beside::Mutator;
    /// use gcflip::Place;
    ///
    /// # fn main() -> gcflip::Result<()> {
    /// let mutator = Mutator::open(4096)?.growing(1 << 20);
    /// mutator.reserve(10_000)?;
    /// mutator.new_object(Place::shared(0), 1, 9_998)?;
    /// assert!(mutator.size() > 10_000);
    /// # Ok(())
    /// # }
    /// ```
    pub fn growing(self, most: u32) -> Mutator {
        self.handle.growing(most);
        self
    }

    /// A safepoint. If the collector asks for it, the mutator stops and waits here until it may go on, after a flip or before. If the mutator has
    /// allocated faster than the collector copies, it waits until the collector has caught up, or has flipped.
    pub fn safepoint(&self) {
        self.handle.safepoint();
    }

    /// A safepoint that does not wait. If the collector asks for it, the mutator stops. If the collector has let it, it goes on. Returns where it stands then.
    pub fn try_safepoint(&self) -> Safepoint {
        match self.handle.try_safepoint() {
            sys::GCFLIP_DONE => Safepoint::Runs,
            sys::GCFLIP_PARKED => Safepoint::Parked,
            sys::GCFLIP_NOT_YET => Safepoint::Ahead,
            answer => unreachable!("a safepoint gives no answer {answer}"),
        }
    }

    /// Waits for the flip of the collection that is under way, or else of one that begins now. A program calls it where an allocation finds the heap full.
    ///
    /// # Errors
    ///
    /// Returns `NoMemory` if memory ran out for the flip. The heap is then as it was.
    pub fn collect(&self) -> Result<()> {
        replied(self.handle.collect()).map(drop)
    }

    /// A safepoint after which `words` words are free, so that an allocation which takes no more succeeds. If too few are free, waits for the flip of the
    /// collection that is under way. If they are still too few, waits for that of one which begins in this call, in a larger space if the heap may grow.
    ///
    /// # Errors
    ///
    /// Returns `Full` if that one left fewer, because live objects take the others and the heap has not grown, or `NoMemory` if memory ran out for a flip.
    pub fn reserve(&self, words: u32) -> Result<()> {
        replied(self.handle.reserve(words)).map(drop)
    }

    /// Makes an object of this kind with this number of fields, all nil, and puts a reference to it into the root.
    ///
    /// # Errors
    ///
    /// Returns `OutOfRange` if there is no such root, or `Full` if the heap has no room. A flip may make some.
    pub fn new_object(&self, root: Place, kind: u8, fields: u16) -> Result<()> {
        replied(self.handle.new_object(root.0, kind.into(), fields.into())).map(drop)
    }

    /// Makes a raw object of this kind with this number of fields, all 0, and puts a reference to it into the root.
    ///
    /// # Errors
    ///
    /// Returns `OutOfRange` if there is no such root, or `Full` if the heap has no room. A flip may make some.
    pub fn new_raw(&self, root: Place, kind: u8, fields: u16) -> Result<()> {
        replied(self.handle.new_raw(root.0, kind.into(), fields.into())).map(drop)
    }

    /// Makes an object of this kind with two fields, which take the values of roots `first` and `second`, and puts a reference to it into the root. This is
    /// `new_object` and two `put`. The root is set first, so a field that takes its value refers to the object itself.
    ///
    /// # Errors
    ///
    /// Returns `Full` if the heap has no room, or `OutOfRange` if there is no such root; or `NoMemory` if the log cannot grow.
    pub fn new_pair(&self, root: Place, kind: u8, first: Place, second: Place) -> Result<()> {
        replied(self.handle.new_pair(root.0, kind.into(), first.0, second.0)).map(drop)
    }

    /// Makes an object of this kind with a field for each source, which takes that root's value, and puts a reference to it into the root. The root is
    /// set first, so a field that takes its value refers to the object itself. The fields are logged once the collector copies.
    ///
    /// # Errors
    ///
    /// Returns `Full` if the heap has no room, or `OutOfRange` if there is no such root, or more than 65,535 sources; or `NoMemory` if the log cannot grow.
    pub fn new_from(&self, root: Place, kind: u8, sources: &[Place]) -> Result<()> {
        replied(self.handle.new_from(root.0, kind.into(), sources)).map(drop)
    }

    /// Makes an object of this kind with `count` fields, which take the values of the roots from `first` on. This is `new_from` with these roots.
    ///
    /// # Errors
    ///
    /// Returns the errors of `new_from`.
    pub fn gather(&self, root: Place, kind: u8, first: Place, count: u32) -> Result<()> {
        replied(self.handle.gather(root.0, kind.into(), first.0, count)).map(drop)
    }

    /// Reads the first `count` fields of the object that root `source` refers to into the roots from `first` on. All are read or none.
    ///
    /// # Errors
    ///
    /// Returns `NoObject`, `NoField` if the object has fewer fields, or `OutOfRange` if there are no such roots, or `source` is one of them.
    pub fn spread(&self, first: Place, source: Place, count: u32) -> Result<()> {
        replied(self.handle.spread(first.0, source.0, count)).map(drop)
    }

    /// Puts a number below 2^63 into the root.
    ///
    /// # Errors
    ///
    /// Returns `OutOfRange` if the number is larger, or if there is no such root.
    pub fn set_number(&self, root: Place, number: u64) -> Result<()> {
        replied(self.handle.set_number(root.0, number)).map(drop)
    }

    /// Puts nil into the root.
    ///
    /// # Errors
    ///
    /// Returns `OutOfRange` if there is no such root.
    pub fn set_nil(&self, root: Place) -> Result<()> {
        replied(self.handle.set_nil(root.0)).map(drop)
    }

    /// Puts nil into these roots.
    ///
    /// # Errors
    ///
    /// Returns `OutOfRange` if the heap does not have all of them, or if the range ends before it starts.
    pub fn clear(&self, roots: Range<Place>) -> Result<()> {
        replied(self.handle.clear(roots.start.0, roots.end.0)).map(drop)
    }

    /// Copies the value of root `source` into the root.
    ///
    /// # Errors
    ///
    /// Returns `OutOfRange` if there is no such root.
    pub fn copy(&self, root: Place, source: Place) -> Result<()> {
        replied(self.handle.copy(root.0, source.0)).map(drop)
    }

    /// Reads a field of the object that root `source` refers to into the root, and returns its value.
    ///
    /// # Errors
    ///
    /// Returns `NoObject`, `NoField`, or `OutOfRange` if there is no such root.
    pub fn get(&self, root: Place, source: Place, field: u32) -> Result<Value> {
        let (answer, number) = self.handle.get(root.0, source.0, field);
        match replied(answer)? {
            sys::GCFLIP_NIL => Ok(Value::Nil),
            sys::GCFLIP_NUMBER => Ok(Value::Number(number)),
            // The library's `get` does not read the object that it finds.
            _ => self.look(root),
        }
    }

    /// Returns the value of a field of the object that the root refers to. No root takes it.
    ///
    /// # Errors
    ///
    /// Returns `NoObject`, `NoField`, or `OutOfRange` if there is no such root.
    pub fn peek(&self, root: Place, field: u32) -> Result<Value> {
        let (answer, view) = self.handle.peek(root.0, field);
        Ok(value_of(replied(answer)?, &view))
    }

    /// Writes the value of root `source` into a field of the object that the root refers to. It is logged once the collector copies.
    ///
    /// # Errors
    ///
    /// Returns `NoObject`, `NoField`, `NoNumber`, or `OutOfRange` if there is no such root; or `NoMemory` if the log cannot grow.
    pub fn put(&self, root: Place, field: u32, source: Place) -> Result<()> {
        replied(self.handle.put(root.0, field, source.0)).map(drop)
    }

    /// Writes a number below 2^63 into a field of the object that the root refers to, as `put` writes a value. No root changes.
    ///
    /// # Errors
    ///
    /// Returns `NoObject`, `NoField`, or `OutOfRange` if the number is larger, or if there is no such root; or `NoMemory` if the log cannot grow.
    pub fn put_number(&self, root: Place, field: u32, number: u64) -> Result<()> {
        replied(self.handle.put_number(root.0, field, number)).map(drop)
    }

    /// Writes nil into a field of the object that the root refers to, as `put` writes a value. No root changes.
    ///
    /// # Errors
    ///
    /// Returns `NoObject`, `NoField`, `NoNumber` if the object is raw, or `OutOfRange` if there is no such root; or `NoMemory` if the log cannot grow.
    pub fn put_nil(&self, root: Place, field: u32) -> Result<()> {
        replied(self.handle.put_nil(root.0, field)).map(drop)
    }

    /// Writes the value of root `source` into these fields of the object that the root refers to, as `put` writes it into one. All are written or none.
    ///
    /// # Errors
    ///
    /// Returns `NoObject`, `NoField`, `NoNumber`, or `OutOfRange` if there is no such root, or if the range ends before it starts; or `NoMemory` if the log
    /// cannot grow.
    pub fn fill(&self, root: Place, fields: Range<u32>, source: Place) -> Result<()> {
        replied(self.handle.fill(root.0, fields.start, fields.end, source.0)).map(drop)
    }

    /// Copies `count` fields: from field `from` on, of the object that root `source` refers to, to field `to` and on of the object that the root refers to.
    /// Each takes, in rising order, the value that the other field has then. No root changes. All are copied or none.
    ///
    /// # Errors
    ///
    /// Returns `NoObject`, `NoField`, `NoNumber` if the object takes only numbers and a value is none, or `OutOfRange` if there is no such root; or `NoMemory`
    /// if the log cannot grow.
    pub fn copy_fields(&self, root: Place, to: u32, source: Place, from: u32, count: u32) -> Result<()> {
        replied(self.handle.copy_fields(root.0, to, source.0, from, count)).map(drop)
    }

    /// Copies numbers of the raw object that the root refers to: those of field `first` and of the fields after it, as many as `numbers` takes. No root
    /// changes.
    ///
    /// # Errors
    ///
    /// Returns `NoObject` if the root refers to no raw object, `NoField` if the object has fewer fields, or `OutOfRange` if there is no such root. Then
    /// `numbers` is unchanged.
    pub fn raw_read(&self, root: Place, first: u32, numbers: &mut [u64]) -> Result<()> {
        replied(self.handle.raw_read(root.0, first, numbers)).map(drop)
    }

    /// Writes numbers to the fields of the raw object that the root refers to, from field `first` on, as `put_number` writes one. No root changes. All are
    /// written or none.
    ///
    /// # Errors
    ///
    /// Returns `NoObject` if the root refers to no raw object, `NoField` if the object has fewer fields, `NoNumber` if one of the words is 2^63 or more, or
    /// `OutOfRange` if there is no such root; or `NoMemory` if the log cannot grow. Then nothing has changed.
    pub fn raw_write(&self, root: Place, first: u32, numbers: &[u64]) -> Result<()> {
        replied(self.handle.raw_write(root.0, first, numbers)).map(drop)
    }

    /// Copies the value of root `source` to the top of the frame, and moves its top up.
    ///
    /// # Errors
    ///
    /// Returns `FrameFull`, or `OutOfRange` if there is no such root, or the heap does not have all roots of the frame.
    pub fn push(&self, frame: &mut Frame, source: Place) -> Result<()> {
        replied(self.handle.push(source.0, frame)).map(drop)
    }

    /// Moves the top of the frame down, copies the value there into the root, and puts nil into that of the frame.
    ///
    /// # Errors
    ///
    /// Returns `FrameEmpty`, or `OutOfRange` if there is no such root, or the heap does not have all roots of the frame.
    pub fn pop(&self, frame: &mut Frame, root: Place) -> Result<()> {
        replied(self.handle.pop(root.0, frame)).map(drop)
    }

    /// Puts nil into at most `most` of the roots that hold values dropped from the frame, the last ones. The frame then has so many fewer.
    ///
    /// # Errors
    ///
    /// Returns `OutOfRange` if the heap does not have all roots of the frame.
    pub fn trim_frame(&self, frame: &mut Frame, most: u32) -> Result<()> {
        replied(self.handle.trim(frame, most)).map(drop)
    }

    /// Returns whether both roots hold nil, equal numbers, or references to one object.
    ///
    /// # Errors
    ///
    /// Returns `OutOfRange` if there is no such root.
    pub fn is_same(&self, first: Place, second: Place) -> Result<bool> {
        Ok(replied(self.handle.same(first.0, second.0))? == sys::GCFLIP_SAME)
    }

    /// Returns the root's value.
    ///
    /// # Errors
    ///
    /// Returns `OutOfRange` if there is no such root.
    pub fn look(&self, root: Place) -> Result<Value> {
        let (answer, view) = self.handle.look(root.0);
        Ok(value_of(replied(answer)?, &view))
    }

    /// Returns the address of the object that the root refers to, or `None` if it refers to none. The next flip gives objects other addresses.
    ///
    /// # Errors
    ///
    /// Returns `OutOfRange` if there is no such root.
    pub fn address(&self, root: Place) -> Result<Option<u32>> {
        let (answer, address) = self.handle.address(root.0);
        found(answer, address)
    }

    /// Returns the address to which the last flip moved the object that had the address `old` before it, or `None` if the object died. If no
    /// object had that address, any answer may come.
    ///
    /// # Errors
    ///
    /// Returns `OutOfRange` before the first flip.
    pub fn moved(&self, old: u32) -> Result<Option<u32>> {
        let (answer, address) = self.handle.moved(old);
        found(answer, address)
    }

    /// Puts a reference to the object that starts at this address into the root, for a table of weak references that follows its addresses by
    /// [`Mutator::moved`]. Any number may be given.
    ///
    /// # Errors
    ///
    /// Returns `NoObject` if no object starts there, or `OutOfRange` if there is no such root. The root then keeps its value.
    pub fn refer(&self, root: Place, address: u32) -> Result<()> {
        replied(self.handle.refer(root.0, address)).map(drop)
    }

    /// Returns what a look at a reference to this address would see, which is nil if no object starts there. Any number may be given. A walk over the heap
    /// begins at 1, and goes on at `address + fields + 2`, up to the end of the heap. It also meets objects that no root reaches.
    ///
    /// # Errors
    ///
    /// Returns `Parked` while the mutator has stopped, as each command does.
    pub fn object_at(&self, address: u32) -> Result<Value> {
        let (answer, view) = self.handle.object_at(address);
        Ok(value_of(replied(answer)?, &view))
    }

    /// Returns the value of a field of the object that starts at this address, and the address of the object that the value refers to. Returns nil if no
    /// object starts at the address. Any numbers may be given.
    ///
    /// # Errors
    ///
    /// Returns `NoField` if the object has no such field.
    pub fn field_at(&self, address: u32, field: u32) -> Result<(Value, Option<u32>)> {
        let (answer, view) = self.handle.field_at(address, field);
        match value_of(replied(answer)?, &view) {
            // The number of an object's view is its address, which has 32 bits.
            object @ (Value::Object { .. } | Value::RawObject { .. }) => Ok((object, Some(view.number as u32))),
            value => Ok((value, None)),
        }
    }

    /// Returns the number of flips that the mutator has gone through. It is 0 while the mutator has stopped. As long as it stays the same, so do all
    /// addresses.
    pub fn flips(&self) -> u64 {
        self.handle.flips()
    }

    /// Runs `body`, and calls `follow` after each flip meanwhile, so that the program follows its tables by [`Mutator::moved`]. The call comes within
    /// a [`safepoint`](Mutator::safepoint), a [`try_safepoint`](Mutator::try_safepoint), a [`reserve`](Mutator::reserve) or a [`collect`](Mutator::collect),
    /// before it returns. One of them may go through several flips.
    ///
    /// `follow` may perform any command. No flip comes while it runs: safepoints in it do nothing, `collect` returns `NoMemory`, and `reserve` returns `Full`
    /// if there is too little room. If it panics, the safepoint goes on with the panic. An `on_flip` within `body` replaces `follow` until it returns.
    ///
    /// ```
    /// use gcflip::beside::Mutator;
    /// use gcflip::{Place, Value};
    /// use std::cell::Cell;
    ///
    /// const A: Place = Place::shared(0);
    /// const B: Place = Place::shared(1);
    ///
    /// # fn main() -> gcflip::Result<()> {
    /// let mutator = Mutator::open(4096)?;
    /// mutator.new_object(B, 0, 5)?;
    /// mutator.new_object(A, 7, 1)?;
    /// mutator.set_nil(B)?;
    /// let object = Cell::new(mutator.address(A)?);
    /// let follow = |mutator: &Mutator| object.set(object.get().and_then(|old| mutator.moved(old).unwrap()));
    /// mutator.on_flip(follow, || mutator.collect())?;
    /// assert_eq!(object.get(), mutator.address(A)?);
    /// # Ok(())
    /// # }
    /// ```
    pub fn on_flip<R>(&self, mut follow: impl FnMut(&Mutator), body: impl FnOnce() -> R) -> R {
        self.handle.on_flip(&mut || follow(self), body)
    }

    /// Returns the number of words of the heap in which the mutator runs, or ran before it stopped. A flip may make it larger after [`growing`](Mutator::growing).
    pub fn size(&self) -> u32 {
        self.handle.size()
    }

    /// Returns the number of free words, which is 0 while the mutator has stopped. An object takes as many as it has fields, and 2 more.
    pub fn room(&self) -> u32 {
        self.handle.room()
    }

    /// Returns the number of roots: 32 slots and the extra ones. It is 0 while the mutator has stopped.
    pub fn roots(&self) -> u32 {
        self.handle.roots()
    }

    /// Returns what has happened since the heap was opened.
    pub fn counts(&self) -> Counts {
        let counts = self.handle.counts();
        Counts {
            flips: counts.flips,
            failed: counts.failed,
            stops: counts.stops,
            most_stops: counts.most_stops,
            throttled: counts.throttled,
            waited: Duration::from_nanos(counts.waited),
            longest_wait: Duration::from_nanos(counts.longest_wait),
        }
    }

    /// Returns how many flips each checker has accepted since the heap was opened.
    pub fn flip_checks(&self) -> FlipChecks {
        self.handle.flip_checks()
    }
}
