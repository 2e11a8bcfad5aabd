//! Arrays of any length in a heap, laid out as those of `herbpond_arrays.h`.
//!
//! An array is an object with two fields: its length, and its elements. Up to [`PART`] elements are in one part. More are in parts of [`PART`] elements
//! each, to which a spine refers. So a push copies at most [`PART`] elements, or the references to all parts. The program chooses the array's kind, and
//! does not write the two fields itself.
//!
//! Nothing here is proved. The calls below are safe code over [`Heap`].
//!
//! ```
//! use gcflip::arrays::Arrays;
//! use gcflip::values::Value;
//! use gcflip::{Heap, Place};
//!
//! const LIST: Place = Place(0);
//! const X: Place = Place(1);
//!
//! # fn main() -> gcflip::Result<()> {
//! let heap = Heap::open(200_000, 1)?;
//! let arrays = Arrays::new(&heap, 0, [Place(29), Place(30), Place(31)]);
//! arrays.new_array(LIST, 7, 0)?;
//! for k in 0..70_000 {
//!     heap.set_int(X, k)?;
//!     arrays.push(LIST, X)?;
//! }
//! arrays.get(X, LIST, 69_999)?;
//! assert_eq!((arrays.length(LIST)?, heap.value(X)?), (70_000, Value::Int(69_999)));
//! # Ok(())
//! # }
//! ```

use crate::heap::{Error, Heap, Place, Result};
use crate::sys::Pace;
use crate::values::{code_of_int, Value};
use std::cell::RefCell;

/// How many elements a part holds.
pub const PART: u32 = 4096;
/// The most elements of an array.
pub const MOST_ELEMENTS: u32 = MOST_PARTS * PART;
/// The kind of an object that refers to the parts of a long array. A program uses other kinds.
pub const KIND_SPINE: u8 = 253;
/// The kind of an object with elements of an array. A program uses other kinds.
pub const KIND_PART: u8 = 254;

const MOST_PARTS: u32 = 65535;
const FIRST_ROOM: u32 = 8;
const LENGTH: u32 = 0;
const ELEMENTS: u32 = 1;
const ARRAY_FIELDS: u32 = 2;
/// The words of an object beside its fields.
const HEADER: u32 = 2;

/// The calls on arrays of a heap. Each makes room by collections where it makes objects. A log that cannot grow gives the open collection up.
#[derive(Debug)]
pub struct Arrays<'h> {
    heap: &'h Heap,
    mutator: u8,
    old: Place,
    new: Place,
    scratch: Place,
    pace: RefCell<Pace>,
}

impl<'h> Arrays<'h> {
    /// Returns the calls of this mutator. They write three roots of their own, which hold nil between calls; the program passes no call one of these.
    pub fn new(heap: &'h Heap, mutator: u8, own: [Place; 3]) -> Arrays<'h> {
        let [old, new, scratch] = own;
        Arrays { heap, mutator, old, new, scratch, pace: RefCell::default() }
    }

    /// Makes an array of `length` nils, and puts a reference to it into the root.
    ///
    /// # Errors
    ///
    /// Returns `OutOfRange` if there is no such root or mutator or if `length` is above [`MOST_ELEMENTS`], `Full` if the heap has no room for it after whole
    /// collections, or `NoMemory` if there is no room and a collection gets no memory. The root then keeps its value.
    pub fn new_array(&self, root: Place, kind: u8, length: u32) -> Result<()> {
        self.forgetting(|| {
            if length > MOST_ELEMENTS {
                return Err(Error::OutOfRange);
            }
            let parts = if length <= PART { 0 } else { length.div_ceil(PART) };
            let first = if parts > 0 { parts } else { length };
            self.reserve(ARRAY_FIELDS + HEADER + first + HEADER + parts * (PART + HEADER))?;
            self.make(self.new, kind, ARRAY_FIELDS)?;
            if length > 0 {
                self.make(self.old, if parts > 0 { KIND_SPINE } else { KIND_PART }, first)?;
                self.store(self.new, ELEMENTS, self.old)?;
            }
            for k in 0..parts {
                self.make(self.scratch, KIND_PART, PART)?;
                self.store(self.old, k, self.scratch)?;
            }
            self.write_length(self.new, length)?;
            self.heap.copy(root, self.new)
        })
    }

    /// Returns the length of the array in the root.
    ///
    /// # Errors
    ///
    /// Returns `NoObject` or `NoField` if the root refers to no array, `NoNumber` if the object's first field is no length, or `OutOfRange` if there is no
    /// such root.
    pub fn length(&self, array: Place) -> Result<u32> {
        match self.heap.field(array, LENGTH)? {
            Value::Int(length) => u32::try_from(length).map_err(|_| Error::NoNumber),
            _ => Err(Error::NoNumber),
        }
    }

    /// Copies element `i` of the array into the root, which may be that of the array.
    ///
    /// # Errors
    ///
    /// Returns the errors of [`Arrays::length`], or `NoField` if the array has no such element. The root then keeps its value.
    pub fn get(&self, root: Place, array: Place, i: u32) -> Result<()> {
        self.forgetting(|| {
            let field = self.part(array, i, self.length(array)?)?;
            self.heap.get(root, self.old, field).map(drop)
        })
    }

    /// Writes the value of root `source` into element `i` of the array.
    ///
    /// # Errors
    ///
    /// Returns the errors of [`Arrays::length`], `NoField` if the array has no such element, or `OutOfRange` if there is no such root or mutator. Then
    /// nothing has changed.
    pub fn put(&self, array: Place, i: u32, source: Place) -> Result<()> {
        self.forgetting(|| self.write(array, i, source, self.length(array)?))
    }

    /// Adds the value of root `source` at the end of the array.
    ///
    /// # Errors
    ///
    /// Returns the errors of [`Arrays::length`], `OutOfRange` if there is no such root or mutator, `Full` if the array has [`MOST_ELEMENTS`] elements or the heap has no room after whole collections, or
    /// `NoMemory` if there is no room and a collection gets no memory. The array then has the same elements.
    pub fn push(&self, array: Place, source: Place) -> Result<()> {
        self.forgetting(|| {
            let length = self.length(array)?;
            // A root that does not exist is refused before the array takes a spine, since only a longer one has it.
            self.heap.look(source)?;
            if length < PART && length == self.count(array)? {
                let wanted = if length < FIRST_ROOM / 2 { FIRST_ROOM } else { 2 * length };
                self.reserve(wanted.min(PART) + HEADER)?;
                self.lengthen(array, KIND_PART, length, wanted.min(PART))?;
            } else if length >= PART && length % PART == 0 {
                self.extend(array, length / PART)?;
            }
            self.write(array, length, source, length + 1)?;
            self.write_length(array, length + 1)
        })
    }

    /// Runs the call, and clears the own roots.
    fn forgetting<T>(&self, call: impl FnOnce() -> Result<T>) -> Result<T> {
        let done = call();
        for own in [self.old, self.new, self.scratch] {
            self.heap.set_nil(own)?;
        }
        done
    }

    fn reserve(&self, words: u32) -> Result<()> {
        self.heap.reserve(&mut self.pace.borrow_mut(), words).map(drop)
    }

    fn make(&self, root: Place, kind: u8, fields: u32) -> Result<()> {
        self.heap.new_object(root, kind, u16::try_from(fields).map_err(|_| Error::OutOfRange)?)
    }

    fn store(&self, root: Place, field: u32, source: Place) -> Result<()> {
        self.heap.put_sure(self.mutator, root, field, source)
    }

    fn write_length(&self, array: Place, length: u32) -> Result<()> {
        self.heap.write_number(self.mutator, array, LENGTH, code_of_int(length.into()).ok_or(Error::OutOfRange)?)
    }

    /// Returns the number of fields of the object with the elements, or of the spine.
    fn count(&self, array: Place) -> Result<u32> {
        match self.heap.field(array, ELEMENTS)? {
            Value::Object { fields, .. } => Ok(fields.into()),
            _ => Ok(0),
        }
    }

    /// Puts the part with element i of an array of this length into the root `old`, and returns the number of its field.
    fn part(&self, array: Place, i: u32, length: u32) -> Result<u32> {
        if i >= length {
            return Err(Error::NoField);
        }
        self.heap.get(self.old, array, ELEMENTS)?;
        if length > PART {
            self.heap.get(self.old, self.old, i / PART)?;
        }
        Ok(i % PART)
    }

    fn write(&self, array: Place, i: u32, source: Place, length: u32) -> Result<()> {
        let field = self.part(array, i, length)?;
        self.store(self.old, field, source)
    }

    /// Gives the array an object with more fields for its elements or parts, which are `count` now. There is room for it.
    fn lengthen(&self, array: Place, kind: u8, count: u32, fields: u32) -> Result<()> {
        self.heap.get(self.old, array, ELEMENTS)?;
        self.make(self.new, kind, fields)?;
        if count > 0 {
            self.copy_fields(count)?;
        }
        self.store(array, ELEMENTS, self.new)
    }

    /// Copies so many fields from the object in `old` to that in `new`.
    fn copy_fields(&self, count: u32) -> Result<()> {
        let copy = || self.heap.copy_fields(self.mutator, self.new, 0, self.old, 0, count);
        match copy() {
            Err(Error::NoMemory) => {
                self.heap.give_up()?;
                copy()
            }
            copied => copied,
        }
    }

    /// Adds a part to an array of `parts` full ones. Without a spine, it has one part.
    fn extend(&self, array: Place, parts: u32) -> Result<()> {
        if parts == MOST_PARTS {
            return Err(Error::Full);
        }
        let is_full = parts == 1 || parts == self.count(array)?;
        let wanted = if parts == 1 { FIRST_ROOM } else { (2 * parts).min(MOST_PARTS) };
        self.reserve(if is_full { wanted + HEADER } else { 0 } + PART + HEADER)?;
        self.make(self.scratch, KIND_PART, PART)?;
        if parts == 1 {
            self.heap.get(self.old, array, ELEMENTS)?;
            self.make(self.new, KIND_SPINE, wanted)?;
            self.store(self.new, 0, self.old)?;
            self.store(array, ELEMENTS, self.new)?;
        } else if is_full {
            self.lengthen(array, KIND_SPINE, parts, wanted)?;
        }
        self.heap.get(self.old, array, ELEMENTS)?;
        self.store(self.old, parts, self.scratch)
    }
}
