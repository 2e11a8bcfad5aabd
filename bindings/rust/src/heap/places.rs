//! Commands on roots by their places.

use super::{found, replied, value_of, Error, Heap, Result, Value, SLOTS};
use crate::sys::{self, Field};
use std::cmp::Ordering;
use std::ops::Range;

/// The place of a root in the list of a heap's roots, for calls that take any root: first the shared slots, then those of each mutator, then the extra
/// roots. So places are not numbers of slots, of which a mutator's own come first.
///
/// ```
/// use gcflip::Place;
///
/// assert_eq!((Place::shared(3), Place::own(1, 3), Place::extra(2, 3)), (Place(3), Place(35), Place(51)));
/// ```
#[derive(Clone, Copy, Debug, PartialEq, Eq, Hash)]
#[repr(transparent)]
pub struct Place(pub u32);

impl Place {
    /// Returns the place of the shared slot with this number, 0 to 15.
    ///
    /// # Panics
    ///
    /// Panics if there is no such slot; in a constant, the program does not compile.
    pub const fn shared(number: u8) -> Place {
        assert!(number < SLOTS, "the slots are 0 to 15");
        Place(number as u32)
    }

    /// Returns the place of a mutator's own slot with this number, 0 to 15.
    ///
    /// # Panics
    ///
    /// Panics if there is no such slot; in a constant, the program does not compile.
    pub const fn own(mutator: u8, number: u8) -> Place {
        Place(SLOTS as u32 * (1 + mutator as u32) + Place::shared(number).0)
    }

    /// Returns the place of an extra root of a heap with so many mutators. No heap has a root there if the extra root's number is too large.
    pub const fn extra(mutators: u8, root: u32) -> Place {
        Place(root.saturating_add(SLOTS as u32 * (1 + mutators as u32)))
    }
}

/// Commands on any roots, also extra ones and those of several mutators.
impl Heap {
    /// Makes an object of this kind with this number of fields, all nil, and puts a reference to it into the root.
    ///
    /// # Errors
    ///
    /// Returns `OutOfRange`, or `Full` if the heap has no room for it.
    pub fn new_object(&self, root: Place, kind: u8, fields: u16) -> Result<()> {
        replied(self.handle.new_root(root.0, kind.into(), fields.into())).map(drop)
    }

    /// Makes a raw object of this kind with this number of fields, all 0, and puts a reference to it into the root.
    ///
    /// # Errors
    ///
    /// Returns `OutOfRange`, or `Full` if the heap has no room for it.
    pub fn new_raw(&self, root: Place, kind: u8, fields: u16) -> Result<()> {
        replied(self.handle.new_raw_root(root.0, kind.into(), fields.into())).map(drop)
    }

    /// Makes an object of this kind with two fields, which take the values of roots `first` and `second`. This is `new_from` with these two roots.
    ///
    /// # Errors
    ///
    /// Returns the errors of `new_from`.
    pub fn new_pair(&self, mutator: u8, root: Place, kind: u8, first: Place, second: Place) -> Result<()> {
        replied(self.handle.new_pair_root(mutator.into(), root.0, kind.into(), first.0, second.0)).map(drop)
    }

    /// Makes an object of this kind with a field for each source, which takes that root's value, and puts a reference to it into the root. The root is
    /// set first, so a field that takes its value refers to the object itself. While a collection is open, the fields are logged in this mutator's log.
    ///
    /// # Errors
    ///
    /// Returns `Full` if the heap has no room for it, or `OutOfRange` if there is no such root or mutator, or more than 65,535 sources; or, while a
    /// collection is open, `NoMemory`.
    pub fn new_from(&self, mutator: u8, root: Place, kind: u8, sources: &[Place]) -> Result<()> {
        replied(self.handle.new_from_roots(mutator.into(), root.0, kind.into(), sources)).map(drop)
    }

    /// Makes an object with a field for each of these, and puts a reference to it into the root: a `new_object`, and then, in order, a `put_number` for
    /// each number and a `put` for each root. No other root changes. A field that takes the root itself refers to the new object.
    ///
    /// # Errors
    ///
    /// Returns `OutOfRange` if there is no such root or mutator, a number is 2^63 or more, or there are more than 65535 fields, `Full`, or, while a collection
    /// is open, `NoMemory`. Then nothing changed.
    pub fn new_with(&self, mutator: u8, root: Place, kind: u8, fields: &[Field]) -> Result<()> {
        replied(self.handle.new_with_root(mutator.into(), root.0, kind.into(), fields)).map(drop)
    }

    /// Makes an object of this kind with `count` fields, which take the values of the roots from `first` on. This is `new_from` with these roots.
    ///
    /// # Errors
    ///
    /// Returns the errors of `new_from`.
    pub fn gather(&self, mutator: u8, root: Place, kind: u8, first: Place, count: u32) -> Result<()> {
        replied(self.handle.gather(mutator.into(), root.0, kind.into(), first.0, count)).map(drop)
    }

    /// Reads the first `count` fields of the object that root `source` refers to into the roots from `first` on. All are read or none.
    ///
    /// # Errors
    ///
    /// Returns `NoObject`, `NoField` if the object has fewer fields, or `OutOfRange` if there are no such roots, or `source` is one of them.
    pub fn spread(&self, first: Place, source: Place, count: u32) -> Result<()> {
        replied(self.handle.spread(first.0, source.0, count)).map(drop)
    }

    /// Puts a number below 2^63 into the root.
    ///
    /// # Errors
    ///
    /// Returns `OutOfRange` if the number is larger, or if there is no such root.
    pub fn set_number(&self, root: Place, number: u64) -> Result<()> {
        replied(self.handle.num_root(root.0, number)).map(drop)
    }

    /// Puts nil into the root.
    ///
    /// # Errors
    ///
    /// Returns `OutOfRange` if there is no such root.
    pub fn set_nil(&self, root: Place) -> Result<()> {
        replied(self.handle.nil_root(root.0)).map(drop)
    }

    /// Puts nil into these roots.
    ///
    /// # Errors
    ///
    /// Returns `OutOfRange` if the heap does not have all of them, or if the range ends before it starts.
    pub fn clear(&self, roots: Range<Place>) -> Result<()> {
        replied(self.handle.clear_root_range(roots.start.0, roots.end.0)).map(drop)
    }

    /// Copies the value of root `source` into the root.
    ///
    /// # Errors
    ///
    /// Returns `OutOfRange` if there is no such root.
    pub fn copy(&self, root: Place, source: Place) -> Result<()> {
        replied(self.handle.copy_root(root.0, source.0)).map(drop)
    }

    /// Reads a field of the object that root `source` refers to into the root, and returns its value.
    ///
    /// # Errors
    ///
    /// Returns `NoObject`, `NoField`, or `OutOfRange` if there is no such root.
    pub fn get(&self, root: Place, source: Place, field: u32) -> Result<Value> {
        let (answer, view) = self.handle.get_root(root.0, source.0, field);
        match replied(answer)? {
            sys::GCFLIP_NIL => Ok(Value::Nil),
            sys::GCFLIP_NUMBER => Ok(Value::Number(view.number)),
            // The library's `get` does not read the object that it finds.
            _ => self.look(root),
        }
    }

    /// Returns the value of a field of the object that the root refers to. No root takes it.
    ///
    /// # Errors
    ///
    /// Returns `NoObject`, `NoField`, or `OutOfRange` if there is no such root.
    pub fn peek(&self, root: Place, field: u32) -> Result<Value> {
        let (answer, view) = self.handle.peek_root(root.0, field);
        Ok(value_of(replied(answer)?, &view))
    }

    /// Writes the value of root `source` into a field of the object that the root refers to. While a collection is open, this is logged in this
    /// mutator's log, whoever's the roots are.
    ///
    /// # Errors
    ///
    /// Returns `NoObject`, `NoField`, `NoNumber`, or `OutOfRange` if there is no such root or mutator; or, while a collection is open, `NoMemory`.
    pub fn put(&self, mutator: u8, root: Place, field: u32, source: Place) -> Result<()> {
        replied(self.handle.put_root(mutator.into(), root.0, field, source.0)).map(drop)
    }

    /// Does what `put` does, but never runs out of memory: where the log cannot grow, it first gives the open collection up.
    ///
    /// # Errors
    ///
    /// Returns `NoObject`, `NoField`, `NoNumber`, or `OutOfRange` if there is no such root or mutator.
    pub fn put_sure(&self, mutator: u8, root: Place, field: u32, source: Place) -> Result<()> {
        replied(self.handle.put_sure(mutator.into(), root.0, field, source.0)).map(drop)
    }

    /// Writes a number below 2^63 into a field of the object that the root refers to, as `put` writes a value. No root changes.
    ///
    /// # Errors
    ///
    /// Returns `NoObject`, `NoField`, or `OutOfRange` if the number is larger, or if there is no such root or mutator; or, while a collection is open,
    /// `NoMemory`.
    pub fn put_number(&self, mutator: u8, root: Place, field: u32, number: u64) -> Result<()> {
        replied(self.handle.put_number_root(mutator.into(), root.0, field, number)).map(drop)
    }

    /// Writes nil into a field of the object that the root refers to, as `put` writes a value. No root changes.
    ///
    /// # Errors
    ///
    /// Returns `NoObject`, `NoField`, `NoNumber` if the object is raw, or `OutOfRange` if there is no such root or mutator; or, while a collection is open,
    /// `NoMemory`.
    pub fn put_nil(&self, mutator: u8, root: Place, field: u32) -> Result<()> {
        replied(self.handle.put_nil_root(mutator.into(), root.0, field)).map(drop)
    }

    /// Writes the value of root `source` into these fields of the object that the root refers to, as `put` writes it into one. All are written or none.
    ///
    /// # Errors
    ///
    /// Returns `NoObject`, `NoField`, `NoNumber`, or `OutOfRange` if there is no such root or mutator, or if the range ends before it starts; or, while a
    /// collection is open, `NoMemory`.
    pub fn fill(&self, mutator: u8, root: Place, fields: Range<u32>, source: Place) -> Result<()> {
        replied(self.handle.fill(mutator.into(), root.0, fields.start, fields.end, source.0)).map(drop)
    }

    /// Copies `count` fields: from field `from` on, of the object that root `source` refers to, to field `to` and on of the object that the root refers to.
    /// Each takes, in rising order, the value that the other field has then. No root changes. All are copied or none.
    ///
    /// # Errors
    ///
    /// Returns `NoObject`, `NoField`, `NoNumber` if the object takes only numbers and a value is none, or `OutOfRange` if there is no such root or mutator;
    /// or, while a collection is open, `NoMemory`.
    pub fn copy_fields(&self, mutator: u8, root: Place, to: u32, source: Place, from: u32, count: u32) -> Result<()> {
        replied(self.handle.copy_root_fields(mutator.into(), root.0, to, source.0, from, count)).map(drop)
    }

    /// Makes a text of these bytes, a raw object of this kind with a field for each seven of them, and puts a reference to it into the root. No other root
    /// changes.
    ///
    /// # Errors
    ///
    /// Returns `Full`, or `OutOfRange` if there is no such root or mutator, or if there are more than 458,745 bytes; or, while a collection is open,
    /// `NoMemory`. Then nothing changed.
    pub fn new_bytes(&self, mutator: u8, root: Place, kind: u8, bytes: &[u8]) -> Result<()> {
        replied(self.handle.new_bytes(mutator.into(), root.0, kind.into(), bytes)).map(drop)
    }

    /// Makes a text with the bytes of the texts of roots `one` and `other`, one behind the other, and puts a reference to it into the root, which may be
    /// one of both. No other root changes, and no byte leaves the heap.
    ///
    /// # Errors
    ///
    /// Returns `NoObject` if one of both refers to no text, or the errors of `new_bytes`.
    pub fn bytes_join(&self, mutator: u8, root: Place, kind: u8, one: Place, other: Place) -> Result<()> {
        replied(self.handle.bytes_join(mutator.into(), root.0, kind.into(), one.0, other.0)).map(drop)
    }

    /// Makes a text with these bytes of the text of root `source`, and puts a reference to it into the root, which may be `source`. No other root changes,
    /// and no byte leaves the heap.
    ///
    /// # Errors
    ///
    /// Returns `NoObject` if `source` refers to no text, `NoField` if the text has fewer bytes or the range ends before it starts, or the errors of
    /// `new_bytes`.
    pub fn bytes_part(&self, mutator: u8, root: Place, kind: u8, source: Place, part: Range<u32>) -> Result<()> {
        let count = part.end.checked_sub(part.start).ok_or(Error::NoField)?;
        replied(self.handle.bytes_part(mutator.into(), root.0, kind.into(), source.0, part.start, count)).map(drop)
    }

    /// Returns the number of bytes of the text that the root refers to.
    ///
    /// # Errors
    ///
    /// Returns `NoObject` if it refers to no text, or `OutOfRange` if there is no such root.
    pub fn bytes_length(&self, root: Place) -> Result<u32> {
        let (answer, count) = self.handle.bytes_length(root.0);
        replied(answer).map(|_| count)
    }

    /// Copies bytes of the text that the root refers to, from byte `at` on: as many as `bytes` takes.
    ///
    /// # Errors
    ///
    /// Returns `NoObject` if it refers to no text, `NoField` if the text has fewer bytes, or `OutOfRange` if there is no such root. Then nothing was written.
    pub fn bytes_read(&self, root: Place, at: u32, bytes: &mut [u8]) -> Result<()> {
        replied(self.handle.bytes_read(root.0, at, bytes)).map(drop)
    }

    /// Writes these bytes over those of the text that the root refers to, from byte `at` on. The text keeps its length, and no root changes. All are written
    /// or none. While a collection is open, the mutator's log takes the fields that change.
    ///
    /// # Errors
    ///
    /// Returns `NoObject` if it refers to no text, `NoField` if the text has fewer bytes, or `OutOfRange` if there is no such root or mutator, or if there are
    /// more than 458,745 bytes; or, while a collection is open, `NoMemory`.
    pub fn bytes_write(&self, mutator: u8, root: Place, at: u32, bytes: &[u8]) -> Result<()> {
        replied(self.handle.bytes_write(mutator.into(), root.0, at, bytes)).map(drop)
    }

    /// Returns whether both roots refer to texts with the same bytes.
    ///
    /// # Errors
    ///
    /// Returns `NoObject` if one of both refers to no text, or `OutOfRange` if there is no such root.
    pub fn bytes_same(&self, one: Place, other: Place) -> Result<bool> {
        Ok(replied(self.handle.bytes_same(one.0, other.0))? == sys::GCFLIP_SAME)
    }

    /// Returns a hash of the bytes of the text that the root refers to, as `hp_bytes_hash` of `herbpond.h`. It depends on the seed, and on nothing else: texts
    /// with the same bytes have the same hash.
    ///
    /// # Errors
    ///
    /// Returns `NoObject` if it refers to no text, or `OutOfRange` if there is no such root.
    pub fn bytes_hash(&self, root: Place, seed: u64) -> Result<u64> {
        const FACTOR: u64 = 0x9e3779b97f4a7c15;
        let length = self.bytes_length(root)?;
        let mut hash = (seed ^ u64::from(length)).wrapping_mul(FACTOR);
        let mut bytes = [0; 256];
        for at in (0..length).step_by(bytes.len()) {
            let some = &mut bytes[..256.min(length - at) as usize];
            self.bytes_read(root, at, some)?;
            for part in some.chunks(8) {
                let word = part.iter().rev().fold(0, |word, byte| word << 8 | u64::from(*byte));
                hash = (hash ^ word).wrapping_mul(FACTOR);
                hash ^= hash >> 32;
            }
        }
        Ok(hash)
    }

    /// Returns the order of both roots' texts: that of unsigned bytes, in which a shorter beginning comes first.
    ///
    /// # Errors
    ///
    /// Returns `NoObject` if one of both refers to no text, or `OutOfRange` if there is no such root.
    pub fn bytes_compare(&self, one: Place, other: Place) -> Result<Ordering> {
        let (answer, order) = self.handle.bytes_compare(one.0, other.0);
        replied(answer).map(|_| order.cmp(&0))
    }

    /// Copies words of the vector that the root refers to, from word `at` on: as many as `words` takes. Each raw object is a vector of 64-bit words, 63 of them
    /// in 64 fields; `f64::from_bits` makes a double of a word.
    ///
    /// # Errors
    ///
    /// Returns `NoObject` if it refers to no raw object, `NoField` if the vector has fewer words, or `OutOfRange` if there is no such root. Then nothing was
    /// written.
    pub fn words_read(&self, root: Place, at: u32, words: &mut [u64]) -> Result<()> {
        replied(self.handle.words_read(root.0, at, words)).map(drop)
    }

    /// Writes these words over those of the vector that the root refers to, from word `at` on. No root changes. All are written or none. While a collection is
    /// open, the mutator's log takes the fields that change.
    ///
    /// # Errors
    ///
    /// Returns `NoObject` if it refers to no raw object, `NoField` if the vector has fewer words, or `OutOfRange` if there is no such root or mutator; or, while
    /// a collection is open, `NoMemory`.
    pub fn words_write(&self, mutator: u8, root: Place, at: u32, words: &[u64]) -> Result<()> {
        replied(self.handle.words_write(mutator.into(), root.0, at, words)).map(drop)
    }

    /// Reads the numbers in fields of the raw object that the root refers to, from field `first` on: as many as `numbers` takes.
    ///
    /// # Errors
    ///
    /// Returns `NoObject` if it refers to no raw object, `NoField` if the object has fewer fields, or `OutOfRange` if there is no such root. Then nothing was
    /// written.
    pub fn raw_read(&self, root: Place, first: u32, numbers: &mut [u64]) -> Result<()> {
        replied(self.handle.raw_read_root(root.0, first, numbers)).map(drop)
    }

    /// Writes numbers below 2^63 into fields of the raw object that the root refers to, from field `first` on, as `put_number` writes one. All are written or
    /// none.
    ///
    /// # Errors
    ///
    /// Returns `NoObject` if it refers to no raw object, `NoField` if the object has fewer fields, `NoNumber` if a number is larger, or `OutOfRange` if there is
    /// no such root or mutator; or, while a collection is open, `NoMemory`.
    pub fn raw_write(&self, mutator: u8, root: Place, first: u32, numbers: &[u64]) -> Result<()> {
        replied(self.handle.raw_write_root(mutator.into(), root.0, first, numbers)).map(drop)
    }

    /// Returns whether both roots hold nil, equal numbers, or references to one object.
    ///
    /// # Errors
    ///
    /// Returns `OutOfRange` if there is no such root.
    pub fn is_same(&self, first: Place, second: Place) -> Result<bool> {
        Ok(replied(self.handle.same_root(first.0, second.0))? == sys::GCFLIP_SAME)
    }

    /// Returns the root's value.
    ///
    /// # Errors
    ///
    /// Returns `OutOfRange` if there is no such root.
    pub fn look(&self, root: Place) -> Result<Value> {
        let (answer, view) = self.handle.look_root(root.0);
        Ok(value_of(replied(answer)?, &view))
    }

    /// Returns the address of the object that the root refers to, or `None` if it refers to none. The next flip gives objects other addresses.
    ///
    /// # Errors
    ///
    /// Returns `OutOfRange` if there is no such root.
    pub fn address(&self, root: Place) -> Result<Option<u32>> {
        let (answer, address) = self.handle.address_root(root.0);
        found(answer, address)
    }

    /// Puts a reference to the object that starts at this address into the root, as [`Mutator::refer`](super::Mutator::refer) does.
    ///
    /// # Errors
    ///
    /// Returns `NoObject` if no object starts there, or `OutOfRange` if there is no such root. The root then keeps its value.
    pub fn refer(&self, root: Place, address: u32) -> Result<()> {
        replied(self.handle.refer_root(root.0, address)).map(drop)
    }
}
