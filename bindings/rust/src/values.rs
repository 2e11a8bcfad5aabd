//! Integers, doubles and specials in a heap, with the codes of `herbpond.h`, so that a heap means the same in C.
//!
//! A number of the heap has 63 bits. Its lowest bit is 0 for an integer, and 1 for the others. Doubles from 2^-254 up to 2^257, zeros, infinities and NaN
//! are numbers, as Ruby's flonums. Each NaN becomes the same one. Other doubles are raw objects of two fields. A special is a number from 0 to
//! 2^52 - 1, which the program gives a meaning: a truth value, a character, or a symbol.
//!
//! Nothing here is proved. The calls below are safe code over [`Heap`].
//!
//! ```
//! use gcflip::values::{Value, LEAST_INT};
//! use gcflip::{Heap, Place};
//!
//! const X: Place = Place(0);
//!
//! # fn main() -> gcflip::Result<()> {
//! let heap = Heap::open(100, 1)?;
//! heap.set_int(X, LEAST_INT)?;
//! assert_eq!(heap.value(X)?, Value::Int(-2305843009213693952));
//! heap.set_double(0, X, 1e-300)?; // a box, which is a raw object
//! assert_eq!(heap.double(X)?, 1e-300);
//! heap.set_special(X, 'a' as u64)?;
//! assert_eq!(heap.value(X)?, Value::Special(97));
//! # Ok(())
//! # }
//! ```

use crate::heap::{self, Error, Heap, Place, Result};

/// The least integer that a number stands for.
pub const LEAST_INT: i64 = -(1 << 61);
/// The largest integer that a number stands for.
pub const MOST_INT: i64 = (1 << 61) - 1;
/// How many specials there are. They are counted from 0.
pub const SPECIALS: u64 = 1 << 52;
/// The kind of a raw object that holds a double. A program uses other kinds.
pub const KIND_BOX: u8 = 255;

const BOX_FIELDS: u16 = 2;
/// A code is the number without its lowest bit. Bit 61 of a double's code is its sign, and bits 0 to 60 are those of the double. Bits 52 to 60 are 256
/// for no such double. A code with 256 there is a special if bit 61 is clear, and one of five other doubles if it is set.
const SIGN: u64 = 1 << 61;
const RARE: u64 = 256 << 52;
const RARE_BITS: u64 = 511 << 52;
/// Zeros and infinities, each before its negative one, and NaN.
const RARE_DOUBLES: [f64; 5] = [0.0, -0.0, f64::INFINITY, f64::NEG_INFINITY, f64::NAN];
const NAN: u64 = 4;

/// What a root or a field holds.
#[derive(Clone, Copy, Debug, PartialEq)]
pub enum Value {
    /// Nil.
    Nil,
    /// An integer from [`LEAST_INT`] to [`MOST_INT`].
    Int(i64),
    /// A double that is a number.
    Double(f64),
    /// A special below [`SPECIALS`].
    Special(u64),
    /// A reference to an object.
    Object {
        /// The object's kind.
        kind: u8,
        /// The number of its fields.
        fields: u16,
    },
    /// A reference to an object whose fields are plain numbers. One of kind [`KIND_BOX`] is a double, which [`Heap::double`] reads.
    RawObject {
        /// The object's kind.
        kind: u8,
        /// The number of its fields.
        fields: u16,
    },
}

impl From<heap::Value> for Value {
    fn from(value: heap::Value) -> Value {
        match value {
            heap::Value::Nil => Value::Nil,
            heap::Value::Number(number) => value_of(number),
            heap::Value::Object { kind, fields } => Value::Object { kind, fields },
            heap::Value::RawObject { kind, fields } => Value::RawObject { kind, fields },
        }
    }
}

/// Returns the number of an integer, or `None` if it is below [`LEAST_INT`] or above [`MOST_INT`].
pub const fn code_of_int(integer: i64) -> Option<u64> {
    if integer < LEAST_INT || integer > MOST_INT {
        return None;
    }
    Some((integer as u64) << 1 & i64::MAX as u64)
}

/// Returns the number of a special, or `None` if it is [`SPECIALS`] or above.
pub const fn code_of_special(special: u64) -> Option<u64> {
    if special >= SPECIALS {
        return None;
    }
    Some((RARE | special) << 1 | 1)
}

/// Returns the number of a double, or `None` for one that needs a box.
pub fn code_of_double(real: f64) -> Option<u64> {
    let bits = real.to_bits();
    let exponent = bits >> 52 & 0x7ff;
    if exponent > 0x300 && exponent < 0x500 {
        return Some((bits >> 63 << 61 | bits & (SIGN - 1)) << 1 | 1);
    }
    let rare = if real.is_nan() {
        NAN
    } else if real == 0.0 {
        bits >> 63
    } else if real.is_infinite() {
        2 + (bits >> 63)
    } else {
        return None;
    };
    Some((SIGN | RARE | rare) << 1 | 1)
}

/// Returns the double with this code.
fn double_of(code: u64) -> f64 {
    if code & RARE_BITS == RARE {
        return RARE_DOUBLES.get((code & 7) as usize).copied().unwrap_or(f64::NAN);
    }
    let exponent = if code >> 60 & 1 == 1 { 1 << 61 } else { 1 << 62 };
    f64::from_bits(code >> 61 << 63 | code & (SIGN - 1) | exponent)
}

/// Returns the value that a number below 2^63 stands for.
pub fn value_of(number: u64) -> Value {
    let code = (number & i64::MAX as u64) >> 1;
    if number & 1 == 0 {
        // The sign is the highest of 62 bits.
        return Value::Int((code << 2) as i64 >> 2);
    }
    if code < SIGN && code & RARE_BITS == RARE {
        return Value::Special(code & (SPECIALS - 1));
    }
    Value::Double(double_of(code))
}

/// Integers, doubles and specials in roots and fields.
impl Heap {
    /// Returns what the root holds.
    ///
    /// # Errors
    ///
    /// Returns `OutOfRange` if there is no such root.
    pub fn value(&self, root: Place) -> Result<Value> {
        self.look(root).map(Value::from)
    }

    /// Returns the value of a field of the object that the root refers to. No root takes it.
    ///
    /// # Errors
    ///
    /// Returns `NoObject`, `NoField`, or `OutOfRange` if there is no such root.
    pub fn field(&self, root: Place, field: u32) -> Result<Value> {
        self.peek(root, field).map(Value::from)
    }

    /// Puts an integer into the root.
    ///
    /// # Errors
    ///
    /// Returns `OutOfRange` if it is below [`LEAST_INT`] or above [`MOST_INT`], or if there is no such root.
    pub fn set_int(&self, root: Place, integer: i64) -> Result<()> {
        self.set_number(root, code_of_int(integer).ok_or(Error::OutOfRange)?)
    }

    /// Puts a special into the root.
    ///
    /// # Errors
    ///
    /// Returns `OutOfRange` if it is [`SPECIALS`] or above, or if there is no such root.
    pub fn set_special(&self, root: Place, special: u64) -> Result<()> {
        self.set_number(root, code_of_special(special).ok_or(Error::OutOfRange)?)
    }

    /// Puts a double into the root: a number, or a reference to a box of its low and its high half, which takes four words. If a log cannot grow while a
    /// box is filled, the open collection is given up.
    ///
    /// # Errors
    ///
    /// Returns `OutOfRange` if there is no such root or mutator, or `Full` if the heap has no room for the box. Then nothing has changed.
    pub fn set_double(&self, mutator: u8, root: Place, real: f64) -> Result<()> {
        if mutator >= self.counts().mutators {
            return Err(Error::OutOfRange);
        }
        if let Some(number) = code_of_double(real) {
            return self.set_number(root, number);
        }
        self.new_raw(root, KIND_BOX, BOX_FIELDS)?;
        for (field, half) in [(0, real.to_bits() & u64::from(u32::MAX)), (1, real.to_bits() >> 32)] {
            self.write_number(mutator, root, field, half)?;
        }
        Ok(())
    }

    /// Returns the double in the root: a number, or that of a box.
    ///
    /// # Errors
    ///
    /// Returns `NoNumber` if the root holds another value, or `OutOfRange` if there is no such root.
    pub fn double(&self, root: Place) -> Result<f64> {
        match self.value(root)? {
            Value::Double(real) => Ok(real),
            Value::RawObject { kind: KIND_BOX, fields: BOX_FIELDS } => Ok(f64::from_bits(self.half(root, 0)? | self.half(root, 1)? << 32)),
            _ => Err(Error::NoNumber),
        }
    }

    /// Writes an integer into a field of the object that the root refers to, as [`Heap::put_number`] writes its number.
    ///
    /// # Errors
    ///
    /// Returns `OutOfRange` if it is below [`LEAST_INT`] or above [`MOST_INT`], or the errors of [`Heap::put_number`].
    pub fn put_int(&self, mutator: u8, root: Place, field: u32, integer: i64) -> Result<()> {
        self.put_number(mutator, root, field, code_of_int(integer).ok_or(Error::OutOfRange)?)
    }

    /// Writes a number into a field. Gives the open collection up if its log cannot grow.
    pub(crate) fn write_number(&self, mutator: u8, root: Place, field: u32, number: u64) -> Result<()> {
        match self.put_number(mutator, root, field, number) {
            Err(Error::NoMemory) => {
                self.give_up()?;
                self.put_number(mutator, root, field, number)
            }
            written => written,
        }
    }

    /// Returns a half of the double in a box.
    fn half(&self, root: Place, field: u32) -> Result<u64> {
        match self.peek(root, field)? {
            heap::Value::Number(number) => Ok(number),
            _ => Err(Error::NoNumber),
        }
    }
}
