//! What a program says of kinds, for printers, walks and checks, as the table of kinds of `herbpond.h`.
//!
//! ```
//! use gcflip::kinds::{fits, kind_name, Kind};
//! use gcflip::{Heap, Place};
//!
//! const X: Place = Place(0);
//! /// A text has any number of fields. A point has two, which hold numbers.
//! const KINDS: [Kind; 2] = [Kind::named("text"), Kind { name: "point", fields: Some(2), numbers: &[0, 1] }];
//!
//! # fn main() -> gcflip::Result<()> {
//! assert_eq!([0, 1, 2, 255].map(|kind| kind_name(&KINDS, kind)), ["text", "point", "", "box"]);
//! let heap = Heap::open(100, 1)?;
//! heap.new_object(X, 1, 2)?;
//! heap.put_number(0, X, 0, 7)?;
//! assert!(!fits(&heap, &KINDS, X, 1)?); // field 1 is nil
//! heap.put_number(0, X, 1, 8)?;
//! assert!(fits(&heap, &KINDS, X, 1)?);
//! # Ok(())
//! # }
//! ```

use crate::arrays::KIND_SPINE;
use crate::heap::{Heap, Place, Result, Value};

/// What a program says of a kind.
#[derive(Clone, Copy, Debug, PartialEq, Eq)]
pub struct Kind<'k> {
    /// Its name, or "" if it has none.
    pub name: &'k str,
    /// The number of fields of each object, or `None` if objects may have any.
    pub fields: Option<u16>,
    /// The fields that hold numbers. A raw object holds numbers alone, and needs none here.
    pub numbers: &'k [u16],
}

/// Kinds 253 to 255, which arrays and doubles have.
const OWN: [Kind<'static>; 3] = [Kind::named("spine"), Kind::named("part"), Kind { name: "box", fields: Some(2), numbers: &[] }];

impl<'k> Kind<'k> {
    /// A kind with this name, whose objects may have any number of fields, with any values.
    pub const fn named(name: &'k str) -> Kind<'k> {
        Kind { name, fields: None, numbers: &[] }
    }
}

/// Returns the description of a kind, or `None` if it has none. `kinds` are kinds 0 and on.
pub fn kind_of<'k>(kinds: &[Kind<'k>], kind: u8) -> Option<Kind<'k>> {
    let own = || OWN.get(usize::from(kind.checked_sub(KIND_SPINE)?));
    kinds.get(usize::from(kind)).or_else(own).copied()
}

/// Returns the name of a kind, or "" if it has none.
pub fn kind_name<'k>(kinds: &[Kind<'k>], kind: u8) -> &'k str {
    kind_of(kinds, kind).map_or("", |found| found.name)
}

/// Returns whether the object at this address has the fields that the description of its kind says: so many, with a number in each that holds one. A field
/// that was not written yet holds nil, which is no number. An object of a kind without a description fits. Where no object starts, none fits.
pub fn object_fits(heap: &Heap, kinds: &[Kind], address: u32) -> bool {
    let (kind, count) = match heap.object_at(address) {
        Value::Object { kind, fields } | Value::RawObject { kind, fields } => (kind, fields),
        _ => return false,
    };
    let Some(found) = kind_of(kinds, kind) else {
        return true;
    };
    let is_number = |&field: &u16| field >= count || matches!(heap.field_at(address, u32::from(field)), Ok((Value::Number(_), _)));
    found.fields.map_or(true, |fields| fields == count) && found.numbers.iter().all(is_number)
}

/// Returns whether the root refers to an object of this kind that fits it.
///
/// # Errors
///
/// Returns `OutOfRange` if there is no such root.
pub fn fits(heap: &Heap, kinds: &[Kind], root: Place, kind: u8) -> Result<bool> {
    let is_of_kind = matches!(heap.look(root)?, Value::Object { kind: of, .. } | Value::RawObject { kind: of, .. } if of == kind);
    Ok(is_of_kind && heap.address(root)?.is_some_and(|address| object_fits(heap, kinds, address)))
}
