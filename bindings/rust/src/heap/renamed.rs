//! Old names of methods of [`Mutator`]. They go with the next minor version.

use super::{Field, Mutator, Result, Slot};

/// Old names.
impl Mutator<'_> {
    #[deprecated(since = "0.2.0", note = "it is called `new_object`")]
    #[doc(hidden)]
    pub fn make(&self, slot: Slot, kind: u8, fields: u16) -> Result<()> {
        self.new_object(slot, kind, fields)
    }

    #[deprecated(since = "0.2.0", note = "it is called `new_raw`")]
    #[doc(hidden)]
    pub fn make_raw(&self, slot: Slot, kind: u8, fields: u16) -> Result<()> {
        self.new_raw(slot, kind, fields)
    }

    #[deprecated(since = "0.2.0", note = "it is called `set_number`")]
    #[doc(hidden)]
    pub fn num(&self, slot: Slot, number: u64) -> Result<()> {
        self.set_number(slot, number)
    }

    #[deprecated(since = "0.2.0", note = "it is called `set_nil`")]
    #[doc(hidden)]
    pub fn nil(&self, slot: Slot) {
        self.set_nil(slot);
    }

    #[deprecated(since = "0.2.0", note = "it is called `new_pair`")]
    #[doc(hidden)]
    pub fn cons(&self, slot: Slot, kind: u8, first: Slot, second: Slot) -> Result<()> {
        self.new_pair(slot, kind, first, second)
    }

    #[deprecated(since = "0.2.0", note = "it is called `new_from`")]
    #[doc(hidden)]
    pub fn make_from(&self, slot: Slot, kind: u8, fields: &[Slot]) -> Result<()> {
        self.new_from(slot, kind, fields)
    }

    #[deprecated(since = "0.2.0", note = "it is called `new_with`")]
    #[doc(hidden)]
    pub fn make_with(&self, slot: Slot, kind: u8, through: Slot, fields: &[Field]) -> Result<()> {
        self.new_with(slot, kind, through, fields)
    }

    #[deprecated(since = "0.2.0", note = "it is called `is_same`")]
    #[doc(hidden)]
    pub fn same(&self, first: Slot, second: Slot) -> bool {
        self.is_same(first, second)
    }
}
