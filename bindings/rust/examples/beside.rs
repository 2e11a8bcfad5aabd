//! A program whose collector works in a thread of its own. It keeps a ring of 1000 lists, and makes them anew one after the other, with ten cells each, so
//! that the heap of 65536 words fills up many times. Prints the sum of the numbers in the ring, which are 99000 to 99999, ten of each: 994995000.
//!
//! Needs the feature `beside`.

use gcflip::beside::Mutator;
use gcflip::{Error, Place, Result, Value};

const RING: Place = Place::shared(0);
const LIST: Place = Place::shared(1);
const CELL: Place = Place::shared(2);
const NUMBER: Place = Place::shared(3);

const RING_KIND: u8 = 1;
const CELL_KIND: u8 = 2;

const LISTS: u64 = 1000;
const CELLS: u64 = 10;
const TURNS: u64 = 100_000;

/// Makes an object, and waits for a flip where the heap is full.
fn make(mutator: &Mutator, root: Place, kind: u8, fields: u16) -> Result<()> {
    while mutator.new_object(root, kind, fields) == Err(Error::Full) {
        mutator.collect()?;
    }
    Ok(())
}

/// Makes a list of ten cells with this number.
fn make_list(mutator: &Mutator, number: u64) -> Result<()> {
    mutator.set_nil(LIST)?;
    mutator.set_number(NUMBER, number)?;
    for _ in 0..CELLS {
        make(mutator, CELL, CELL_KIND, 2)?;
        mutator.put(CELL, 0, NUMBER)?;
        mutator.put(CELL, 1, LIST)?;
        mutator.copy(LIST, CELL)?;
        mutator.safepoint();
    }
    Ok(())
}

/// Adds up the list.
fn sum(mutator: &Mutator) -> Result<u64> {
    let mut sum = 0;
    while mutator.look(LIST)? != Value::Nil {
        if let Value::Number(number) = mutator.get(NUMBER, LIST, 0)? {
            sum += number;
        }
        mutator.get(LIST, LIST, 1)?;
    }
    Ok(sum)
}

fn main() -> Result<()> {
    let mutator = Mutator::open(65536)?;
    make(&mutator, RING, RING_KIND, LISTS as u16)?;
    for turn in 0..TURNS {
        make_list(&mutator, turn)?;
        mutator.put(RING, (turn % LISTS) as u32, LIST)?;
    }
    let mut total = 0;
    for list in 0..LISTS {
        mutator.get(LIST, RING, list as u32)?;
        total += sum(&mutator)?;
    }
    assert!(mutator.counts().flips > 0, "the heap has no room for all lists at once");
    println!("{total}");
    Ok(())
}
