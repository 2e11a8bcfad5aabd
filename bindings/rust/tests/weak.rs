//! Tests of weak handles and tokens, with the cases of tests/c/herbpond_weak.c.

use gcflip::values::Value;
use gcflip::weak::{Table, Weak};
use gcflip::{Error, Heap, Pace, Place, Result};

const FIRST: Place = Place(0);
const X: Place = Place(1);
const FOUND: Place = Place(2);
const OTHER: Place = Place(3);
const KIND: u8 = 9;

fn number_of(heap: &Heap, table: &mut Table, weak: Weak) -> Result<Option<Value>> {
    let number = if table.weak_get(FOUND, weak)? { Some(heap.field(FOUND, 0)?) } else { None };
    heap.set_nil(FOUND)?;
    Ok(number)
}

fn numbered(heap: &Heap, root: Place, number: i64) -> Result<()> {
    heap.new_object(root, KIND, 1)?;
    heap.put_int(0, root, 0, number)
}

#[test]
fn tokens_are_told_once() -> Result<()> {
    let heap = Heap::open(1000, 1)?;
    let mut table = Table::new(&heap);
    assert_eq!(table.weak_next_dead()?, None);
    numbered(&heap, X, 1)?;
    let (first, second, third) = (table.weak_new(X, u64::MAX)?, table.weak_new(X, 0)?, table.weak_new(X, 3)?);
    table.collect()?;
    assert_eq!((table.weak_next_dead()?, number_of(&heap, &mut table, first)?), (None, Some(Value::Int(1))));
    table.weak_free(third)?;
    table.weak_free(third)?;
    assert_eq!(number_of(&heap, &mut table, third)?, None);
    heap.set_nil(X)?;
    assert_eq!(number_of(&heap, &mut table, first)?, Some(Value::Int(1)));
    table.collect()?;
    assert_eq!((number_of(&heap, &mut table, first)?, number_of(&heap, &mut table, second)?), (None, None));
    let mut tokens = [table.weak_next_dead()?, table.weak_next_dead()?];
    tokens.sort();
    assert_eq!((tokens, table.weak_next_dead()?), ([Some(0), Some(u64::MAX)], None));
    // A handle that is freed after its object died is not told. Entries are used again, and old handles give nothing.
    numbered(&heap, X, 2)?;
    let fourth = table.weak_new(X, 5)?;
    table.weak_new(X, 6)?;
    heap.set_nil(X)?;
    table.collect()?;
    table.weak_free(fourth)?;
    assert_eq!((table.weak_next_dead()?, table.weak_next_dead()?), (Some(6), None));
    for i in 1..100 {
        numbered(&heap, X, i)?;
        let weak = table.weak_new(X, i as u64)?;
        assert!(weak.number() >> 32 >= 1 && weak.number() as u32 <= 2);
        assert_eq!((number_of(&heap, &mut table, weak)?, number_of(&heap, &mut table, first)?), (Some(Value::Int(i)), None));
        table.weak_free(first)?;
        heap.set_nil(X)?;
        table.collect()?;
        assert_eq!(table.weak_next_dead()?, Some(i as u64));
    }
    Ok(())
}

#[test]
fn an_object_that_was_got_lives_on() -> Result<()> {
    let heap = Heap::open(1000, 1)?;
    let mut table = Table::new(&heap);
    numbered(&heap, X, 9)?;
    let weak = table.weak_new(X, 4)?;
    heap.set_nil(X)?;
    assert!(table.weak_get(OTHER, weak)?);
    let mut pace = Pace::default();
    assert_eq!(table.reserve(&mut pace, 990)?, ());
    heap.new_raw(X, 1, 900)?;
    assert_eq!((table.reserve(&mut pace, 990), heap.field(OTHER, 0)?), (Err(Error::Full), Value::Int(9)));
    heap.set_int(FOUND, 8)?;
    heap.set_nil(OTHER)?;
    table.collect()?;
    assert_eq!((table.weak_get(FOUND, weak)?, heap.value(FOUND)?, table.weak_next_dead()?), (false, Value::Int(8), Some(4)));
    Ok(())
}

#[test]
fn handles_refuse() -> Result<()> {
    let heap = Heap::open(1000, 1)?;
    let mut table = Table::new(&heap);
    heap.set_int(OTHER, 3)?;
    assert_eq!(table.weak_get(X, Weak::from_number(1 << 32)), Err(Error::OutOfRange));
    assert_eq!([X, OTHER].map(|root| table.weak_new(root, 0)), [Err(Error::NoObject); 2]);
    assert_eq!(table.weak_new(Place(32), 0), Err(Error::OutOfRange));
    numbered(&heap, X, 5)?;
    let weak = table.weak_new(X, 1)?;
    assert_eq!(table.weak_get(Place(32), weak), Err(Error::OutOfRange));
    for wrong in [0, weak.number() + 1, weak.number() + (1 << 32)].map(Weak::from_number) {
        assert_eq!((table.weak_get(FOUND, wrong), table.weak_free(wrong)), (Err(Error::OutOfRange), Err(Error::OutOfRange)));
    }
    assert_eq!(number_of(&heap, &mut table, weak)?, Some(Value::Int(5)));
    Ok(())
}

/// A table follows one flip by other calls, if the next collection has not begun.
#[test]
fn flips_by_other_calls() -> Result<()> {
    for (is_followed, is_begun, is_twice) in
        [(true, true, false), (true, false, true), (false, false, false), (false, true, false), (false, false, true)]
    {
        let heap = Heap::open(1000, 1)?;
        let mut table = Table::new(&heap);
        numbered(&heap, OTHER, 1)?;
        numbered(&heap, X, 2)?;
        heap.new_object(FIRST, KIND, 1)?;
        let weak = table.weak_new(X, 0)?;
        heap.set_nil(OTHER)?;
        heap.collect()?;
        if is_followed {
            table.follow()?;
        }
        if is_begun {
            heap.begin()?;
        }
        if is_twice {
            heap.collect()?;
        }
        let is_known = is_followed || !is_begun && !is_twice;
        assert_eq!(number_of(&heap, &mut table, weak).is_ok(), is_known, "{is_followed} {is_begun} {is_twice}");
    }
    Ok(())
}
