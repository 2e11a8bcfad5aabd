//! Tests of long arrays, with the lengths and the refusals of tests/c/herbpond_arrays.c.

use gcflip::arrays::{Arrays, MOST_ELEMENTS, PART};
use gcflip::values::Value;
use gcflip::{Error, Heap, Place, Result};

const ARRAY: Place = Place(0);
const X: Place = Place(1);
const FOUND: Place = Place(2);
const OTHER: Place = Place(3);
const KIND: u8 = 9;
const OWN: [Place; 3] = [Place(29), Place(30), Place(31)];

/// Expects that the array has the numbers `first`, `first` + 1 and so on, and that the roots of the calls hold nil.
fn check_row(heap: &Heap, arrays: &Arrays, length: u32, first: i64) -> Result<()> {
    assert_eq!(arrays.length(ARRAY)?, length);
    for i in 0..length {
        arrays.get(FOUND, ARRAY, i)?;
        assert_eq!(heap.value(FOUND)?, Value::Int(first + i64::from(i)));
    }
    for own in OWN {
        assert_eq!(heap.value(own)?, Value::Nil);
    }
    Ok(())
}

/// An array takes 4 words, and each other object two more than it has fields.
fn words_of(length: u32) -> u32 {
    let parts = length.div_ceil(PART);
    match length {
        0 => 4,
        1..=PART => 4 + length + 2,
        _ => 4 + parts + 2 + parts * (PART + 2),
    }
}

#[test]
fn arrays_of_many_lengths() -> Result<()> {
    let heap = Heap::open(2_000_000, 1)?;
    let arrays = Arrays::new(&heap, 0, OWN);
    for length in [0, 1, 2, 7, 8, 9, 4076, 4095, 4096, 4097, 8191, 8192, 8193, 32767, 32768, 32769, 65535, 65536, 300000] {
        let end = heap.counts().end;
        arrays.new_array(ARRAY, KIND, length)?;
        assert_eq!(heap.counts().end, end + words_of(length));
        for i in 0..length {
            arrays.get(FOUND, ARRAY, i)?;
            assert_eq!(heap.value(FOUND)?, Value::Nil);
            heap.set_int(X, 5 + i64::from(i))?;
            arrays.put(ARRAY, i, X)?;
        }
        for i in length..length + 20 {
            heap.set_int(X, 5 + i64::from(i))?;
            arrays.push(ARRAY, X)?;
        }
        heap.collect()?;
        check_row(&heap, &arrays, length + 20, 5)?;
        heap.set_nil(ARRAY)?;
        heap.set_nil(FOUND)?;
        heap.collect()?;
        assert_eq!(heap.counts().end, 1);
    }
    Ok(())
}

#[test]
fn pushes_while_collections_go_on() -> Result<()> {
    let heap = Heap::open(400_000, 1)?;
    let arrays = Arrays::new(&heap, 0, OWN);
    arrays.new_array(ARRAY, KIND, 0)?;
    for i in 0..20 * PART {
        heap.set_int(X, i.into())?;
        arrays.push(ARRAY, X)?;
        heap.work(1)?;
    }
    check_row(&heap, &arrays, 20 * PART, 0)?;
    assert!(heap.flip_checks().along > 0);
    Ok(())
}

#[test]
fn one_root_is_array_and_element() -> Result<()> {
    let heap = Heap::open(100_000, 1)?;
    let arrays = Arrays::new(&heap, 0, OWN);
    arrays.new_array(ARRAY, KIND, 5000)?;
    arrays.put(ARRAY, 4999, ARRAY)?;
    arrays.push(ARRAY, ARRAY)?;
    arrays.get(FOUND, ARRAY, 4999)?;
    arrays.get(OTHER, ARRAY, 5000)?;
    assert!(heap.is_same(FOUND, ARRAY)? && heap.is_same(OTHER, ARRAY)?);
    arrays.get(ARRAY, ARRAY, 4998)?;
    assert_eq!((heap.value(ARRAY)?, arrays.length(FOUND)?), (Value::Nil, 5001));
    Ok(())
}

#[test]
fn arrays_refuse() -> Result<()> {
    let heap = Heap::open(100_000, 1)?;
    let arrays = Arrays::new(&heap, 0, OWN);
    heap.set_int(X, 3)?;
    arrays.new_array(ARRAY, KIND, 2)?;
    assert_eq!(arrays.new_array(OTHER, KIND, MOST_ELEMENTS + 1), Err(Error::OutOfRange));
    assert_eq!(arrays.new_array(Place(32), KIND, 1), Err(Error::OutOfRange));
    assert_eq!(arrays.new_array(OTHER, KIND, MOST_ELEMENTS), Err(Error::Full));
    assert_eq!([2, u32::MAX].map(|i| arrays.get(FOUND, ARRAY, i)), [Err(Error::NoField); 2]);
    assert_eq!((arrays.get(Place(32), ARRAY, 0), arrays.put(ARRAY, 2, X)), (Err(Error::OutOfRange), Err(Error::NoField)));
    assert_eq!((arrays.put(ARRAY, 0, Place(32)), arrays.push(ARRAY, Place(32))), (Err(Error::OutOfRange), Err(Error::OutOfRange)));
    assert_eq!((arrays.length(X), arrays.push(OTHER, X)), (Err(Error::NoObject), Err(Error::NoObject)));
    assert_eq!(Arrays::new(&heap, 1, OWN).put(ARRAY, 0, X), Err(Error::OutOfRange));
    // An object that is no array. What would be its spine has a number and a part of two fields.
    heap.new_object(OTHER, KIND, 2)?;
    assert_eq!(arrays.length(OTHER), Err(Error::NoNumber));
    heap.put_int(0, OTHER, 0, -1)?;
    assert_eq!(arrays.length(OTHER), Err(Error::NoNumber));
    heap.put_int(0, OTHER, 0, 5000)?;
    heap.put(0, OTHER, 1, ARRAY)?;
    assert_eq!((arrays.put(OTHER, 4, X), arrays.put(OTHER, 4998, X)), (Err(Error::NoObject), Err(Error::NoField)));
    assert_eq!((arrays.length(ARRAY)?, heap.value(FOUND)?, heap.value(OWN[0])?), (2, Value::Nil, Value::Nil));
    Ok(())
}

/// The array takes more room before an element is written. A root that does not exist is refused before that.
#[test]
fn a_refused_push_keeps_the_array() -> Result<()> {
    let heap = Heap::open(100_000, 1)?;
    let arrays = Arrays::new(&heap, 0, OWN);
    for length in [0, 8, PART, 2 * PART] {
        arrays.new_array(ARRAY, KIND, length)?;
        for i in 0..length {
            heap.set_int(X, i.into())?;
            arrays.put(ARRAY, i, X)?;
        }
        assert_eq!(arrays.push(ARRAY, Place(32)), Err(Error::OutOfRange));
        check_row(&heap, &arrays, length, 0)?;
    }
    Ok(())
}

#[test]
fn a_full_heap_keeps_the_array() -> Result<()> {
    let heap = Heap::open(10_000, 1)?;
    let arrays = Arrays::new(&heap, 0, OWN);
    arrays.new_array(ARRAY, KIND, 0)?;
    let mut length = 0;
    let error = loop {
        heap.set_int(X, length)?;
        match arrays.push(ARRAY, X) {
            Ok(()) => length += 1,
            Err(error) => break error,
        }
    };
    assert_eq!(error, Error::Full);
    check_row(&heap, &arrays, length as u32, 0)
}
