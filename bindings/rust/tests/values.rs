//! Tests of the codes of integers, doubles and specials, with the vectors of tests/c/herbpond.c, and of the names of kinds.

use gcflip::kinds::{fits, kind_name, kind_of, object_fits, Kind};
use gcflip::values::{code_of_double, code_of_int, code_of_special, value_of, Value, KIND_BOX, LEAST_INT, MOST_INT, SPECIALS};
use gcflip::{Error, Heap, Place, Result};

const X: Place = Place(0);
const OBJECT: Place = Place(1);

/// The numbers of a xorshift generator.
fn random_bits() -> impl Iterator<Item = u64> {
    let step = |bits: &u64| {
        let one = bits ^ bits << 13;
        let two = one ^ one >> 7;
        Some(two ^ two << 17)
    };
    std::iter::successors(Some(88172645463325252), step)
}

fn check_integer(heap: &Heap, integer: i64) -> Result<()> {
    let number = code_of_int(integer).unwrap();
    assert!(number < 1 << 63 && number % 2 == 0);
    assert_eq!(value_of(number), Value::Int(integer));
    heap.set_int(X, integer)?;
    heap.put_int(0, OBJECT, 1, integer)?;
    assert_eq!((heap.value(X)?, heap.field(OBJECT, 1)?), (Value::Int(integer), Value::Int(integer)));
    Ok(())
}

#[test]
fn integers_come_back() -> Result<()> {
    let heap = Heap::open(1000, 1)?;
    heap.new_object(OBJECT, 7, 2)?;
    assert_eq!([0, 1, -1].map(code_of_int), [Some(0), Some(2), Some(0x7ffffffffffffffe)]);
    assert_eq!((code_of_int(LEAST_INT), code_of_int(MOST_INT)), (Some(0x4000000000000000), Some(0x3ffffffffffffffe)));
    assert_eq!((LEAST_INT, MOST_INT), (-2305843009213693952, 2305843009213693951));
    for bit in 0..61 {
        for more in -1..=1 {
            check_integer(&heap, (1 << bit) + more)?;
            check_integer(&heap, -(1 << bit) + more)?;
        }
    }
    for integer in [LEAST_INT, LEAST_INT + 1, MOST_INT] {
        check_integer(&heap, integer)?;
    }
    for bits in random_bits().take(10000) {
        check_integer(&heap, bits as i64 >> 2)?;
    }
    heap.set_int(X, 5)?;
    heap.put_int(0, OBJECT, 1, 6)?;
    for outside in [MOST_INT + 1, LEAST_INT - 1, i64::MIN, i64::MAX] {
        assert_eq!((heap.set_int(X, outside), heap.put_int(0, OBJECT, 1, outside)), (Err(Error::OutOfRange), Err(Error::OutOfRange)));
    }
    assert_eq!((heap.value(X)?, heap.field(OBJECT, 1)?), (Value::Int(5), Value::Int(6)));
    Ok(())
}

/// A double comes back bit by bit, but for a NaN. It needs a box if its size is below 2^-254 and not 0, or at least 2^257 and not infinite.
fn check_double(heap: &Heap, bits: u64) -> Result<()> {
    let real = f64::from_bits(bits);
    let wants_box = !real.is_nan() && !real.is_infinite() && real != 0.0 && !(2f64.powi(-254)..2f64.powi(257)).contains(&real.abs());
    let is_same = |other: f64| if real.is_nan() { other.is_nan() } else { other.to_bits() == bits };
    match code_of_double(real) {
        None => assert!(wants_box),
        Some(number) => {
            assert!(!wants_box && number < 1 << 63 && number % 2 == 1);
            assert!(matches!(value_of(number), Value::Double(other) if is_same(other)));
        }
    }
    heap.collect()?;
    heap.set_double(0, X, real)?;
    assert_eq!(matches!(heap.value(X)?, Value::RawObject { kind: KIND_BOX, fields: 2 }), wants_box);
    assert!(is_same(heap.double(X)?));
    Ok(())
}

#[test]
fn doubles_come_back() -> Result<()> {
    let heap = Heap::open(1000, 1)?;
    assert_eq!([1.0, -2.0, 0.0].map(code_of_double), [Some(0x3fe0000000000001), Some(0x4000000000000001), Some(0x6000000000000001)]);
    for exponent in 0..2048 {
        for sign in [0, 1] {
            for fraction in [0, 1, 0x8000000000000, 0xfffffffffffff] {
                check_double(&heap, sign << 63 | exponent << 52 | fraction)?;
            }
        }
    }
    for bits in random_bits().take(2000) {
        check_double(&heap, bits)?;
    }
    heap.set_int(X, 1)?;
    assert_eq!(heap.double(X), Err(Error::NoNumber));
    heap.new_raw(X, 7, 2)?;
    assert_eq!(heap.double(X), Err(Error::NoNumber));
    assert_eq!(heap.set_double(1, X, 0.5), Err(Error::OutOfRange));
    assert_eq!(heap.set_double(0, Place(32), 0.5), Err(Error::OutOfRange));
    let full = Heap::open(4, 1)?;
    assert_eq!((full.set_double(0, X, 1e300), full.value(X)?), (Err(Error::Full), Value::Nil));
    Ok(())
}

#[test]
fn specials_come_back() -> Result<()> {
    let heap = Heap::open(100, 1)?;
    assert_eq!((code_of_special(0), SPECIALS, code_of_special(SPECIALS)), (Some(0x2000000000000001), 4503599627370496, None));
    let powers = (0..52).flat_map(|bit| [(1 << bit) - 1, 1 << bit]);
    for special in powers.chain([SPECIALS - 1]).chain(random_bits().take(1000).map(|bits| bits >> 12)) {
        assert_eq!(code_of_special(special).map(value_of), Some(Value::Special(special)));
        heap.set_special(X, special)?;
        assert_eq!(heap.value(X)?, Value::Special(special));
    }
    heap.set_special(X, 9)?;
    assert_eq!((heap.set_special(X, SPECIALS), heap.value(X)?), (Err(Error::OutOfRange), Value::Special(9)));
    heap.set_int(Place(4), 9)?;
    heap.set_double(0, Place(5), 9.0)?;
    assert!(!heap.is_same(X, Place(4))? && !heap.is_same(Place(4), Place(5))?);
    Ok(())
}

#[test]
fn kinds_have_names() {
    let kinds = ["pair", "text"].map(Kind::named);
    assert_eq!([0, 1, 2, 252].map(|kind| kind_name(&kinds, kind)), ["pair", "text", "", ""]);
    assert_eq!([253, 254, 255].map(|kind| kind_name(&[], kind)), ["spine", "part", "box"]);
    assert_eq!((kind_of(&kinds, 1), kind_of(&kinds, 2)), (Some(kinds[1]), None));
    assert_eq!(kind_of(&kinds, 255).and_then(|kind| kind.fields), Some(2));
}

#[test]
fn objects_fit_their_kinds() -> Result<()> {
    let kinds = [
        Kind { name: "pair", fields: Some(2), numbers: &[] },
        Kind { name: "", fields: Some(3), numbers: &[0, 2] },
        Kind { name: "row", fields: None, numbers: &[70] },
    ];
    let heap = Heap::open(1000, 1)?;
    let check = |kind, wanted| -> Result<()> {
        assert_eq!(fits(&heap, &kinds, X, kind)?, wanted);
        assert_eq!(heap.address(X)?.is_some_and(|address| object_fits(&heap, &kinds, address)), wanted);
        Ok(())
    };
    // The number of fields.
    heap.new_object(X, 0, 1)?;
    check(0, false)?;
    heap.new_object(X, 0, 2)?;
    check(0, true)?;
    assert!(!fits(&heap, &kinds, X, 1)?);
    // Fields 0 and 2 of kind 1 hold numbers. Nil and a reference are none.
    heap.new_object(OBJECT, 0, 2)?;
    heap.new_object(X, 1, 3)?;
    heap.put_number(0, X, 2, 7)?;
    check(1, false)?;
    heap.new_object(X, 1, 3)?;
    heap.put_number(0, X, 0, 7)?;
    check(1, false)?;
    heap.put(0, X, 2, OBJECT)?;
    check(1, false)?;
    heap.put_number(0, X, 2, 7)?;
    check(1, true)?;
    heap.new_raw(X, 1, 3)?;
    check(1, true)?;
    // A field that an object of any number of fields does not have needs no number.
    heap.new_object(X, 2, 70)?;
    check(2, true)?;
    heap.new_object(X, 2, 71)?;
    check(2, false)?;
    // A kind without a description, and those of boxes.
    heap.new_object(X, 250, 5)?;
    check(250, true)?;
    heap.set_double(0, X, 1e300)?;
    check(KIND_BOX, true)?;
    heap.new_raw(X, KIND_BOX, 1)?;
    check(KIND_BOX, false)?;
    // What refers to no object, and what is no object or no root.
    heap.set_int(X, 5)?;
    check(0, false)?;
    heap.set_nil(X)?;
    check(0, false)?;
    assert!(!object_fits(&heap, &kinds, 2) && !object_fits(&heap, &kinds, u32::MAX));
    assert_eq!(fits(&heap, &kinds, Place(1 << 20), 0), Err(Error::OutOfRange));
    Ok(())
}
