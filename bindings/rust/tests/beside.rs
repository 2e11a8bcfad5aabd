//! Tests of the heap whose collector works in a thread of its own.

use gcflip::beside::{Mutator, Options, Safepoint};
use gcflip::{Class, Error, FlipChecks, Frame, Pace, Place, Value};
use std::cell::{Cell, RefCell};
use std::collections::BTreeMap;
use std::panic::{catch_unwind, AssertUnwindSafe};

const A: Place = Place::shared(0);
const B: Place = Place::own(0, 0);
const C: Place = Place::own(0, 15);

/// The place behind the last slot.
const BEHIND: Place = Place::extra(1, 0);

#[test]
fn a_heap_has_32_slots_and_its_extra_roots() {
    let mutator = Mutator::open(64).unwrap();
    assert_eq!((mutator.roots(), mutator.room()), (32, 63));
    assert_eq!(mutator.set_nil(BEHIND), Err(Error::OutOfRange));
    let mutator = Mutator::open_with(&Options::new(64).extra_roots(3)).unwrap();
    assert_eq!((mutator.roots(), mutator.room()), (35, 63));
    assert_eq!(mutator.look(Place::extra(1, 2)), Ok(Value::Nil));
    assert_eq!(mutator.look(Place::extra(1, 3)), Err(Error::OutOfRange));
}

#[test]
fn options_out_of_range_are_refused() {
    for options in [
        Options::new(0),
        Options::new(64).extra_roots(1_048_577),
        Options::new(64).pace(Pace::default().factor(99)),
        Options::new(64).pace(Pace::default().factor(10_001)),
    ] {
        assert_eq!(Mutator::open_with(&options).err(), Some(Error::OutOfRange), "{options:?}");
    }
}

#[test]
fn commands_reply_as_those_of_a_heap() {
    let mutator = Mutator::open(64).unwrap();
    assert_eq!(mutator.get(A, B, 0), Err(Error::NoObject));
    assert_eq!(mutator.put(A, 0, B), Err(Error::NoObject));
    mutator.new_object(A, 7, 2).unwrap();
    assert_eq!((mutator.look(A), mutator.room()), (Ok(Value::Object { kind: 7, fields: 2 }), 59));
    assert_eq!(mutator.get(B, A, 1), Ok(Value::Nil));
    assert_eq!(mutator.get(B, A, 2), Err(Error::NoField));
    assert_eq!(mutator.put(A, 65536, B), Err(Error::NoField));
    assert_eq!(mutator.set_number(B, 1 << 63), Err(Error::OutOfRange));
    mutator.set_number(B, (1 << 63) - 1).unwrap();
    mutator.put(A, 1, B).unwrap();
    assert_eq!(mutator.get(C, A, 1), Ok(Value::Number((1 << 63) - 1)));
    assert_eq!(mutator.is_same(B, C), Ok(true));
    mutator.copy(C, A).unwrap();
    assert_eq!((mutator.is_same(B, C), mutator.is_same(A, C)), (Ok(false), Ok(true)));
    mutator.new_raw(B, 9, 1).unwrap();
    assert_eq!(mutator.look(B), Ok(Value::RawObject { kind: 9, fields: 1 }));
    assert_eq!(mutator.put(B, 0, A), Err(Error::NoNumber));
    mutator.put(A, 0, B).unwrap();
    assert_eq!(mutator.get(C, A, 0), Ok(Value::RawObject { kind: 9, fields: 1 }));
    mutator.set_nil(C).unwrap();
    assert_eq!(mutator.look(C), Ok(Value::Nil));
    // 63 words were free, of which the objects took 4 and 3.
    assert_eq!(mutator.new_object(C, 0, 55), Err(Error::Full));
    mutator.new_object(C, 0, 54).unwrap();
    assert_eq!(mutator.room(), 0);
}

#[test]
fn numbers_and_nil_need_no_root_and_a_pair_no_second_call() {
    let mutator = Mutator::open(64).unwrap();
    assert_eq!(mutator.put_number(A, 0, 1), Err(Error::NoObject));
    assert_eq!(mutator.put_nil(A, 0), Err(Error::NoObject));
    mutator.set_number(B, 5).unwrap();
    // The second field takes the value of the pair's own root, which refers to the pair by then.
    mutator.new_pair(A, 7, B, A).unwrap();
    assert_eq!((mutator.look(A), mutator.room()), (Ok(Value::Object { kind: 7, fields: 2 }), 59));
    assert_eq!(mutator.get(C, A, 0), Ok(Value::Number(5)));
    mutator.get(C, A, 1).unwrap();
    assert_eq!(mutator.is_same(A, C), Ok(true));
    mutator.put_number(A, 0, (1 << 63) - 1).unwrap();
    mutator.put_nil(A, 1).unwrap();
    assert_eq!((mutator.get(C, A, 0), mutator.get(C, A, 1)), (Ok(Value::Number((1 << 63) - 1)), Ok(Value::Nil)));
    assert_eq!(mutator.look(B), Ok(Value::Number(5)));
    assert_eq!(mutator.put_number(A, 0, 1 << 63), Err(Error::OutOfRange));
    assert_eq!((mutator.put_number(A, 2, 1), mutator.put_nil(A, 65536)), (Err(Error::NoField), Err(Error::NoField)));
    mutator.new_raw(B, 9, 54).unwrap();
    assert_eq!((mutator.put_number(B, 53, 6), mutator.put_nil(B, 53)), (Ok(()), Err(Error::NoNumber)));
    assert_eq!((mutator.room(), mutator.new_pair(C, 1, A, A)), (3, Err(Error::Full)));
    assert_eq!(mutator.new_pair(BEHIND, 1, A, A), Err(Error::OutOfRange));
}

#[test]
fn roots_in_a_row_make_an_object_and_take_its_fields() {
    let mutator = Mutator::open_with(&Options::new(64).extra_roots(4)).unwrap();
    let row: Vec<Place> = (0..4).map(|k| Place::extra(1, k)).collect();
    for (root, number) in row.iter().zip(1..) {
        mutator.set_number(*root, number).unwrap();
    }
    mutator.new_from(A, 7, &[row[3], row[0], A]).unwrap();
    assert_eq!((mutator.peek(A, 0), mutator.peek(A, 1)), (Ok(Value::Number(4)), Ok(Value::Number(1))));
    assert_eq!(mutator.peek(A, 2), Ok(Value::Object { kind: 7, fields: 3 }));
    mutator.gather(B, 8, row[0], 4).unwrap();
    assert_eq!((mutator.look(B), mutator.room()), (Ok(Value::Object { kind: 8, fields: 4 }), 63 - 5 - 6));
    mutator.clear(row[0]..row[2]).unwrap();
    assert_eq!((mutator.look(row[1]), mutator.look(row[2])), (Ok(Value::Nil), Ok(Value::Number(3))));
    mutator.spread(row[0], B, 3).unwrap();
    assert_eq!((mutator.look(row[0]), mutator.look(row[2])), (Ok(Value::Number(1)), Ok(Value::Number(3))));
    assert_eq!((mutator.spread(row[0], B, 5), mutator.spread(row[0], C, 1)), (Err(Error::OutOfRange), Err(Error::NoObject)));
    assert_eq!((mutator.spread(A, A, 1), mutator.spread(row[0], A, 4)), (Err(Error::OutOfRange), Err(Error::NoField)));
    assert_eq!((mutator.peek(A, 3), mutator.peek(C, 0)), (Err(Error::NoField), Err(Error::NoObject)));
    assert_eq!(
        (mutator.new_from(A, 7, &[Place::extra(1, 4)]), mutator.gather(A, 7, row[1], 4)),
        (Err(Error::OutOfRange), Err(Error::OutOfRange))
    );
    assert_eq!(mutator.clear(row[2]..row[1]), Err(Error::OutOfRange));
    mutator.new_object(C, 1, 48).unwrap();
    assert_eq!((mutator.room(), mutator.gather(C, 1, row[0], 1), mutator.new_from(C, 1, &[A])), (2, Err(Error::Full), Err(Error::Full)));
    mutator.new_from(C, 1, &[]).unwrap();
}

#[test]
fn fields_in_a_row_take_a_value_or_those_of_another_object() {
    let mutator = Mutator::open(64).unwrap();
    mutator.new_object(A, 1, 4).unwrap();
    mutator.new_raw(B, 2, 3).unwrap();
    mutator.set_number(C, 9).unwrap();
    mutator.fill(A, 1..3, C).unwrap();
    assert_eq!(
        (0..4).map(|i| mutator.peek(A, i).unwrap()).collect::<Vec<_>>(),
        [Value::Nil, Value::Number(9), Value::Number(9), Value::Nil]
    );
    assert_eq!((mutator.fill(A, 3..5, C), mutator.fill(C, 0..1, A)), (Err(Error::NoField), Err(Error::NoObject)));
    assert_eq!(
        (mutator.fill(B, 0..1, A), mutator.fill(A, std::ops::Range { start: 2, end: 1 }, C)),
        (Err(Error::NoNumber), Err(Error::OutOfRange))
    );
    mutator.raw_write(B, 0, &[5, 6, (1 << 63) - 1]).unwrap();
    assert_eq!((mutator.raw_write(B, 2, &[1, 2]), mutator.raw_write(A, 0, &[1])), (Err(Error::NoField), Err(Error::NoObject)));
    assert_eq!(mutator.raw_write(B, 0, &[1, 1 << 63]), Err(Error::NoNumber));
    let mut numbers = [0; 3];
    mutator.raw_read(B, 0, &mut numbers).unwrap();
    assert_eq!(numbers, [5, 6, (1 << 63) - 1]);
    assert_eq!((mutator.raw_read(B, 1, &mut numbers), mutator.raw_read(A, 0, &mut numbers)), (Err(Error::NoField), Err(Error::NoObject)));
    assert_eq!(numbers, [5, 6, (1 << 63) - 1]);
    mutator.raw_read(B, 3, &mut []).unwrap();
    mutator.copy_fields(A, 2, B, 0, 2).unwrap();
    assert_eq!((mutator.peek(A, 2), mutator.peek(A, 3)), (Ok(Value::Number(5)), Ok(Value::Number(6))));
    assert_eq!((mutator.copy_fields(B, 0, A, 0, 2), mutator.copy_fields(A, 0, B, 2, 2)), (Err(Error::NoNumber), Err(Error::NoField)));
    assert_eq!(
        (mutator.copy_fields(C, 0, A, 0, 1), mutator.copy_fields(BEHIND, 0, A, 0, 1)),
        (Err(Error::NoObject), Err(Error::OutOfRange))
    );
    assert_eq!(mutator.look(C), Ok(Value::Number(9)));
}

#[test]
fn a_frame_is_a_stack_in_the_extra_roots() {
    let mutator = Mutator::open_with(&Options::new(64).extra_roots(4)).unwrap();
    let mut frame = Frame::new(1..4);
    assert_eq!(mutator.pop(&mut frame, A), Err(Error::FrameEmpty));
    for number in 0..3 {
        mutator.set_number(A, number).unwrap();
        mutator.push(&mut frame, A).unwrap();
    }
    assert_eq!((mutator.push(&mut frame, A), frame.len()), (Err(Error::FrameFull), 3));
    assert_eq!(mutator.look(Place::extra(1, 3)), Ok(Value::Number(2)));
    mutator.pop(&mut frame, B).unwrap();
    assert_eq!((mutator.look(B), mutator.look(Place::extra(1, 3)), frame.len()), (Ok(Value::Number(2)), Ok(Value::Nil), 2));
    frame.truncate(0);
    mutator.trim_frame(&mut frame, 1).unwrap();
    assert_eq!((mutator.look(Place::extra(1, 2)), mutator.look(Place::extra(1, 1))), (Ok(Value::Nil), Ok(Value::Number(0))));
    mutator.trim_frame(&mut frame, 5).unwrap();
    assert_eq!(mutator.look(Place::extra(1, 1)), Ok(Value::Nil));
    let mut outside = Frame::new(1..5);
    assert_eq!((mutator.push(&mut outside, A), mutator.trim_frame(&mut outside, 1)), (Err(Error::OutOfRange), Err(Error::OutOfRange)));
}

#[test]
fn a_safepoint_that_does_not_wait_says_where_the_mutator_stands() {
    let mutator = Mutator::open_with(&Options::new(1 << 14).pace(Pace::default().factor(100).least(0))).unwrap();
    mutator.new_object(A, 1, 1000).unwrap();
    let (mut parked, mut ahead) = (0, 0);
    for number in 0..200_000 {
        let stands = mutator.try_safepoint();
        if stands == Safepoint::Ahead {
            // A busy machine may let the mutator alone run until the heap is full, and the collector would never ask it to stop.
            if ahead % 1024 == 0 {
                std::thread::sleep(std::time::Duration::from_millis(2));
            }
            ahead += 1;
        }
        if stands == Safepoint::Parked {
            parked += 1;
            assert_eq!((mutator.set_nil(B), mutator.room(), mutator.roots()), (Err(Error::Parked), 0, 0));
            match number % 3 {
                0 => mutator.safepoint(),
                1 => mutator.collect().unwrap(),
                _ => continue,
            }
        }
        match mutator.new_object(B, 1, 2) {
            Err(Error::Full) => mutator.collect().unwrap(),
            made => mutator.put(A, number % 1000, B).and(made).unwrap(),
        }
    }
    assert!(parked > 0 && mutator.counts().flips > 0 && Error::Parked.class() == Class::Mismatch);
    while mutator.try_safepoint() == Safepoint::Parked {}
    assert_eq!(mutator.look(A), Ok(Value::Object { kind: 1, fields: 1000 }));
}

#[test]
fn a_flip_keeps_what_roots_reach_and_drops_the_rest() {
    let mutator = Mutator::open_with(&Options::new(1000).extra_roots(1)).unwrap();
    let last = Place::extra(1, 0);
    mutator.new_object(last, 1, 1).unwrap();
    mutator.put(last, 0, last).unwrap();
    mutator.new_object(A, 2, 90).unwrap();
    mutator.set_nil(A).unwrap();
    assert_eq!(mutator.room(), 999 - 3 - 92);
    mutator.collect().unwrap();
    // A collection keeps what was reachable when it began, and it may have begun before `A` became nil.
    mutator.collect().unwrap();
    mutator.collect().unwrap();
    assert_eq!(mutator.room(), 999 - 3);
    assert_eq!(mutator.get(A, last, 0), Ok(Value::Object { kind: 1, fields: 1 }));
    assert_eq!(mutator.is_same(A, last), Ok(true));
    let counts = mutator.counts();
    assert_eq!((counts.flips, counts.failed), (3, 0));
    assert!(counts.stops >= 3 && counts.waited >= counts.longest_wait);
}

#[test]
fn words_that_garbage_takes_are_reserved_and_those_of_live_objects_are_not() {
    let mutator = Mutator::open(1000).unwrap();
    mutator.reserve(999).unwrap();
    assert_eq!(mutator.counts().flips, 0);
    for flips in 1..=5 {
        mutator.new_object(A, 1, 997).unwrap();
        mutator.set_nil(A).unwrap();
        assert_eq!(mutator.room(), 0);
        mutator.reserve(999).unwrap();
        assert_eq!(mutator.room(), 999);
        assert!(mutator.counts().flips >= flips && mutator.counts().throttled >= flips);
    }
    mutator.new_object(A, 1, 500).unwrap();
    assert_eq!((mutator.reserve(498), mutator.reserve(497)), (Err(Error::Full), Ok(())));
    assert_eq!((mutator.look(A), mutator.room()), (Ok(Value::Object { kind: 1, fields: 500 }), 497));
}

/// Puts cells in front of the list in `A`, each with the number of cells behind it, until the heap has no room or so many are there. Returns their number.
fn listed(mutator: &Mutator, most: u64) -> u64 {
    for number in 0..most {
        match mutator.reserve(4) {
            Err(Error::Full) => return number,
            reserved => reserved.unwrap(),
        }
        mutator.new_pair(B, 2, A, A).unwrap();
        mutator.put_number(B, 1, number).unwrap();
        mutator.copy(A, B).unwrap();
        mutator.set_nil(B).unwrap();
    }
    most
}

fn expect_listed(mutator: &Mutator, cells: u64) {
    mutator.copy(B, A).unwrap();
    for number in (0..cells).rev() {
        assert_eq!(mutator.peek(B, 1), Ok(Value::Number(number)));
        mutator.get(B, B, 0).unwrap();
    }
    assert_eq!(mutator.look(B), Ok(Value::Nil));
}

#[test]
fn a_heap_that_may_grow_does_where_too_little_room_is_left() {
    let mutator = Mutator::open(1000).unwrap().growing(100_000);
    assert_eq!((mutator.size(), listed(&mutator, 2000)), (1000, 2000));
    expect_listed(&mutator, 2000);
    assert!(mutator.size() > 8000 && mutator.counts().failed == 0);
    // Twice the words of the heap, and those that are reserved.
    let mutator = Mutator::open(1000).unwrap().growing(100_000);
    mutator.reserve(5000).unwrap();
    assert_eq!((mutator.size(), mutator.room(), mutator.counts().flips), (7000, 6999, 1));
}

#[test]
fn a_heap_grows_up_to_its_most_words() {
    for (most, size) in [(3000, 3000), (999, 1000), (0, 1000)] {
        let mutator = Mutator::open(1000).unwrap().growing(most);
        let cells = u64::from(size - 1) / 4;
        assert_eq!(listed(&mutator, 10_000), cells);
        assert_eq!((mutator.size(), mutator.reserve(u32::MAX), mutator.size()), (size, Err(Error::Full), size));
        expect_listed(&mutator, cells);
    }
}

#[test]
fn a_heap_grows_at_a_flip_after_one_that_left_more_than_half_in_use() {
    for (fields, size) in [(497, 1000), (498, 2000)] {
        let mutator = Mutator::open(1000).unwrap().growing(100_000);
        mutator.new_object(A, 1, fields).unwrap();
        mutator.collect().unwrap();
        assert_eq!(mutator.size(), 1000);
        mutator.collect().unwrap();
        assert_eq!((mutator.size(), mutator.room()), (size, size - 3 - u32::from(fields)));
        let mutator = mutator.growing(0);
        mutator.collect().unwrap();
        assert_eq!((mutator.size(), mutator.look(A)), (size, Ok(Value::Object { kind: 1, fields })));
    }
}

#[test]
fn each_third_flip_checks_both_spaces_whole() {
    let mutator = Mutator::open_with(&Options::new(64).extra_roots(1).whole_each(3)).unwrap();
    assert_eq!(mutator.roots(), 33);
    for flips in 1..=10 {
        mutator.collect().unwrap();
        assert_eq!(mutator.flip_checks(), FlipChecks { along: flips - flips / 3, whole: flips / 3 });
    }
    let mutator = Mutator::open(64).unwrap();
    assert_eq!(mutator.flip_checks(), FlipChecks { along: 0, whole: 0 });
    mutator.collect().unwrap();
    mutator.collect().unwrap();
    assert_eq!(mutator.flip_checks(), FlipChecks { along: 2, whole: 0 });
}

#[test]
fn a_mutator_goes_to_another_thread() {
    let mutator = Mutator::open(4096).unwrap();
    mutator.set_number(A, 42).unwrap();
    let mutator = std::thread::spawn(move || {
        mutator.collect().unwrap();
        mutator
    })
    .join()
    .unwrap();
    assert_eq!(mutator.look(A), Ok(Value::Number(42)));
}

#[test]
fn a_heap_half_full_of_live_objects_is_never_found_full() {
    // The ring has 1,000 cells of 4 words each, and takes 1,002 words: about half of the heap.
    let mutator = Mutator::open(10_000).unwrap();
    mutator.new_object(A, 1, 1000).unwrap();
    for number in 0..200_000 {
        mutator.set_number(C, number).unwrap();
        assert_eq!(mutator.new_object(B, 2, 2), Ok(()), "number {number}");
        mutator.put(B, 0, C).unwrap();
        mutator.put(A, (number % 1000) as u32, B).unwrap();
        mutator.safepoint();
    }
    for cell in 0..1000 {
        mutator.get(B, A, cell as u32).unwrap();
        assert_eq!(mutator.get(C, B, 0), Ok(Value::Number(199_000 + cell)));
    }
    assert!(mutator.counts().flips > 0);
}

/// The object of the root, by its address and the number in its first field.
fn number_at(mutator: &Mutator, address: u32) -> u64 {
    match mutator.field_at(address, 0) {
        Ok((Value::Number(number), None)) => number,
        other => panic!("address {address} has {other:?}"),
    }
}

#[test]
fn addresses_tell_objects_and_make_references() {
    let mutator = Mutator::open(64).unwrap();
    assert_eq!((mutator.address(A), mutator.address(BEHIND)), (Ok(None), Err(Error::OutOfRange)));
    assert_eq!((mutator.object_at(1), mutator.field_at(1, 0)), (Ok(Value::Nil), Ok((Value::Nil, None))));
    mutator.new_object(A, 7, 2).unwrap();
    mutator.new_raw(B, 9, 1).unwrap();
    mutator.put_number(A, 0, 5).unwrap();
    mutator.put(A, 1, B).unwrap();
    assert_eq!((mutator.address(A), mutator.address(B)), (Ok(Some(1)), Ok(Some(5))));
    assert_eq!(mutator.object_at(1), Ok(Value::Object { kind: 7, fields: 2 }));
    assert_eq!(mutator.object_at(5), Ok(Value::RawObject { kind: 9, fields: 1 }));
    assert_eq!((mutator.object_at(2), mutator.object_at(u32::MAX)), (Ok(Value::Nil), Ok(Value::Nil)));
    assert_eq!(mutator.field_at(1, 0), Ok((Value::Number(5), None)));
    assert_eq!(mutator.field_at(1, 1), Ok((Value::RawObject { kind: 9, fields: 1 }, Some(5))));
    assert_eq!((mutator.field_at(1, 2), mutator.field_at(5, u32::MAX)), (Err(Error::NoField), Err(Error::NoField)));
    mutator.refer(C, 5).unwrap();
    assert_eq!(
        (mutator.is_same(B, C), mutator.refer(C, 6), mutator.refer(C, u32::MAX)),
        (Ok(true), Err(Error::NoObject), Err(Error::NoObject))
    );
    assert_eq!((mutator.is_same(B, C), mutator.refer(BEHIND, 5)), (Ok(true), Err(Error::OutOfRange)));
    assert_eq!((mutator.flips(), mutator.moved(1)), (0, Err(Error::OutOfRange)));
    mutator.copy(A, B).unwrap();
    mutator.collect().unwrap();
    assert_eq!((mutator.flips(), mutator.moved(1), mutator.address(A)), (1, Ok(None), mutator.moved(5)));
    mutator.set_nil(A).unwrap();
    mutator.set_nil(B).unwrap();
    mutator.set_nil(C).unwrap();
    let before = mutator.object_at(1);
    mutator.collect().unwrap();
    assert_eq!((before, mutator.moved(1), mutator.object_at(1)), (Ok(Value::RawObject { kind: 9, fields: 1 }), Ok(None), Ok(Value::Nil)));
}

#[test]
fn a_stopped_mutator_tells_no_address() {
    let mutator = Mutator::open_with(&Options::new(1 << 14).pace(Pace::default().factor(100).least(0))).unwrap();
    mutator.new_object(A, 1, 1000).unwrap();
    mutator.collect().unwrap();
    loop {
        match mutator.try_safepoint() {
            Safepoint::Parked => break,
            // The collector's thread gets on, and asks the mutator to stop.
            Safepoint::Ahead => std::thread::sleep(std::time::Duration::from_millis(2)),
            Safepoint::Runs => {}
        }
        if mutator.new_object(B, 1, 2) == Err(Error::Full) {
            mutator.collect().unwrap();
        }
    }
    assert_eq!((mutator.address(A), mutator.moved(1), mutator.flips()), (Err(Error::Parked), Err(Error::Parked), 0));
    assert_eq!(
        (mutator.refer(B, 1), mutator.object_at(1), mutator.field_at(1, 0)),
        (Err(Error::Parked), Err(Error::Parked), Err(Error::Parked))
    );
    mutator.safepoint();
    assert!(mutator.flips() > 0);
}

#[test]
fn a_table_is_followed_at_each_flip() {
    // Each object has its number in its field. Root k % 100 of the extra ones keeps object k until object k + 100 takes its place.
    let mutator = Mutator::open_with(&Options::new(4096).extra_roots(100).pace(Pace::default().factor(100).least(0))).unwrap();
    let table = RefCell::new(BTreeMap::new());
    let (followed, dead) = (Cell::new(0), Cell::new(0));
    let follow = |mutator: &Mutator| {
        followed.set(followed.get() + 1);
        assert_eq!(mutator.flips(), followed.get());
        let old: BTreeMap<u64, u32> = table.take();
        let new: BTreeMap<u64, u32> = old.iter().filter_map(|(number, old)| Some((*number, mutator.moved(*old).unwrap()?))).collect();
        dead.set(dead.get() + old.len() - new.len());
        for (number, address) in &new {
            assert_eq!(number_at(mutator, *address), *number);
        }
        table.replace(new);
        // No flip comes meanwhile.
        mutator.safepoint();
        assert_eq!((mutator.try_safepoint(), mutator.collect()), (Safepoint::Runs, Err(Error::NoMemory)));
        assert_eq!((mutator.reserve(mutator.room()), mutator.reserve(mutator.room() + 1)), (Ok(()), Err(Error::Full)));
    };
    mutator.on_flip(follow, || {
        for number in 0..50_000 {
            let root = Place::extra(1, (number % 100) as u32);
            while mutator.new_object(root, 1, 1) == Err(Error::Full) {
                mutator.collect().unwrap();
            }
            mutator.put_number(root, 0, number).unwrap();
            table.borrow_mut().insert(number, mutator.address(root).unwrap().unwrap());
            mutator.safepoint();
            assert_eq!(mutator.flips(), followed.get());
        }
    });
    for number in 49_900..50_000 {
        let address = mutator.address(Place::extra(1, (number % 100) as u32));
        assert_eq!(address, Ok(table.borrow().get(&number).copied()));
    }
    assert!(followed.get() > 10 && dead.get() > 40_000);
    mutator.collect().unwrap();
    assert_eq!(followed.get() + 1, mutator.flips(), "nothing is called after `on_flip`");
}

#[test]
fn the_innermost_on_flip_is_called_and_a_panic_goes_on() {
    let mutator = Mutator::open(64).unwrap();
    let calls = RefCell::new(Vec::new());
    let collect = || mutator.collect().unwrap();
    mutator.on_flip(
        |_| calls.borrow_mut().push("outer"),
        || {
            collect();
            mutator.on_flip(|_| calls.borrow_mut().push("inner"), collect);
            let panicked = catch_unwind(AssertUnwindSafe(|| mutator.on_flip(|_| panic!("no table"), collect)));
            assert_eq!(panicked.unwrap_err().downcast_ref(), Some(&"no table"));
            collect();
        },
    );
    collect();
    assert_eq!((calls.into_inner(), mutator.flips()), (vec!["outer", "inner", "outer"], 5));
}
