//! Tests of references that own a root: of what they keep alive, of all errors, and by random calls against a model.

use gcflip::rooted::{FieldOf, Kind, Root, Rooted, Stats};
use gcflip::{Class, Error, Result};

struct Pair;

impl Kind for Pair {
    const KIND: u8 = 1;
    const FIELDS: u16 = 2;
}

const NUMBER: FieldOf<Pair, u64> = FieldOf::at(0);
const NEXT: FieldOf<Pair, Pair> = FieldOf::at(1);
/// Field 0 again, as if it had references.
const NUMBER_AS_PAIR: FieldOf<Pair, Pair> = FieldOf::at(0);
const NEXT_AS_NUMBER: FieldOf<Pair, u64> = FieldOf::at(1);

/// A kind with the number of pairs, and with more fields.
struct Triple;

impl Kind for Triple {
    const KIND: u8 = 1;
    const FIELDS: u16 = 3;
}

const NEXT_AS_TRIPLE: FieldOf<Pair, Triple> = FieldOf::at(1);
/// The words of a pair.
const WORDS: u32 = 4;

/// Returns the words that are free when nothing is held.
fn free_at_the_end(heap: &Rooted) -> Result<u32> {
    assert_eq!((heap.roots_in_use(), heap.collect()?), (0, 0));
    Ok(heap.counts().free)
}

#[test]
fn fields_begin_nil_and_take_values() -> Result<()> {
    let heap = Rooted::open(64, 4)?;
    let (first, second) = (heap.make::<Pair>()?, heap.make::<Pair>()?);
    assert_eq!((first.get_number(NUMBER)?, first.get_root(NEXT)?.is_none()), (None, true));
    first.put_number(NUMBER, (1 << 63) - 1)?;
    first.put_root(NEXT, &second)?;
    heap.collect()?;
    assert_eq!(first.get_number(NUMBER)?, Some((1 << 63) - 1));
    assert!(first.get_root(NEXT)?.unwrap().is_same(&second));
    assert!(!first.is_same(&second) && first.is_same(&first.try_clone()?));
    assert_eq!(first.put_number(NUMBER, 1 << 63), Err(Error::OutOfRange));
    assert_eq!(first.get_number(NUMBER)?, Some((1 << 63) - 1));
    first.put_nil(NUMBER)?;
    first.put_nil(NEXT)?;
    assert_eq!((first.get_number(NUMBER)?, first.get_root(NEXT)?.is_none()), (None, true));
    assert_eq!(heap.roots_in_use(), 2);
    Ok(())
}

/// A collection of two pairs takes a begin, a copy of each, two scans and a pass of each, and a flip.
#[test]
fn what_the_heap_did_is_counted() -> Result<()> {
    let heap = Rooted::open(16, 4)?;
    assert_eq!(heap.stats(), Stats::default());
    let pairs = (heap.make::<Pair>()?, heap.make::<Pair>()?);
    heap.collect()?;
    let counted = Stats { objects: 2, words: 8, flips: 1, steps: 1 + 2 * (1 + 2 + 1) + 1, copied: 8, longest: 10, full: 0 };
    assert_eq!(heap.stats(), counted);
    let third = heap.make::<Pair>()?;
    assert_eq!(heap.make::<Pair>().unwrap_err(), Error::Full);
    let stats = heap.stats();
    assert_eq!((stats.objects, stats.words, stats.full), (3, 12, 1));
    assert!(stats.flips > counted.flips && stats.copied == 8 + 12 * (stats.flips - 1));
    assert!(!pairs.0.is_same(&pairs.1) && !third.is_same(&pairs.0));
    Ok(())
}

#[test]
fn a_heap_grows_if_it_may() -> Result<()> {
    let make_list = |heap: &Rooted, length: u32| -> Result<()> {
        let mut last = heap.make::<Pair>()?;
        for _ in 1..length {
            let next = heap.make::<Pair>()?;
            next.put_root(NEXT, &last)?;
            last = next;
        }
        Ok(())
    };
    let small = Rooted::open(2000, 4)?;
    assert_eq!((make_list(&small, 500).unwrap_err(), small.counts().size), (Error::Full, 2000));
    let heap = Rooted::open(2000, 4)?.growing(30000);
    make_list(&heap, 500)?;
    assert!(heap.counts().size > 2000 && heap.counts().size <= 30000);
    heap.collect()?;
    make_list(&heap, 7400)?; // 29,600 words
    assert_eq!(heap.counts().size, 30000);
    assert_eq!((make_list(&heap, 7500).unwrap_err(), heap.counts().size), (Error::Full, 30000));
    heap.collect()?;
    assert_eq!(free_at_the_end(&heap)?, 29999);
    Ok(())
}

/// Kinds with more fields than fit together into 200 words.
struct Short;

impl Kind for Short {
    const KIND: u8 = 3;
    const FIELDS: u16 = 90;
}

struct Long;

impl Kind for Long {
    const KIND: u8 = 4;
    const FIELDS: u16 = 150;
}

/// One flip in the old size leaves too little room, and that of a larger space enough. No other collection begins, whose memory may be refused.
#[test]
fn a_heap_that_grew_has_room_at_once() -> Result<()> {
    let heap = Rooted::open(200, 4)?.growing(30000);
    let _held = heap.make::<Short>()?;
    let flips = heap.stats().flips;
    let _more = heap.make::<Long>()?;
    assert_eq!((heap.counts().size, heap.stats().flips - flips), (2 * 200 + 152, 2));
    Ok(())
}

#[test]
fn a_root_keeps_its_object_alive_and_no_other_root_does() -> Result<()> {
    let heap = Rooted::open(64, 4)?;
    let empty = heap.counts().free;
    let first = heap.make::<Pair>()?;
    first.put_root(NEXT, &heap.make::<Pair>()?)?;
    first.put_number(NUMBER, 9)?;
    assert_eq!(heap.collect()?, 2);
    let second = first.get_root(NEXT)?.unwrap();
    drop(first);
    assert_eq!((heap.roots_in_use(), heap.collect()?), (1, 1));
    let copy = second.try_clone()?;
    drop(second);
    assert_eq!((heap.roots_in_use(), heap.collect()?), (1, 1));
    drop(copy);
    assert_eq!(free_at_the_end(&heap)?, empty);
    Ok(())
}

#[test]
fn a_field_with_another_value_is_an_error_that_keeps_nothing_alive() -> Result<()> {
    let heap = Rooted::open(64, 3)?;
    let empty = heap.counts().free;
    let first = heap.make::<Pair>()?;
    first.put_root(NEXT, &heap.make::<Pair>()?)?;
    first.put_number(NUMBER, 9)?;
    assert_eq!(first.get_root(NUMBER_AS_PAIR).unwrap_err(), Error::NoObject);
    assert_eq!(first.get_root(NEXT_AS_TRIPLE).unwrap_err(), Error::NoObject);
    assert_eq!(first.get_number(NEXT_AS_NUMBER), Err(Error::NoNumber));
    assert_eq!(heap.roots_in_use(), 1);
    drop(first);
    assert_eq!(free_at_the_end(&heap)?, empty);
    Ok(())
}

#[test]
fn objects_of_another_heap_are_refused() -> Result<()> {
    let (heap, other) = (Rooted::open(64, 2)?, Rooted::open(64, 2)?);
    let (pair, stranger) = (heap.make::<Pair>()?, other.make::<Pair>()?);
    assert_eq!(pair.put_root(NEXT, &stranger), Err(Error::OutOfRange));
    assert!(pair.get_root(NEXT)?.is_none() && !pair.is_same(&stranger));
    Ok(())
}

#[test]
fn a_full_heap_keeps_what_it_has() -> Result<()> {
    let heap = Rooted::open(64, 100)?;
    let mut pairs = Vec::new();
    while pairs.len() < (heap.counts().size as usize - 1) / WORDS as usize {
        pairs.push(heap.make::<Pair>()?);
        pairs.last().unwrap().put_number(NUMBER, pairs.len() as u64)?;
    }
    for _ in 0..3 {
        let error = heap.make::<Pair>().unwrap_err();
        assert_eq!((error, error.class(), heap.roots_in_use()), (Error::Full, Class::Lack, pairs.len()));
    }
    let numbers: Result<Vec<_>> = pairs.iter().map(|pair| pair.get_number(NUMBER)).collect();
    assert_eq!(numbers?, (1..=pairs.len() as u64).map(Some).collect::<Vec<_>>());
    pairs.swap_remove(7);
    pairs.push(heap.make()?);
    assert_eq!(heap.make::<Pair>().unwrap_err(), Error::Full);
    Ok(())
}

#[test]
fn without_a_root_nothing_is_made() -> Result<()> {
    let heap = Rooted::open(64, 2)?;
    let (first, second) = (heap.make::<Pair>()?, heap.make::<Pair>()?);
    first.put_root(NEXT, &second)?;
    let before = heap.counts();
    assert_eq!(heap.make::<Pair>().unwrap_err(), Error::FrameFull);
    assert_eq!(first.try_clone().unwrap_err(), Error::FrameFull);
    assert_eq!(first.get_root(NEXT).unwrap_err(), Error::FrameFull);
    assert_eq!((Error::FrameFull.class(), heap.counts()), (Class::Lack, before));
    drop(second);
    assert!(first.get_root(NEXT)?.is_some());
    assert_eq!(Rooted::open(0, 1).unwrap_err(), Error::OutOfRange);
    assert_eq!(Rooted::open(64, (1 << 20) + 1).unwrap_err(), Error::OutOfRange);
    Ok(())
}

#[test]
fn the_collector_keeps_pace() -> Result<()> {
    let heap = Rooted::open(1 << 20, 1)?;
    for _ in 0..50_000 {
        heap.make::<Pair>()?;
    }
    // The heap has room for five times as many words, so that only paced work can have freed some.
    assert!(heap.counts().end < 50_000 * WORDS, "{:?}", heap.counts());
    Ok(())
}

#[test]
fn a_whole_collection_begins_after_the_open_one() -> Result<()> {
    let heap = Rooted::open(1 << 20, 3)?;
    let mut list = heap.make::<Pair>()?;
    while !heap.counts().is_open {
        let pair = heap.make::<Pair>()?;
        pair.put_root(NEXT, &list)?;
        list = pair;
    }
    drop(list);
    assert_eq!(heap.collect()?, 0);
    Ok(())
}

/// A pair of the model: its number, and the index of the next pair.
#[derive(Clone, Copy, Default)]
struct Model {
    number: Option<u64>,
    next: Option<usize>,
}

/// Numbers that look random, from a seed, by xorshift.
struct Random(u64);

impl Random {
    fn below(&mut self, end: usize) -> usize {
        self.0 ^= self.0 << 13;
        self.0 ^= self.0 >> 7;
        self.0 ^= self.0 << 17;
        (self.0 % end as u64) as usize
    }
}

/// Calls that look random on a heap with little room, and on a model that frees nothing.
struct Play<'h> {
    heap: &'h Rooted,
    random: Random,
    model: Vec<Model>,
    held: Vec<(Root<'h, Pair>, usize)>,
}

impl<'h> Play<'h> {
    fn make(&mut self) {
        match self.heap.make() {
            Ok(root) => {
                self.held.push((root, self.model.len()));
                self.model.push(Model::default());
            }
            Err(error) => assert_eq!(error.class(), Class::Lack),
        }
        assert_eq!(self.heap.roots_in_use(), self.held.len());
    }

    fn put(&mut self) -> Result<()> {
        let (at, other) = (self.random.below(self.held.len()), self.random.below(self.held.len()));
        let (root, of) = &self.held[at];
        match self.random.below(3) {
            0 => {
                root.put_nil(NEXT)?;
                self.model[*of].next = None;
            }
            1 => {
                let number = self.random.below(1 << 40) as u64;
                root.put_number(NUMBER, number)?;
                self.model[*of].number = Some(number);
            }
            _ => {
                root.put_root(NEXT, &self.held[other].0)?;
                self.model[*of].next = Some(self.held[other].1);
            }
        }
        Ok(())
    }

    /// Compares all that can be read from a pair with the model, and goes on to the next one.
    fn walk(&mut self) -> Result<()> {
        let at = self.random.below(self.held.len());
        let (mut root, mut of) = (self.held[at].0.try_clone()?, self.held[at].1);
        for _ in 0..10 {
            assert_eq!(root.get_number(NUMBER)?, self.model[of].number);
            match (root.get_root(NEXT)?, self.model[of].next) {
                (Some(next), Some(place)) => (root, of) = (next, place),
                (None, None) => break,
                (found, _) => panic!("the model has another pair than {found:?}"),
            }
        }
        self.held.iter().for_each(|(held, place)| assert_eq!(held.is_same(&root), *place == of));
        Ok(())
    }
}

#[test]
fn random_calls_agree_with_a_model() -> Result<()> {
    for seed in 1..=20 {
        let heap = Rooted::open(200, 12)?;
        let mut play = Play { heap: &heap, random: Random(seed), model: Vec::new(), held: Vec::new() };
        for _ in 0..2000 {
            match (play.random.below(6), play.held.len()) {
                (0 | 1, 0..=9) | (_, 0) => play.make(),
                (2 | 3, _) => play.put()?,
                (4, _) => play.walk()?,
                (_, len) => drop(play.held.swap_remove(play.random.0 as usize % len)),
            }
        }
        drop(play);
        assert_eq!(free_at_the_end(&heap)?, 199);
    }
    Ok(())
}
