//! Performs the calls on standard input, a line each, and prints a line for each. In the repository, tests/program/random_calls.py makes the calls and
//! knows the lines. Some arguments that a call of C refuses have no form in Rust, such as a kind of 256: the line of such a call is "out of range".
//!
//! Outputs that a call must leave alone are compared with what they held before.

mod replies;

use gcflip::{Error, Field, Frame, Heap, Mutator, Options, Pace, Place, Result, Slot, Step, Useful, Value, Work};
use replies::{seen, stepped};
use std::fmt::Display;
use std::io::{self, BufWriter, Write};
use std::mem::transmute;
use std::panic;

/// What outputs hold before a call.
const KEPT: u64 = 0x5a5a_5a5a_5a5a_5a5a;

/// The numbers of a line.
struct Numbers<'a>(&'a [u64]);

impl Numbers<'_> {
    /// Returns a number as an argument's type, or `OutOfRange` if that has no such value.
    fn at<N: TryFrom<u64>>(&self, place: usize) -> Result<N> {
        N::try_from(self.0[place]).map_err(|_| Error::OutOfRange)
    }

    /// Returns the slot that a number of C stands for, or `OutOfRange` if the crate makes none.
    fn slot(&self, place: usize) -> Result<Slot> {
        slot(self.0[place])
    }

    fn root(&self, place: usize) -> Result<Place> {
        self.at(place).map(Place)
    }

    /// Returns the numbers from this one on.
    fn from(&self, place: usize) -> &[u64] {
        &self.0[place..]
    }

    /// Returns the numbers from this one on as bytes.
    fn bytes(&self, place: usize) -> Vec<u8> {
        self.from(place).iter().map(|byte| u8::try_from(*byte).expect("a byte")).collect()
    }
}

fn slot(number: u64) -> Result<Slot> {
    let number = u8::try_from(number).map_err(|_| Error::OutOfRange)?;
    panic::catch_unwind(|| if number < 16 { Slot::own(number) } else { Slot::shared(number - 16) }).map_err(|_| Error::OutOfRange)
}

fn root(number: u64) -> Result<Place> {
    u32::try_from(number).map(Place).map_err(|_| Error::OutOfRange)
}

/// Returns what two numbers for each field say. What says nothing known becomes a number that is too large.
fn fields<E>(numbers: &[u64], source: impl Fn(u64) -> Result<Field, E>) -> Result<Vec<Field>, E> {
    let field = |two: &[u64]| match two[0] {
        0 => Ok(Field::NIL),
        1 => Ok(Field::number(two[1])),
        2 => source(two[1]),
        _ => Ok(Field::number(u64::MAX)),
    };
    numbers.chunks_exact(2).map(field).collect()
}

// ---- Lines

/// Returns a line of these words, with a blank before each number.
fn listed<N: Display>(name: &str, numbers: impl IntoIterator<Item = N>) -> String {
    numbers.into_iter().fold(name.into(), |line, number| format!("{line} {number}"))
}

fn done(_: ()) -> String {
    "done".into()
}

fn made(_: ()) -> String {
    "made".into()
}

fn yes_or_no(is_same: bool) -> String {
    if is_same { "yes" } else { "no" }.into()
}

fn worked(work: Work) -> String {
    assert!(work.last.is_some() || work.copied == 0 && work.looks > 0);
    assert!(matches!(work.last, Some(Step::Flipped { pairs }) if pairs == work.pairs()) || work.pairs() == 0);
    format!("worked {} {} {} {}", work.steps, work.copied, work.looks, work.last.map_or("done".into(), stepped))
}

/// Returns the line of an address that a call found, or not.
fn at(name: &str, address: Option<u32>) -> Result<String> {
    address.map(|address| format!("{name} {address}")).ok_or(Error::NoObject)
}

/// Reads into this many words, and returns them. Words of a call that failed have to be as they were.
fn read_words(count: usize, read: impl FnOnce(&mut [u64]) -> Result<()>) -> Result<Vec<u64>> {
    let mut words = vec![KEPT; count];
    let result = read(&mut words);
    assert!(result.is_ok() || words.iter().all(|word| *word == KEPT));
    result.map(|()| words)
}

// ---- Calls

/// Makes a call on slots of a mutator.
fn of_mutator(mutator: Mutator, name: &str, n: &Numbers) -> Result<String> {
    match name {
        "new" => mutator.new_object(n.slot(1)?, n.at(2)?, n.at(3)?).map(made),
        "raw" => mutator.new_raw(n.slot(1)?, n.at(2)?, n.at(3)?).map(made),
        "num" => mutator.set_number(n.slot(1)?, n.at(2)?).map(done),
        "nil" => n.slot(1).map(|slot| mutator.set_nil(slot)).map(done),
        "move" => {
            mutator.copy(n.slot(1)?, n.slot(2)?);
            Ok("done".into())
        }
        "get" => mutator.get(n.slot(1)?, n.slot(2)?, n.at(3)?).map(seen),
        "put" => mutator.put(n.slot(1)?, n.at(2)?, n.slot(3)?).map(done),
        "put_number" => mutator.put_number(n.slot(1)?, n.at(2)?, n.slot(3)?, n.at(4)?).map(done),
        "put_nil" => mutator.put_nil(n.slot(1)?, n.at(2)?, n.slot(3)?).map(done),
        "copy_fields" => mutator.copy_fields(n.slot(1)?, n.at(2)?, n.slot(3)?, n.at(4)?, n.slot(5)?, n.at(6)?).map(done),
        "cons" => mutator.new_pair(n.slot(1)?, n.at(2)?, n.slot(3)?, n.slot(4)?).map(made),
        "new_from" => {
            let sources = n.from(4).iter().map(|number| slot(*number)).collect::<Result<Vec<_>>>()?;
            mutator.new_from(n.slot(1)?, n.at(2)?, &sources).map(made)
        }
        "new_with" => {
            let fields = fields(n.from(5), |number| slot(number).map(Field::slot))?;
            mutator.new_with(n.slot(1)?, n.at(2)?, n.slot(3)?, &fields).map(made)
        }
        "same" => Ok(yes_or_no(mutator.is_same(n.slot(1)?, n.slot(2)?))),
        "look" => Ok(seen(mutator.look(n.slot(1)?))),
        "raw_write" => mutator.raw_write(n.slot(1)?, n.at(2)?, n.slot(3)?, n.from(5)).map(done),
        "raw_read" => {
            let (slot, first) = (n.slot(1)?, n.at(2)?);
            read_words(n.at(3)?, |words| mutator.raw_read(slot, first, words)).map(|words| listed("read", words))
        }
        "address" => at("address", mutator.address(n.slot(1)?)),
        "refer" => mutator.refer(n.slot(1)?, n.at(2)?).map(done),
        "root_load" => mutator.load(n.slot(1)?, n.at(2)?).map(done),
        "root_store" => mutator.store(n.at(1)?, n.slot(2)?).map(done),
        _ => unreachable!("there is no call {name}"),
    }
}

/// Makes a command on roots by their places.
fn by_places(heap: &Heap, name: &str, n: &Numbers) -> Result<String> {
    match name {
        "place_new" => heap.new_object(n.root(0)?, n.at(1)?, n.at(2)?).map(made),
        "place_raw" => heap.new_raw(n.root(0)?, n.at(1)?, n.at(2)?).map(made),
        "place_pair" => heap.new_pair(n.at(0)?, n.root(1)?, n.at(2)?, n.root(3)?, n.root(4)?).map(made),
        "place_new_from" => {
            let sources = n.from(3).iter().map(|number| root(*number)).collect::<Result<Vec<_>>>()?;
            heap.new_from(n.at(0)?, n.root(1)?, n.at(2)?, &sources).map(made)
        }
        "place_new_with" => {
            let fields = fields(n.from(3), |number| root(number).map(Field::root))?;
            heap.new_with(n.at(0)?, n.root(1)?, n.at(2)?, &fields).map(made)
        }
        "place_gather" => heap.gather(n.at(0)?, n.root(1)?, n.at(2)?, n.root(3)?, n.at(4)?).map(made),
        "place_spread" => heap.spread(n.root(0)?, n.root(1)?, n.at(2)?).map(done),
        "place_num" => heap.set_number(n.root(0)?, n.at(1)?).map(done),
        "place_nil" => heap.set_nil(n.root(0)?).map(done),
        "place_clear" => heap.clear(n.root(0)?..n.root(1)?).map(done),
        "place_copy" => heap.copy(n.root(0)?, n.root(1)?).map(done),
        "place_get" => heap.get(n.root(0)?, n.root(1)?, n.at(2)?).map(seen),
        "place_peek" => heap.peek(n.root(0)?, n.at(1)?).map(seen),
        "place_put" => heap.put(n.at(0)?, n.root(1)?, n.at(2)?, n.root(3)?).map(done),
        "place_put_sure" => heap.put_sure(n.at(0)?, n.root(1)?, n.at(2)?, n.root(3)?).map(done),
        "place_put_number" => heap.put_number(n.at(0)?, n.root(1)?, n.at(2)?, n.at(3)?).map(done),
        "place_put_nil" => heap.put_nil(n.at(0)?, n.root(1)?, n.at(2)?).map(done),
        "place_fill" => heap.fill(n.at(0)?, n.root(1)?, n.at(2)?..n.at(3)?, n.root(4)?).map(done),
        "place_copy_fields" => heap.copy_fields(n.at(0)?, n.root(1)?, n.at(2)?, n.root(3)?, n.at(4)?, n.at(5)?).map(done),
        "place_same" => heap.is_same(n.root(0)?, n.root(1)?).map(yes_or_no),
        "place_look" => heap.look(n.root(0)?).map(seen),
        "place_address" => at("address", heap.address(n.root(0)?)?),
        "place_refer" => heap.refer(n.root(0)?, n.at(1)?).map(done),
        _ => on_packed(heap, name, n),
    }
}

/// Makes a call on a text or a vector.
fn on_packed(heap: &Heap, name: &str, n: &Numbers) -> Result<String> {
    match name {
        "place_new_bytes" => heap.new_bytes(n.at(0)?, n.root(1)?, n.at(2)?, &n.bytes(3)).map(made),
        "place_join" => heap.bytes_join(n.at(0)?, n.root(1)?, n.at(2)?, n.root(3)?, n.root(4)?).map(made),
        "place_part" => {
            // A range ends before 2^32, which is more than a text has.
            let (from, count) = (n.at::<u32>(4)?, n.at(5)?);
            heap.bytes_part(n.at(0)?, n.root(1)?, n.at(2)?, n.root(3)?, from..from.saturating_add(count)).map(made)
        }
        "place_write" => heap.bytes_write(n.at(0)?, n.root(1)?, n.at(2)?, &n.bytes(3)).map(done),
        "place_text" => text(heap, n.root(0)?),
        "place_order" => {
            let (one, other) = (n.root(0)?, n.root(1)?);
            let order = heap.bytes_compare(one, other);
            assert_eq!(heap.bytes_same(one, other), order.map(|order| order.is_eq()));
            order.map(|order| format!("order {}", order as i8))
        }
        "place_write_words" => heap.words_write(n.at(0)?, n.root(1)?, n.at(2)?, n.from(3)).map(done),
        "place_words" => words(heap, n.root(0)?),
        "place_raw_write" => heap.raw_write(n.at(0)?, n.root(1)?, n.at(2)?, n.from(3)).map(done),
        "place_raw_read" => {
            let (root, first) = (n.root(0)?, n.at(1)?);
            read_words(n.at(2)?, |words| heap.raw_read(root, first, words)).map(|words| listed("read", words))
        }
        _ => unreachable!("there is no call {name}"),
    }
}

/// Reads all bytes of a text, and the second half once more. It has no more.
fn text(heap: &Heap, root: Place) -> Result<String> {
    let length = heap.bytes_length(root);
    let half = length.unwrap_or(0) / 2;
    let mut bytes = vec![0x5a; length.unwrap_or(0) as usize];
    let (mut behind, mut more) = (bytes[half as usize..].to_vec(), vec![0x5a; bytes.len() + 1]);
    assert_eq!(heap.bytes_read(root, 0, &mut bytes), length.map(drop));
    assert_eq!(heap.bytes_read(root, half, &mut behind), length.map(drop));
    assert_eq!(behind, bytes[half as usize..]);
    assert_eq!(heap.bytes_read(root, 0, &mut more), Err(length.err().unwrap_or(Error::NoField)));
    assert!(more.iter().all(|byte| *byte == 0x5a));
    length.map(|_| listed("text", &bytes))
}

/// Reads all words of a vector, and the second half once more. It has no more.
fn words(heap: &Heap, root: Place) -> Result<String> {
    let count = match heap.look(root) {
        Ok(Value::RawObject { fields, .. }) => usize::from(fields - fields.div_ceil(64)),
        _ => 0,
    };
    let found = read_words(count, |words| heap.words_read(root, 0, words));
    let more = read_words(count + 1, |words| heap.words_read(root, 0, words));
    assert_eq!(more.err(), Some(found.as_ref().err().copied().unwrap_or(Error::NoField)));
    let half = count / 2;
    let behind = read_words(count - half, |words| heap.words_read(root, half as u32, words));
    assert_eq!(behind.ok(), found.as_ref().ok().map(|words| words[half..].to_vec()));
    found.map(|words| listed("words", words))
}

/// Returns a frame with these numbers, which are those of C. Methods of the crate give no frame some of them.
fn frame_of(numbers: [u32; 4]) -> Frame {
    // SAFETY: a frame is laid out as in C, so it is four numbers, and any four of them are a frame.
    unsafe { transmute(numbers) }
}

/// Makes a call on a frame, whose numbers come first. Its top and its `high` are printed also if the call is refused.
fn on_frame(heap: &Heap, name: &str, n: &Numbers) -> Result<String> {
    let before = [n.at(0)?, n.at(1)?, n.at(2)?, n.at(3)?];
    let mut frame = frame_of(before);
    let result = match name {
        "frame_trim" => heap.trim_frame(&mut frame, n.at(4)?),
        "frame_push" => heap.mutator(n.at(4)?)?.push(&mut frame, n.slot(5)?),
        _ => heap.mutator(n.at(4)?)?.pop(&mut frame, n.slot(5)?),
    };
    // SAFETY: a frame is laid out as in C, so it is four numbers.
    let [first, end, top, high]: [u32; 4] = unsafe { transmute(frame) };
    assert_eq!([first, end], before[..2]);
    Ok(format!("{} {top} {high}", result.map_or_else(Error::name, |()| "done")))
}

/// Makes a call that reads.
fn reading(heap: &Heap, name: &str, n: &Numbers) -> Result<String> {
    match name {
        "counts" => {
            let c = heap.counts();
            let numbers = [c.size, c.end, c.free, c.mutators.into(), c.extra_roots, c.is_open.into()];
            let others = [c.new_size, c.new_end, c.scan_place, c.scan_field, c.logged, c.roots_left];
            Ok(listed("counts", numbers.into_iter().chain(others)))
        }
        "log" => {
            let (mutator, length) = (n.at(0)?, heap.log_length(n.at(0)?)?);
            assert_eq!(heap.log_entry(mutator, length), Err(Error::OutOfRange));
            let entries = (0..length).map(|k| heap.log_entry(mutator, k)).collect::<Result<Vec<_>>>()?;
            Ok(listed(&format!("log {length}"), entries.iter().map(|entry| format!("{}:{}", entry.object, entry.field))))
        }
        "image" => {
            let image = heap.image()?;
            assert_eq!((image.size, image.words.len(), image.roots.len()), (heap.counts().size, n.at(0)?, n.at(1)?));
            Ok(listed("image", image.words.iter().chain(&image.roots)))
        }
        _ => heap.new_words().map(|words| listed("words", words)),
    }
}

/// Returns what a call at a pace did, if it did something, and what the pace remembers.
fn paced(work: Option<Work>, pace: &Pace) -> String {
    // SAFETY: a pace is laid out as in C, so it is nine numbers.
    let [.., left, end, logged, owed, roots]: [u32; 9] = unsafe { transmute(pace.clone()) };
    assert_eq!(owed, pace.owed());
    format!("{}, {left} {end} {logged} {owed} {roots}", work.map_or("nothing".into(), worked))
}

/// Makes a call at a pace. The report of a `reserve` that fails is lost.
fn at_pace(heap: &Heap, pace: &mut Pace, name: &str, n: &Numbers) -> Result<String> {
    match name {
        "pace" => {
            let old = Pace::default().factor(n.at(0)?).rate(n.at(1)?).least(n.at(2)?).words(n.at(3)?);
            let mut new = old.clone();
            let result = heap.remember(&mut new);
            match result {
                Ok(()) => *pace = new,
                Err(_) => assert_eq!(new, old),
            }
            result.map(done)
        }
        "work_paced" => {
            let due = heap.steps_due(pace, n.at(0)?);
            let work = heap.work_paced(pace, n.at(0)?)?;
            assert_eq!(work.is_none(), due == 0);
            let is_over = |work: Work| matches!(work.last, Some(Step::Flipped { .. } | Step::NoRoom));
            assert!(work.map_or(true, |work| work.steps + work.looks / 32 + pace.owed() >= due || is_over(work)));
            Ok(paced(work, pace))
        }
        _ => {
            let result = heap.reserve(pace, n.at(0)?);
            assert_eq!(result.is_ok(), heap.room() >= n.at(0)?);
            Ok(match result {
                Ok(work) => format!("done, {}", paced(work, pace)),
                Err(error) => format!("{}, {}", Error::name(error), paced(None, pace)),
            })
        }
    }
}

/// Makes a step, or several.
fn step(heap: &Heap, name: &str, n: &Numbers) -> Result<String> {
    match name {
        "begin" => heap.begin().map(|()| "begun".into()),
        "begin_sized" => heap.begin_sized(n.at(0)?).map(|()| "begun".into()),
        "roots" => heap.roots().map(stepped),
        "scan" => heap.scan().map(stepped),
        "apply" => heap.apply(n.at(0)?).map(stepped),
        "flip" => heap.flip().map(|pairs| format!("flipped {pairs}")),
        "drop" => heap.give_up().map(|()| "dropped".into()),
        "work" => heap.work(n.at(0)?).map(worked),
        "work_sized" => heap.work_sized(n.at(0)?, n.at(1)?).map(worked),
        "work_within" => heap.work_within(n.at(0)?, n.at(1)?).map(worked),
        _ => heap.collect().map(|work| format!("done, {}", worked(work))),
    }
}

fn useful(heap: &Heap) -> String {
    match heap.useful() {
        Useful::Begin => "useful begin".into(),
        Useful::Roots => "useful roots".into(),
        Useful::Scan => "useful scan".into(),
        Useful::Apply(mutator) => format!("useful apply {mutator}"),
        Useful::Flip => "useful flip".into(),
    }
}

/// Makes a call on a heap, and returns its line.
fn performed(heap: &Heap, pace: &mut Pace, name: &str, n: &Numbers) -> Result<String> {
    match name {
        "pace" | "work_paced" | "reserve" => at_pace(heap, pace, name, n),
        "counts" | "log" | "image" | "new_words" => reading(heap, name, n),
        "begin" | "begin_sized" | "roots" | "scan" | "apply" | "flip" | "drop" => step(heap, name, n),
        "work" | "work_sized" | "work_within" | "collect" => step(heap, name, n),
        "useful" => Ok(useful(heap)),
        "room" => Ok(format!("room {}", heap.room())),
        "release" => heap.release().map(done),
        "root_clear" => heap.clear_roots(n.at(0)?..n.at(1)?).map(done),
        "moved" => at("moved", heap.moved(n.at(0)?)?),
        "object_at" => Ok(seen(heap.object_at(n.at(0)?))),
        "field_at" => {
            let (value, address) = heap.field_at(n.at(0)?, n.at(1)?)?;
            Ok(address.map_or(String::new(), |address| format!("at {address}, ")) + &seen(value))
        }
        _ if name.starts_with("frame_") => on_frame(heap, name, n),
        _ if name.starts_with("place_") => by_places(heap, name, n),
        _ => of_mutator(heap.mutator(n.at(0)?)?, name, n),
    }
}

fn opened(n: &Numbers) -> Result<Heap> {
    Heap::open_with(Options::new(n.at(0)?, n.at(1)?).extra_roots(n.at(2)?))
}

fn main() -> io::Result<()> {
    // The crate panics if there is no such slot. A trace of each would take longer than all calls.
    panic::set_hook(Box::new(|panic| eprintln!("{panic}")));
    let (mut open, mut pace) = (None, Pace::default());
    let mut lines = BufWriter::new(io::stdout().lock());
    for line in io::stdin().lines() {
        let line = line?;
        let mut words = line.split_whitespace();
        let name = words.next().expect("a call");
        let numbers: Vec<u64> = words.map(|word| word.parse().expect("a number")).collect();
        let n = Numbers(&numbers);
        let result = match (&open, name) {
            (_, "open") => opened(&n).map(|heap| open = Some(heap)).map(done),
            // A heap that is closed is no value.
            (None, _) => Ok("closed".into()),
            (Some(_), "close") => {
                open = None;
                Ok("done".into())
            }
            (Some(heap), _) => performed(heap, &mut pace, name, &n),
        };
        writeln!(lines, "{}", result.unwrap_or_else(|error| Error::name(error).into()))?;
    }
    lines.flush()
}
