//! A list of ten numbers, held by typed roots: prints their sum, which is 45.

use gcflip::rooted::{FieldOf, Kind, Rooted};

struct Pair;

impl Kind for Pair {
    const KIND: u8 = 1;
    const FIELDS: u16 = 2;
}

const FIRST: FieldOf<Pair, u64> = FieldOf::at(0);
const REST: FieldOf<Pair, Pair> = FieldOf::at(1);

fn main() -> gcflip::Result<()> {
    let heap = Rooted::open(4096, 100)?;
    let mut list = None;
    for number in 0..10 {
        let pair = heap.make::<Pair>()?;
        pair.put_number(FIRST, number)?;
        if let Some(rest) = &list {
            pair.put_root(REST, rest)?;
        }
        list = Some(pair);
    }
    heap.collect()?; // `list` still refers to the last pair
    let mut sum = 0;
    while let Some(pair) = list {
        sum += pair.get_number(FIRST)?.unwrap_or(0);
        list = pair.get_root(REST)?;
    }
    println!("{sum}");
    Ok(())
}
