//! Keeps a double, an integer, a long array and a weak handle in a heap. Prints `Double(-0.5) 100001 Int(7)`, and the token 42 once nothing holds the array.

use gcflip::arrays::Arrays;
use gcflip::values::Value;
use gcflip::weak::Table;
use gcflip::{Heap, Place};

const X: Place = Place(0);
const LIST: Place = Place(1);

fn main() -> gcflip::Result<()> {
    let heap = Heap::open(300_000, 1)?;
    heap.set_double(0, X, -0.5)?;
    assert_eq!(heap.value(X)?, Value::Double(-0.5)); // values::Value
    let arrays = Arrays::new(&heap, 0, [Place(29), Place(30), Place(31)]);
    arrays.new_array(LIST, 7, 100_000)?; // 100,000 nils, in parts
    arrays.put(LIST, 99_999, X)?;
    let mut table = Table::new(&heap);
    let handle = table.weak_new(LIST, 42)?; // the table tells 42 once the array is gone
    arrays.push(LIST, X)?;
    heap.set_int(X, 7)?;
    let held = heap.value(X)?;
    arrays.get(X, LIST, 99_999)?;
    println!("{:?} {} {:?}", heap.value(X)?, arrays.length(LIST)?, held);
    heap.set_nil(LIST)?;
    table.collect()?;
    if !table.weak_get(LIST, handle)? {
        println!("{:?}", table.weak_next_dead()?);
    }
    Ok(())
}
