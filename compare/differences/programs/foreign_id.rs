use shrev::EventChannel;
use std::panic::{catch_unwind, AssertUnwindSafe};

fn main() {
    let mut a = EventChannel::<u32>::with_capacity(2);
    let mut b = EventChannel::<u32>::with_capacity(2);
    let _of_a = a.register_reader();
    let mut of_b = b.register_reader();
    let r = catch_unwind(AssertUnwindSafe(|| a.read(&mut of_b).count()));
    println!("a read with another channel's id: {}", if r.is_err() { "panicked" } else { "returned" });
}
