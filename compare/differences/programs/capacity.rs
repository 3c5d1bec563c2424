use shrev::{inside, EventChannel};
use std::panic::catch_unwind;

fn main() {
    for size in [0, 1, 2, 3, 1_048_577] {
        match catch_unwind(|| EventChannel::<u32>::with_capacity(size)) {
            Ok(c) => println!("with_capacity({size}): size {}, last place {}", inside::size(&c), inside::last(&c)),
            Err(_) => println!("with_capacity({size}): panicked"),
        }
    }
    println!("new(): size {}", inside::size(&EventChannel::<u32>::new()));
    let r = catch_unwind(|| EventChannel::<u32>::with_capacity(usize::MAX));
    println!("with_capacity(2^64 - 1): {}", if r.is_err() { "panicked" } else { "made" });
}
