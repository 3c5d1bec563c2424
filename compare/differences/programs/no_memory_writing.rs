use shrev::{inside, EventChannel};

fn main() {
    let mut c = EventChannel::<u32>::with_capacity(2);
    let _r = c.register_reader();
    println!("size 2, a reader, write the range 0..4294967295:");
    c.iter_write(0..u32::MAX);
    println!("size {}", inside::size(&c));
}
