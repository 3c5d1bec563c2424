use shrev::{inside, EventChannel};

fn main() {
    let mut c = EventChannel::with_capacity(2);
    let mut r = c.register_reader();
    c.iter_write(vec![1u32, 2, 3]);
    println!("size 2, a reader, write 1 2 3: size {}, handed out {:?}", inside::size(&c), c.read(&mut r).collect::<Vec<_>>());
    let mut c = EventChannel::with_capacity(1_048_576);
    let mut r = c.register_reader();
    c.iter_write(0..1_048_576u32);
    c.single_write(7);
    println!("size 1048576, a reader, write 1048576 and 1: size {}, handed out {}", inside::size(&c), c.read(&mut r).len());
}
