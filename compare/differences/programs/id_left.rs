use shrev::{inside, EventChannel};

fn main() {
    let mut c = EventChannel::with_capacity(2);
    std::mem::forget(c.register_reader());
    c.iter_write(vec![1u32, 2, 3]);
    println!("a forgotten id: would_write {}, size after 1 2 3: {}", c.would_write(), inside::size(&c));

    let mut c = EventChannel::<u32>::with_capacity(2);
    let r = c.register_reader();
    drop(c);
    drop(r);
    println!("an id dropped after its channel: returned");
}
