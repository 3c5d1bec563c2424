use shrev::{inside, EventChannel};

fn main() {
    let mut c = EventChannel::with_capacity(2);
    let mut r = c.register_reader();
    let mut v = vec![7u32, 8, 9];
    c.drain_vec_write(&mut v);
    println!("drain_vec_write of 7 8 9: the vector holds {v:?}, size {}, handed out {:?}", inside::size(&c), c.read(&mut r).collect::<Vec<_>>());
}
