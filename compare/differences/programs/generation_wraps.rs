use shrev::{inside, EventChannel};

fn main() {
    let mut c = EventChannel::with_capacity(2);
    inside::set_generation(&mut c, usize::MAX);
    let mut r = c.register_reader();
    c.iter_write(vec![7u32, 8]);
    println!("generation {}, handed out {:?}", inside::generation(&c), c.read(&mut r).collect::<Vec<_>>());
    println!("then {:?}", c.read(&mut r).collect::<Vec<_>>());
}
