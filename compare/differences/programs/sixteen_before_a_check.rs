use shrev::{inside, EventChannel};

fn main() {
    let mut c = EventChannel::with_capacity(16);
    c.single_write(42i32);
    let mut first = c.register_reader();
    println!("the documentation's example, at its remark: events before a check {}", inside::available(&c));
    c.iter_write(0..4);
    println!("first reads {:?}", c.read(&mut first).collect::<Vec<_>>());
    let mut second = c.register_reader();
    println!("second reads {:?}", c.read(&mut second).collect::<Vec<_>>());
    c.iter_write(4..6);
    println!("first reads {:?}", c.read(&mut first).collect::<Vec<_>>());
    println!("second reads {:?}", c.read(&mut second).collect::<Vec<_>>());
    println!("size {}", inside::size(&c));
}
