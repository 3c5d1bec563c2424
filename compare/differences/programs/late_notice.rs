use shrev::{inside, EventChannel};

fn main() {
    let mut c = EventChannel::<u32>::with_capacity(4);
    let r = c.register_reader();
    drop(r);
    println!("register, drop: the registry holds {:?}", inside::places(&mut c));
    c.single_write(7);
    println!("write 7: the registry holds {:?}", inside::places(&mut c));
    println!("would_write: {}, the registry holds {:?}", c.would_write(), inside::places(&mut c));

    let mut c = EventChannel::<u32>::with_capacity(4);
    let (a, b) = (c.register_reader(), c.register_reader());
    drop(b);
    drop(a);
    let (x, y) = (c.register_reader(), c.register_reader());
    println!("readers 0, 1; drop 1, drop 0; register twice: {}, {}", inside::number(&x), inside::number(&y));
}
