use shrev::{inside, EventChannel};

fn main() {
    let mut c = EventChannel::with_capacity(2);
    let mut r = c.register_reader();
    c.iter_write(vec![7u32, 8]);
    println!("write 7 8: slots {:?}, last place {}, reader at {:?}", inside::slots(&c), inside::last(&c), inside::places(&mut c));
    c.single_write(9);
    println!("write 9: slots {:?}, last place {}, reader at {:?}", inside::slots(&c), inside::last(&c), inside::places(&mut c));
    println!("handed out {:?}", c.read(&mut r).collect::<Vec<_>>());
}
