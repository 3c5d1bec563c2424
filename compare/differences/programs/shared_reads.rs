use shrev::EventChannel;

fn both(c: &EventChannel<u32>, a: &mut shrev::ReaderId<u32>, b: &mut shrev::ReaderId<u32>) {
    let (x, y) = (c.read(a), c.read(b));
    println!("two reads side by side through a shared reference: {:?} {:?}", x.collect::<Vec<_>>(), y.collect::<Vec<_>>());
}

fn main() {
    let mut c = EventChannel::with_capacity(4);
    let (mut a, mut b) = (c.register_reader(), c.register_reader());
    c.iter_write(vec![1, 2]);
    both(&c, &mut a, &mut b);
    c.iter_write(vec![3]);
    let _not_iterated = c.read(&mut a);
    println!("a read that nobody iterates, then a read: {:?}", c.read(&mut a).collect::<Vec<_>>());
    let mut d = EventChannel::with_capacity(4);
    let mut r = d.register_reader();
    d.iter_write(c.read(&mut b).copied());
    println!("a read written into another channel: {:?}", d.read(&mut r).collect::<Vec<_>>());
}
