use shrev::{inside, EventChannel};

fn run(name: &str, size: usize, before: &[u32], writes: &[&[u32]]) {
    let mut c = EventChannel::with_capacity(size);
    c.iter_write(before.to_vec());
    let mut r = c.register_reader();
    for w in writes {
        c.iter_write(w.to_vec());
    }
    println!("{name}: {:?}, size {}", c.read(&mut r).collect::<Vec<_>>(), inside::size(&c));
}

fn main() {
    run("size 2, write 7 8", 2, &[], &[&[7, 8]]);
    run("size 2, write 7 8, write 9", 2, &[], &[&[7, 8], &[9]]);
    run("size 4, write 1 2 3, register, write 4 5, write 6 7 8", 4, &[1, 2, 3], &[&[4, 5], &[6, 7, 8]]);
    let mut c = EventChannel::with_capacity(4);
    let mut r = c.register_reader();
    c.single_write(7u32);
    let a = c.read(&mut r).count();
    c.iter_write(Vec::new());
    println!("empty write after a read: {a}, then {}", c.read(&mut r).count());
    println!("circular places, 3 of 4: plus 2 and minus 2 {:?}", inside::circular(3, 4, 2));
}
