use shrev::EventChannel;

fn main() {
    let mut c = EventChannel::<u32>::with_capacity(2);
    let mut r = c.register_reader();
    drop(r);
    c.read(&mut r);
}
