use shrev::EventChannel;

fn main() {
    println!("with_capacity(2^40) of u32:");
    let c = EventChannel::<u32>::with_capacity(1 << 40);
    println!("made");
    std::mem::forget(c);
}
