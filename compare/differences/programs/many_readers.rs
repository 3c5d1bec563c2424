use shrev::{inside, EventChannel};

fn main() {
    let mut c = EventChannel::<u32>::with_capacity(2);
    let ids: Vec<_> = (0..65).map(|_| c.register_reader()).collect();
    println!("the 65th registration takes number {}", inside::number(&ids[64]));
}
