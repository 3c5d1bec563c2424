//! Lists of calls on shrev and on a plain ledger, which must give equal answers wherever the ledger accepts.
//! A call that the ledger refuses is not made on shrev.
use shrev::{inside, EventChannel, ReaderId};

#[derive(Clone, Copy, Debug)]
enum Call {
    Register,
    Write(usize),
    Read(usize),
    Close(usize),
    WouldWrite,
}

struct Ledger {
    size: usize,
    slots: usize,
    unread: Vec<Option<Vec<u32>>>,
    freed: Vec<usize>,
}

impl Ledger {
    fn write(&mut self, events: &[u32]) -> bool {
        let Some(longest) = self.unread.iter().flatten().map(Vec::len).max() else {
            return events.len() <= self.size;
        };
        let mut size = self.size;
        while !events.is_empty() && size < longest + events.len() {
            size *= 2;
        }
        if size > self.slots {
            return false;
        }
        self.size = size;
        self.unread.iter_mut().flatten().for_each(|l| l.extend(events));
        true
    }
}

#[derive(Default)]
struct Tally {
    lists: u64,
    calls: u64,
    refused: u64,
    grown: u64,
}

/// `look`: compare the room before the nearest reader too, which makes shrev collect dropped ids early.
fn run(size: usize, slots: usize, calls: &[Call], look: bool, t: &mut Tally) {
    let mut ledger = Ledger { size, slots, unread: vec![], freed: vec![] };
    let mut c = EventChannel::<u32>::with_capacity(size);
    let mut ids: Vec<Option<ReaderId<u32>>> = vec![];
    let mut event = 0;
    for call in calls {
        t.calls += 1;
        match *call {
            Call::Register if ledger.unread.iter().flatten().count() == 64 => t.refused += 1,
            Call::Register => {
                let n = ledger.freed.pop().unwrap_or(ledger.unread.len());
                let id = c.register_reader();
                assert_eq!(inside::number(&id), n, "{calls:?}");
                if n == ids.len() {
                    ids.push(None);
                    ledger.unread.push(None);
                }
                ids[n] = Some(id);
                ledger.unread[n] = Some(vec![]);
            }
            Call::Write(n) => {
                let events: Vec<u32> = (event..event + n as u32).collect();
                if !ledger.write(&events) {
                    t.refused += 1;
                    continue;
                }
                event += n as u32;
                c.iter_write(events);
                assert_eq!(inside::size(&c), ledger.size, "{size} {calls:?}");
            }
            Call::Read(n) => match ids.get_mut(n) {
                Some(Some(id)) => {
                    let list = ledger.unread[n].replace(vec![]).unwrap();
                    let out = c.read(id);
                    assert_eq!(out.len(), list.len(), "{size} {calls:?}");
                    assert!(out.eq(&list), "{size} {calls:?}");
                }
                _ => t.refused += 1,
            },
            Call::Close(n) => match ids.get_mut(n).and_then(Option::take) {
                Some(id) => {
                    drop(id);
                    ledger.unread[n] = None;
                    ledger.freed.push(n);
                }
                None => t.refused += 1,
            },
            Call::WouldWrite => assert_eq!(c.would_write(), ledger.unread.iter().flatten().next().is_some()),
        }
        // room before the nearest reader is what the longest unread list leaves
        if look && matches!(call, Call::Write(_)) {
            let longest = ledger.unread.iter().flatten().map(Vec::len).max();
            assert_eq!(inside::room(&mut c), longest.map(|l| ledger.size - l), "{size} {calls:?}");
        }
    }
    t.lists += 1;
    t.grown += (ledger.size > size) as u64;
}

struct Random(u64);
impl Random {
    fn below(&mut self, n: u64) -> usize {
        self.0 ^= self.0 << 13;
        self.0 ^= self.0 >> 7;
        self.0 ^= self.0 << 17;
        (self.0 % n) as usize
    }
}

fn main() {
    let random_lists: u64 = if cfg!(debug_assertions) { 100_000 } else { 1_000_000 };
    let mut t = Tally::default();
    let mut r = Random(0x9E37_79B9_7F4A_7C15);
    for turn in 0..random_lists {
        let top = if r.below(8) == 0 { 1000 } else { 5 };
        let size = 2 + r.below(top);
        let slots = size << r.below(5);
        let top = if r.below(8) == 0 { 80 } else { 3 };
        let readers = 1 + r.below(top) as u64;
        let top = if r.below(4) == 0 { 300 } else { 6 };
        let most = 1 + r.below(top) as u64;
        let calls: Vec<Call> = (0..r.below(60))
            .map(|_| match r.below(12) {
                0..=1 => Call::Register,
                2 => Call::WouldWrite,
                3..=6 => Call::Write(r.below(most + 1)),
                7..=10 => Call::Read(r.below(readers)),
                _ => Call::Close(r.below(readers)),
            })
            .collect();
        run(size, slots, &calls, turn % 2 == 0, &mut t);
    }
    println!("random: {} lists, {} calls, {} refused, {} lists with growth, no difference", t.lists, t.calls, t.refused, t.grown);

    let every = [
        Call::Register, Call::Write(0), Call::Write(1), Call::Write(2), Call::Write(3),
        Call::Read(0), Call::Read(1), Call::Close(0), Call::Close(1),
    ];
    let depth = if cfg!(debug_assertions) { 5 } else { 6 };
    let mut t = Tally::default();
    for size in 2..=4 {
        for mut n in 0..every.len().pow(depth) {
            let calls: Vec<Call> = (0..depth)
                .map(|_| {
                    let call = every[n % every.len()];
                    n /= every.len();
                    call
                })
                .collect();
            run(size, 64, &calls, false, &mut t);
        }
    }
    println!("all lists of {depth} calls from 9, sizes 2 to 4: {} lists, {} calls, no difference", t.lists, t.calls);
}
