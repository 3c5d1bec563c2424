//! Kinds of scripts: random ones, each after one thing that can go wrong, and rows that leave nothing out.

use crate::ledger;
use crate::random::Random;
use crate::script::{bytes, decode, Record};
use crate::voices::{Case, Room};

#[derive(Clone, Copy, Debug, PartialEq, Eq)]
pub enum Kind {
    /// Any calls in any order.
    Mixed,
    /// Readers that read at very different rates.
    Lagging,
    /// Growth with the ring's end anywhere and readers at several distances.
    Growth,
    /// Writes that fill the ring exactly, or by one more or less.
    Laps,
    /// More registrations than readers there may be.
    Crowd,
    /// Closes and registrations in any order.
    Closes,
    /// Sizes near the slot count, which growth soon passes.
    Large,
    /// Long batches while nobody reads.
    Nobody,
    /// Sizes that are refused.
    BadOpening,
    /// A good script with a few bytes or records gone wrong.
    Damaged,
}

impl Kind {
    pub const ALL: [Kind; 10] = [
        Kind::Mixed,
        Kind::Lagging,
        Kind::Growth,
        Kind::Laps,
        Kind::Crowd,
        Kind::Closes,
        Kind::Large,
        Kind::Nobody,
        Kind::BadOpening,
        Kind::Damaged,
    ];
}

/// A random script of this kind, and an output that is now and then too short for it.
pub fn case(kind: Kind, random: &mut Random) -> Case {
    let records = records(kind, random);
    let script = match kind {
        Kind::Damaged => damaged(records, random),
        _ => bytes(&records),
    };
    let out = room(&script, random);
    Case { script, out }
}

fn room(script: &[u8], random: &mut Random) -> Room {
    if !random.one_in(4) {
        return Room::Ample;
    }
    let whole = ledger::run(script).text().len();
    Room::Bytes(match random.below(4) {
        0 => whole,
        1 => whole.saturating_sub(1),
        2 => random.between(0, whole.min(40)),
        _ => random.between(0, whole),
    })
}

fn records(kind: Kind, random: &mut Random) -> Vec<Record> {
    match kind {
        Kind::Mixed => mixed(random),
        Kind::Lagging => lagging(random),
        Kind::Growth => growth(random),
        Kind::Laps => laps(random),
        Kind::Crowd => crowd(random),
        Kind::Closes => closes(random),
        Kind::Large => large(random),
        Kind::Nobody => nobody(random),
        Kind::BadOpening => bad_opening(random),
        Kind::Damaged => {
            let sound = random.below(Kind::ALL.len() - 1);
            let mut records = records(Kind::ALL[sound], random);
            // short, so that damage falls on every sort of byte
            records.truncate(random.between(1, 12));
            records
        }
    }
}

/// A script while it is put together.
struct Draft<'a> {
    random: &'a mut Random,
    records: Vec<Record>,
    /// Events are numbered, so that a lost or doubled one shows.
    next: u32,
    /// Or else they are of every width.
    wide: bool,
}

impl Draft<'_> {
    fn new(random: &mut Random, size: usize) -> Draft<'_> {
        let (next, wide) = (random.pick(&[1, 5, 95, 999_999_990]), random.one_in(4));
        Draft { random, records: vec![Record::Open(size as u16)], next, wide }
    }

    fn event(&mut self) -> u32 {
        self.next += 1;
        match self.wide {
            true if self.random.one_in(8) => self.random.pick(&[0, 9, 10, u32::MAX]),
            true => self.random.any_u32() >> self.random.below(32),
            false => self.next,
        }
    }

    /// In as many records as it takes.
    fn write(&mut self, mut count: usize) {
        loop {
            let part = count.min(255);
            let events = (0..part).map(|_| self.event()).collect();
            self.records.push(Record::Write(events));
            count -= part;
            if count == 0 {
                return;
            }
        }
    }

    fn register(&mut self, times: usize) {
        self.records.extend(vec![Record::Register; times]);
    }

    fn read(&mut self, reader: usize) {
        self.records.push(Record::Read(reader as u8));
    }

    fn read_all(&mut self, readers: usize) {
        (0..readers).for_each(|reader| self.read(reader));
    }

    fn close(&mut self, reader: usize) {
        self.records.push(Record::Close(reader as u8));
    }

    fn calls(&mut self, count: usize, mix: &Mix) {
        for _ in 0..count {
            match self.random.pick(mix.calls) {
                'g' => self.register(1),
                'w' => {
                    let count = self.random.between(0, mix.most);
                    self.write(count);
                }
                'r' => {
                    let reader = self.random.below(mix.readers);
                    self.read(reader);
                }
                'c' => {
                    let reader = self.random.below(mix.readers);
                    self.close(reader);
                }
                _ => self.records.push(Record::WouldWrite),
            }
        }
    }
}

/// How often each call comes, by one letter to a chance; how many reader numbers there are; the longest write.
struct Mix {
    calls: &'static [char],
    readers: usize,
    most: usize,
}

const EVEN: &[char] = &['g', 'g', '?', 'w', 'w', 'w', 'w', 'r', 'r', 'r', 'r', 'c'];
const MANY_CLOSES: &[char] = &['g', 'g', 'g', '?', 'w', 'w', 'r', 'r', 'c', 'c', 'c'];
const FEW_READS: &[char] = &['w', 'w', 'w', 'w', 'w', 'w', 'g', 'r', 'r', 'c', '?'];

fn any_size(random: &mut Random) -> usize {
    match random.below(20) {
        0..=11 => random.between(2, 6),
        12..=16 => random.between(7, 64),
        17..=18 => random.between(65, 1024),
        _ => random.pick(&[255, 256, 511, 512, 513, 1000, 1023, 1024]),
    }
}

fn mixed(random: &mut Random) -> Vec<Record> {
    let size = any_size(random);
    let readers = if random.one_in(8) { random.between(1, 80) } else { random.between(1, 4) };
    let most = if random.one_in(4) { random.between(1, 255) } else { random.between(1, 6) };
    let count = random.below(60);
    let mut draft = Draft::new(random, size);
    draft.calls(count, &Mix { calls: EVEN, readers, most });
    draft.records
}

fn lagging(random: &mut Random) -> Vec<Record> {
    let size = any_size(random);
    let readers = random.between(2, 6);
    let most = random.between(1, 9);
    // a reader reads once in so many rounds
    let rates: Vec<usize> = (0..readers).map(|_| random.pick(&[1, 2, 3, 10, 30, 100])).collect();
    let rounds = if random.one_in(20) { random.between(200, 1000) } else { random.between(5, 60) };
    let mut draft = Draft::new(random, size);
    for round in 0..rounds {
        if round < readers {
            draft.register(1);
        }
        let count = draft.random.between(0, most);
        draft.write(count);
        for (reader, rate) in rates.iter().enumerate() {
            if draft.random.one_in(*rate) {
                draft.read(reader);
            }
        }
    }
    draft.read_all(readers);
    draft.records
}

fn growth(random: &mut Random) -> Vec<Record> {
    let size = if random.one_in(4) { random.between(2, 200) } else { random.between(2, 9) };
    let readers = random.between(1, 4);
    let mut draft = Draft::new(random, size);
    let before = draft.random.below(size);
    draft.write(before);
    let mut unread = 0;
    for _ in 0..readers {
        draft.register(1);
        let part = draft.random.between(0, size - unread);
        draft.write(part);
        unread += part;
    }
    for _ in 0..draft.random.between(1, 3) {
        let more = draft.random.between(0, 2 * size + 1);
        draft.write(more);
        let reader = draft.random.below(readers);
        draft.read(reader);
    }
    draft.read_all(readers);
    draft.write(1);
    draft.read_all(readers);
    draft.records
}

fn laps(random: &mut Random) -> Vec<Record> {
    let largest = if random.one_in(5) { 300 } else { 12 };
    let size = random.between(2, largest);
    let readers = random.between(1, 3);
    let rounds = random.between(1, 12);
    let mut draft = Draft::new(random, size);
    let before = draft.random.below(size);
    draft.write(before);
    draft.register(readers);
    for _ in 0..rounds {
        let first = draft.random.between(0, size);
        let count = draft.random.pick(&[size, size, size, size - 1, size + 1, 0]);
        if draft.random.one_in(2) {
            draft.write(count);
        } else {
            draft.write(first.min(count));
            draft.write(count - first.min(count));
        }
        let skipped = if draft.random.one_in(4) { draft.random.below(readers) } else { readers };
        (0..readers).filter(|r| *r != skipped).for_each(|r| draft.read(r));
    }
    draft.read_all(readers);
    draft.records
}

fn crowd(random: &mut Random) -> Vec<Record> {
    let size = random.between(2, 20);
    let first = random.between(55, 70);
    let readers = random.pick(&[64, 66, 80, 256]);
    let count = random.between(10, 120);
    let mut draft = Draft::new(random, size);
    draft.register(first);
    draft.calls(count, &Mix { calls: MANY_CLOSES, readers, most: 3 });
    let again = draft.random.between(0, 70);
    draft.register(again);
    draft.write(2);
    let reader = draft.random.below(readers);
    draft.read(reader);
    draft.records
}

fn closes(random: &mut Random) -> Vec<Record> {
    let size = random.between(2, 8);
    let readers = random.between(2, 10);
    let count = random.between(10, 80);
    let mut draft = Draft::new(random, size);
    draft.register(readers);
    draft.calls(count, &Mix { calls: MANY_CLOSES, readers: readers + 1, most: 5 });
    draft.read_all(readers + 1);
    draft.records
}

fn large(random: &mut Random) -> Vec<Record> {
    let size = if random.one_in(3) {
        random.pick(&[256, 257, 511, 512, 513, 1022, 1023, 1024])
    } else {
        random.between(129, 1024)
    };
    let readers = random.between(1, 3);
    let count = random.between(4, 24);
    let mut draft = Draft::new(random, size);
    let before = draft.random.below(255);
    draft.write(before);
    draft.register(readers);
    draft.calls(count, &Mix { calls: FEW_READS, readers, most: 255 });
    draft.read_all(readers);
    draft.records
}

fn nobody(random: &mut Random) -> Vec<Record> {
    let size = if random.one_in(4) { random.between(100, 255) } else { random.between(2, 9) };
    let mut draft = Draft::new(random, size);
    for _ in 0..draft.random.between(1, 8) {
        let near = draft.random.between(size - 2, size + 2).min(255);
        let count = draft.random.pick(&[near, near, 255, 1]);
        draft.records.push(Record::Write((0..count as u32).collect()));
        if draft.random.one_in(3) {
            draft.register(1);
            draft.write(near);
            if draft.random.one_in(2) {
                draft.read(0);
            }
            draft.close(0);
        }
        draft.records.push(Record::WouldWrite);
    }
    draft.records
}

fn bad_opening(random: &mut Random) -> Vec<Record> {
    let size = match random.below(3) {
        0 => random.pick(&[0, 1]),
        1 => random.pick(&[1025, 1026, 2048, 32_768, 65_535]),
        _ => random.between(1025, 65_535),
    };
    let count = random.below(6);
    let mut draft = Draft::new(random, size);
    draft.calls(count, &Mix { calls: EVEN, readers: 2, most: 3 });
    draft.records
}

fn damaged(records: Vec<Record>, random: &mut Random) -> Vec<u8> {
    let mut script = bytes(&records);
    for _ in 0..random.pick(&[1, 1, 1, 2, 3]) {
        damage(&mut script, random);
    }
    script
}

fn damage(script: &mut Vec<u8>, random: &mut Random) {
    let at = random.between(0, script.len());
    match random.below(9) {
        0 => script.truncate(at),
        1 => script.insert(at, random.below(256) as u8),
        2 => script.splice(at..at, *b"CH").for_each(drop),
        3 | 4 => *script = swapped(script, random),
        5 => change_mark(script, random),
        _ if at == script.len() => script.push(random.pick(b"CHRGWLD\0")),
        6 => drop(script.remove(at)),
        _ => script[at] ^= 1 << random.below(8),
    }
}

/// Two records change places, if the script has records.
fn swapped(script: &[u8], random: &mut Random) -> Vec<u8> {
    let Ok(records) = decode(script) else {
        return script.to_vec();
    };
    let mut records: Vec<Record> = records.into_iter().map(|p| p.record).collect();
    let (a, b) = (random.below(records.len()), random.below(records.len()));
    records.swap(a, b);
    bytes(&records)
}

/// One record's mark becomes another mark, or none.
fn change_mark(script: &mut [u8], random: &mut Random) {
    if let Ok(records) = decode(script) {
        let at = records[random.below(records.len())].at;
        let mark = random.pick(&[b"CH", b"RG", b"WW", b"WR", b"RD", b"CL", b"XX", b"wr", b"HC"]);
        script[at..at + 2].copy_from_slice(mark);
    }
}

/// Makes writes of so many events, which are numbered on from one write to the next.
fn counted_writes() -> impl FnMut(usize) -> Record {
    let mut next = 0;
    move |count| {
        let first = next;
        next += count as u32;
        Record::Write((first..next).collect())
    }
}

/// Every row of so many calls over nine, at sizes 2 to 4, with the ring's end at every place before.
pub fn every_row(calls: u32) -> impl Iterator<Item = Case> {
    let starts = (2..=4usize).flat_map(|size| (0..size).map(move |before| (size, before)));
    starts.flat_map(move |(size, before)| {
        (0..9usize.pow(calls)).map(move |row| row_of_calls(size, before, row, calls))
    })
}

fn row_of_calls(size: usize, before: usize, mut row: usize, calls: u32) -> Case {
    let mut write = counted_writes();
    let mut records = vec![Record::Open(size as u16), write(before)];
    for _ in 0..calls {
        records.push(match row % 9 {
            0 => Record::Register,
            n @ 1..=4 => write(n - 1),
            5 => Record::Read(0),
            6 => Record::Read(1),
            7 => Record::Close(0),
            _ => Record::Close(1),
        });
        row /= 9;
    }
    // what waits shows only in a read
    records.extend([Record::Read(0), Record::Read(1)]);
    Case::ample(bytes(&records))
}

/// Two readers at every distance from every end of a small ring, and a write of every length up to two doublings.
pub fn every_growth(largest: usize) -> impl Iterator<Item = Case> {
    let ends = (2..=largest).flat_map(|size| (0..size).map(move |before| (size, before)));
    let lags = ends.flat_map(|(size, before)| {
        (0..=size).flat_map(move |far| (0..=far).map(move |near| (size, before, far, near)))
    });
    lags.flat_map(|(size, before, far, near)| {
        (0..=3 * size + 1).map(move |more| growth_case(size, before, far, near, more))
    })
}

fn growth_case(size: usize, before: usize, far: usize, near: usize, more: usize) -> Case {
    let mut write = counted_writes();
    let records = [
        Record::Open(size as u16),
        write(before),
        Record::Register,
        write(far - near),
        Record::Register,
        write(near),
        write(more),
        Record::Read(0),
        write(1),
        Record::Read(1),
        write(size),
        Record::Read(0),
        Record::Read(1),
    ];
    Case::ample(bytes(&records))
}
