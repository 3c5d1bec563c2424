//! A ring in plain Rust, by the rules of circular places. It takes the port's place while there is no library of it,
//! so that everything else can be tried; and with a mistake built in, it shows that the scripts find that mistake.

use crate::ledger::{doubled, Answer, Line, READERS, SLOTS};
use crate::script::{decode, Record};

/// Ways to go wrong that a comparison has to bring out.
#[derive(Clone, Copy, Debug, PartialEq, Eq)]
pub enum Mistake {
    None,
    /// Growth leaves every reader where it was.
    ReadersNotRaised,
    /// Equal places always mean that all was read.
    LapIsNothing,
    /// Growth from place 0 takes the copies for the events that wait.
    CopiesWait,
    EmptyWriteCounts,
    /// The size becomes what is needed, and no doubling.
    GrowsToNeed,
    /// Numbers are taken again in the order in which they were freed.
    FreedInOrder,
    /// A closed reader's events still count as unread.
    ClosedHoldsRoom,
    /// Sixty-four numbers used are taken for sixty-four open.
    UsedForOpen,
    /// The bytes of a line that doesn't fit are written as far as they go.
    PartOfLine,
    /// A shorter line is tried after one that didn't fit.
    LaterLine,
    /// A line that fills the output exactly is taken for too long.
    ExactFit,
}

impl Mistake {
    pub const ALL: [Mistake; 11] = [
        Mistake::ReadersNotRaised,
        Mistake::LapIsNothing,
        Mistake::CopiesWait,
        Mistake::EmptyWriteCounts,
        Mistake::GrowsToNeed,
        Mistake::FreedInOrder,
        Mistake::ClosedHoldsRoom,
        Mistake::UsedForOpen,
        Mistake::PartOfLine,
        Mistake::LaterLine,
        Mistake::ExactFit,
    ];
}

#[derive(Clone, Copy)]
struct Reader {
    open: bool,
    place: usize,
    generation: u64,
}

struct Ring {
    size: usize,
    slots: [u32; SLOTS],
    last: usize,
    generation: u64,
    /// As many as numbers were used.
    readers: Vec<Reader>,
    freed: Vec<usize>,
    mistake: Mistake,
}

impl Ring {
    fn open(size: usize, mistake: Mistake) -> Result<Ring, u8> {
        match size {
            0 | 1 => Err(1),
            _ if size > SLOTS => Err(3),
            _ => Ok(Ring {
                size,
                slots: [0; SLOTS],
                last: size - 1,
                generation: 0,
                readers: Vec::new(),
                freed: Vec::new(),
                mistake,
            }),
        }
    }

    fn distance(&self, reader: &Reader) -> usize {
        let same_lap = reader.generation == self.generation || self.mistake == Mistake::LapIsNothing;
        match (self.size - self.last + reader.place) % self.size {
            0 if same_lap => self.size,
            distance => distance,
        }
    }

    /// The nearest reader's distance.
    fn room(&self) -> Option<usize> {
        let counts = |r: &&Reader| r.open || self.mistake == Mistake::ClosedHoldsRoom;
        self.readers.iter().filter(counts).map(|r| self.distance(r)).min()
    }

    fn register(&mut self) -> Result<usize, u8> {
        let open = self.readers.iter().filter(|r| r.open).count();
        let used_for_open = self.mistake == Mistake::UsedForOpen;
        if (if used_for_open { self.readers.len() } else { open }) == READERS {
            return Err(4);
        }
        let freed = match self.mistake {
            Mistake::FreedInOrder if !self.freed.is_empty() => Some(self.freed.remove(0)),
            _ => self.freed.pop(),
        };
        let reader = Reader { open: true, place: self.last, generation: self.generation };
        let number = freed.unwrap_or(self.readers.len());
        match self.readers.get_mut(number) {
            Some(entry) => *entry = reader,
            None => self.readers.push(reader),
        }
        Ok(number)
    }

    fn write(&mut self, events: &[u32]) -> Result<usize, u8> {
        match self.room() {
            None if events.len() > self.size => return Err(8),
            None => {}
            Some(room) => {
                let need = self.size - room + events.len();
                let size = match self.mistake {
                    Mistake::GrowsToNeed => need.max(self.size),
                    _ => doubled(self.size, need),
                };
                if size > SLOTS {
                    return Err(9);
                }
                if size > self.size {
                    self.grow(size - self.size);
                }
            }
        }
        for event in events {
            self.last = (self.last + 1) % self.size;
            self.slots[self.last] = *event;
        }
        if !events.is_empty() || self.mistake == Mistake::EmptyWriteCounts {
            self.generation = self.generation.wrapping_add(1);
        }
        Ok(self.size)
    }

    fn grow(&mut self, by: usize) {
        let next = (self.last + 1) % self.size;
        self.slots.copy_within(next..self.size, next + by);
        let raises = match self.mistake {
            Mistake::ReadersNotRaised => false,
            Mistake::CopiesWait => next != 0,
            _ => true,
        };
        for reader in self.readers.iter_mut().filter(|_| raises) {
            let lap = reader.place == self.last && reader.generation != self.generation;
            if reader.open && (reader.place > self.last || lap) {
                reader.place += by;
            }
        }
        self.size += by;
    }

    fn reader(&mut self, number: u8) -> Result<&mut Reader, u8> {
        self.readers.get_mut(usize::from(number)).filter(|r| r.open).ok_or(7)
    }

    fn read(&mut self, number: u8) -> Result<Vec<u32>, u8> {
        let old = *self.reader(number)?;
        let unread = self.size - self.distance(&old);
        let (place, generation) = (self.last, self.generation);
        *self.reader(number)? = Reader { open: true, place, generation };
        Ok((1..=unread).map(|k| self.slots[(old.place + k) % self.size]).collect())
    }

    fn close(&mut self, number: u8) -> Result<usize, u8> {
        self.reader(number)?.open = false;
        self.freed.push(usize::from(number));
        Ok(usize::from(number))
    }

    fn call(&mut self, record: &Record) -> Result<Answer, u8> {
        Ok(match record {
            Record::Open(_) => unreachable!("a script has one CH, at its start"),
            Record::Register => Answer::Registered(self.register()?),
            Record::WouldWrite => Answer::WouldWrite(self.readers.iter().any(|r| r.open)),
            Record::Write(events) => Answer::Wrote { count: events.len(), size: self.write(events)? },
            Record::Read(n) => Answer::Handed { reader: usize::from(*n), events: self.read(*n)? },
            Record::Close(n) => Answer::Closed(self.close(*n)?),
        })
    }
}

/// The exported call's answer, with a mistake.
pub fn answer(script: &[u8], out: &mut [u8], mistake: Mistake) -> i64 {
    let records = match decode(script) {
        Ok(records) => records,
        Err(fault) => return -i64::from(fault.fault.number()),
    };
    let mut ring: Result<Ring, u8> = Err(0);
    let (mut written, mut full) = (0, false);
    for placed in &records {
        let answer = match (&placed.record, &mut ring) {
            (Record::Open(size), _) => {
                ring = Ring::open(usize::from(*size), mistake);
                ring.as_ref().map(|ring| Answer::Opened(ring.size)).map_err(|number| *number)
            }
            (record, Ok(ring)) => ring.call(record),
            (_, Err(_)) => break,
        };
        let line = Line::new(placed, answer.unwrap_or_else(Answer::Refused));
        if !put(line.text.as_bytes(), out, &mut written, mistake) {
            full = true;
            if mistake != Mistake::LaterLine {
                break;
            }
        }
    }
    if full {
        -16
    } else {
        written as i64
    }
}

/// Says whether the line fitted.
fn put(line: &[u8], out: &mut [u8], written: &mut usize, mistake: Mistake) -> bool {
    let room = out.len() - *written;
    let fits = line.len() < room || line.len() == room && mistake != Mistake::ExactFit;
    let part = match (fits, mistake) {
        (true, _) => line.len(),
        (false, Mistake::PartOfLine) => line.len().min(room),
        (false, _) => 0,
    };
    out[*written..][..part].copy_from_slice(&line[..part]);
    *written += part;
    fits
}

/// The name that the port's library would have defined.
#[cfg(not(port))]
#[no_mangle]
unsafe extern "C" fn channel_run_script(
    script: *const u8,
    script_len: usize,
    out: *mut u8,
    out_len: usize,
) -> i64 {
    use std::slice::{from_raw_parts, from_raw_parts_mut};
    // SAFETY: the caller hands in two slices
    let (script, out) = unsafe { (from_raw_parts(script, script_len), from_raw_parts_mut(out, out_len)) };
    answer(script, out, Mistake::None)
}
