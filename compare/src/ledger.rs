//! The third voice: the ledger, written from the rules alone. It knows open readers and the events that wait for
//! them, and no places, generations or slots.

use crate::script::{decode, Placed, Record};
use crate::{Fault, FaultAt};

/// How many readers may be open at once.
pub const READERS: usize = 64;
/// How many slots the channel of a script has.
pub const SLOTS: usize = 1024;

/// What one call of a script answers.
#[derive(Clone, Debug, PartialEq, Eq)]
pub enum Answer {
    Opened(usize),
    Registered(usize),
    WouldWrite(bool),
    Wrote { count: usize, size: usize },
    Handed { reader: usize, events: Vec<u32> },
    Closed(usize),
    Refused(u8),
}

impl Answer {
    pub fn refused(&self) -> Option<u8> {
        match self {
            Answer::Refused(number) => Some(*number),
            _ => None,
        }
    }

    /// The line for a record with this mark, line feed included.
    pub fn line(&self, mark: &str) -> String {
        match self {
            Answer::Opened(n) | Answer::Registered(n) | Answer::Closed(n) => {
                format!("{mark} {n}\n")
            }
            Answer::WouldWrite(yes) => format!("{mark} {}\n", u8::from(*yes)),
            Answer::Wrote { count, size } => format!("{mark} {count} {size}\n"),
            Answer::Handed { reader, events } => {
                let events: String = events.iter().map(|e| format!(" {e}")).collect();
                format!("{mark} {reader}:{events}\n")
            }
            Answer::Refused(number) => format!("{mark} no {number}\n"),
        }
    }
}

pub struct Ledger {
    size: usize,
    /// By reader number, for every number ever used; none where the number is closed.
    unread: Vec<Option<Vec<u32>>>,
    /// The latest on top, which is the end.
    freed: Vec<usize>,
}

impl Ledger {
    /// Instance numbers can't run out here, and the slots are fewer than the most.
    pub fn open(size: usize) -> Result<Ledger, u8> {
        match size {
            0 | 1 => Err(1),
            _ if size > SLOTS => Err(3),
            _ => Ok(Ledger { size, unread: Vec::new(), freed: Vec::new() }),
        }
    }

    pub fn register(&mut self) -> Result<usize, u8> {
        if self.unread.iter().flatten().count() == READERS {
            return Err(4);
        }
        let reader = self.freed.pop().unwrap_or(self.unread.len());
        if reader == self.unread.len() {
            self.unread.push(None);
        }
        self.unread[reader] = Some(Vec::new());
        Ok(reader)
    }

    /// Answers the size afterwards.
    pub fn write(&mut self, events: &[u32]) -> Result<usize, u8> {
        match self.unread.iter().flatten().map(Vec::len).max() {
            None if events.len() > self.size => Err(8),
            None => Ok(self.size),
            Some(longest) => {
                let size = doubled(self.size, longest + events.len());
                if size > SLOTS {
                    return Err(9);
                }
                self.size = size;
                self.unread.iter_mut().flatten().for_each(|list| list.extend(events));
                Ok(size)
            }
        }
    }

    pub fn read(&mut self, reader: usize) -> Result<Vec<u32>, u8> {
        let list = self.unread.get_mut(reader).and_then(Option::as_mut).ok_or(7)?;
        Ok(std::mem::take(list))
    }

    pub fn close(&mut self, reader: usize) -> Result<(), u8> {
        self.unread.get_mut(reader).and_then(Option::take).ok_or(7)?;
        self.freed.push(reader);
        Ok(())
    }

    pub fn would_write(&self) -> bool {
        self.unread.iter().any(Option::is_some)
    }

    fn call(&mut self, record: &Record) -> Result<Answer, u8> {
        Ok(match record {
            Record::Open(_) => unreachable!("a script has one CH, at its start"),
            Record::Register => Answer::Registered(self.register()?),
            Record::WouldWrite => Answer::WouldWrite(self.would_write()),
            Record::Write(events) => Answer::Wrote { count: events.len(), size: self.write(events)? },
            Record::Read(n) => {
                let reader = usize::from(*n);
                Answer::Handed { reader, events: self.read(reader)? }
            }
            Record::Close(n) => {
                self.close(usize::from(*n))?;
                Answer::Closed(usize::from(*n))
            }
        })
    }
}

/// The first of size, 2·size, 4·size, … that is at least the need.
pub fn doubled(mut size: usize, need: usize) -> usize {
    while size < need {
        size *= 2;
    }
    size
}

/// A record's line.
#[derive(Clone, Debug, PartialEq, Eq)]
pub struct Line {
    /// Where the record begins.
    pub at: usize,
    pub answer: Answer,
    pub text: String,
}

impl Line {
    pub fn new(placed: &Placed, answer: Answer) -> Line {
        Line { at: placed.at, text: answer.line(placed.record.mark()), answer }
    }
}

/// What a run leaves: the finished lines, and the fault that ended it.
#[derive(Clone, Debug, PartialEq, Eq)]
pub struct Outcome {
    pub lines: Vec<Line>,
    pub fault: Option<FaultAt>,
}

impl Outcome {
    /// The same run with an output of this length: the first line that doesn't fit ends it.
    pub fn cut(mut self, out_len: usize) -> Outcome {
        let mut end = 0;
        let full = self.lines.iter().position(|line| {
            end += line.text.len();
            end > out_len
        });
        if let Some(n) = full {
            self.fault = Some(FaultAt { fault: Fault::OutputFull, at: self.lines[n].at });
            self.lines.truncate(n);
        }
        self
    }

    pub fn text(&self) -> String {
        self.lines.iter().map(|line| line.text.as_str()).collect()
    }

    /// What the exported call answers.
    pub fn answer(&self) -> i64 {
        match self.fault {
            Some(FaultAt { fault, .. }) => -i64::from(fault.number()),
            None => self.lines.iter().map(|line| line.text.len() as i64).sum(),
        }
    }

    /// What `channel-run` prints: the lines, and a line for the fault.
    pub fn printed(&self) -> String {
        self.fault.iter().fold(self.text(), |text, fault| format!("{text}{fault}\n"))
    }
}

/// A run with all the output it needs.
pub fn run(script: &[u8]) -> Outcome {
    match decode(script) {
        Ok(records) => Outcome { lines: run_records(&records), fault: None },
        Err(fault) => Outcome { lines: Vec::new(), fault: Some(fault) },
    }
}

fn run_records(records: &[Placed]) -> Vec<Line> {
    let Some((first @ Placed { record: Record::Open(size), .. }, rest)) = records.split_first() else {
        unreachable!("decoding asks for a CH at the start");
    };
    let size = usize::from(*size);
    let mut ledger = match Ledger::open(size) {
        Ok(ledger) => ledger,
        Err(number) => return vec![Line::new(first, Answer::Refused(number))],
    };
    let mut lines = vec![Line::new(first, Answer::Opened(size))];
    for placed in rest {
        let answer = ledger.call(&placed.record).unwrap_or_else(Answer::Refused);
        lines.push(Line::new(placed, answer));
    }
    lines
}
