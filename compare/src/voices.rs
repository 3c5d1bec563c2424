//! Asks all three voices and compares what they say.

use crate::ledger::{self, Line, Outcome};
use crate::script::{self, decode, hex};
use crate::{shrev_voice, PORT};
use std::fmt::{self, Write};

/// What the output holds before a run, so that bytes which have to stay can be told.
const FILL: u8 = 0xA5;
/// Bytes behind the output, which nobody may write.
const BEHIND: usize = 64;

/// A script and the length of the output that it is run with.
#[derive(Clone, Debug, PartialEq, Eq)]
pub struct Case {
    pub script: Vec<u8>,
    pub out: Room,
}

#[derive(Clone, Copy, Debug, PartialEq, Eq)]
pub enum Room {
    /// More than the lines take.
    Ample,
    Bytes(usize),
}

impl Case {
    pub fn ample(script: Vec<u8>) -> Case {
        Case { script, out: Room::Ample }
    }
}

pub struct Answers {
    /// The first voice's bare answer, its output, and what lies behind.
    pub port: i64,
    pub out: Vec<u8>,
    pub out_len: usize,
    /// None when the script is faulty: shrev knows no scripts.
    pub shrev: Option<Vec<Line>>,
    /// With all the output it needs.
    pub ledger: Outcome,
}

/// Asks the port, shrev and the ledger.
pub fn ask(case: &Case) -> Answers {
    ask_with(case, crate::answer)
}

/// The same with another first voice.
pub fn ask_with(case: &Case, first_voice: impl Fn(&[u8], &mut [u8]) -> i64) -> Answers {
    let ledger = ledger::run(&case.script);
    let shrev = decode(&case.script).ok().map(|records| shrev_voice::run(&records, &ledger.lines));
    let out_len = match case.out {
        Room::Ample => ledger.lines.iter().map(|l| l.text.len()).sum::<usize>() + BEHIND,
        Room::Bytes(n) => n,
    };
    let mut out = vec![FILL; out_len + BEHIND];
    let port = first_voice(&case.script, &mut out[..out_len]);
    Answers { port, out, out_len, shrev, ledger }
}

impl Answers {
    /// Where the voices differ first.
    pub fn difference(&self) -> Option<Difference> {
        self.shrev_differs().or_else(|| self.port_differs())
    }

    fn shrev_differs(&self) -> Option<Difference> {
        let shrev = self.shrev.as_ref()?;
        let mut pairs = self.ledger.lines.iter().zip(shrev);
        let differing = pairs.position(|(ledger, shrev)| ledger.text != shrev.text);
        let missing = (shrev.len() != self.ledger.lines.len()).then_some(shrev.len());
        differing.or(missing).map(Difference::LineOfShrev)
    }

    fn port_differs(&self) -> Option<Difference> {
        let expected = self.ledger.clone().cut(self.out_len);
        let mut start = 0;
        for (n, line) in expected.lines.iter().enumerate() {
            let end = start + line.text.len();
            if self.out[start..end] != *line.text.as_bytes() {
                return Some(Difference::LineOfPort(n));
            }
            start = end;
        }
        if self.port != expected.answer() {
            return Some(Difference::AnswerOfPort);
        }
        let written = self.out[start..].iter().position(|b| *b != FILL)?;
        Some(Difference::ByteOfPort(start + written))
    }

    /// The output's bytes up to the last one that was written.
    fn written(&self) -> &[u8] {
        let end = self.out.iter().rposition(|b| *b != FILL).map_or(0, |last| last + 1);
        &self.out[..end]
    }

    /// All three answers, for somebody who looks into a difference.
    pub fn report(&self, case: &Case) -> String {
        let mut text = format!("bytes: {}\n", hex(&case.script));
        match decode(&case.script) {
            Ok(records) => writeln!(text, "records: {}", script::text(&records)).unwrap(),
            Err(fault) => writeln!(text, "records: {fault}").unwrap(),
        }
        writeln!(text, "output: {} bytes", self.out_len).unwrap();
        let first = if PORT.is_some() { "the port" } else { "THE STAND-IN, NOT THE PORT" };
        write!(text, "voice 1, {first}, answers {}:\n{}", self.port, shown(self.written())).unwrap();
        match &self.shrev {
            Some(lines) => {
                let lines: String = lines.iter().map(|l| l.text.as_str()).collect();
                write!(text, "voice 2, shrev:\n{}", shown(lines.as_bytes())).unwrap();
            }
            None => text.push_str("voice 2, shrev: knows no scripts, so nothing about a faulty one\n"),
        }
        let expected = self.ledger.clone().cut(self.out_len);
        let (answer, printed) = (expected.answer(), expected.printed());
        write!(text, "voice 3, the ledger, answers {answer}:\n{}", shown(printed.as_bytes())).unwrap();
        text
    }
}

/// Indented, with anything but plain characters escaped.
fn shown(lines: &[u8]) -> String {
    let line = |l: &[u8]| format!("    {}\n", l.escape_ascii());
    lines.split_inclusive(|b| *b == b'\n').map(|l| line(l.strip_suffix(b"\n").unwrap_or(l))).collect()
}

/// Lines and bytes are counted from 0.
#[derive(Clone, Copy, Debug, PartialEq, Eq)]
pub enum Difference {
    LineOfShrev(usize),
    LineOfPort(usize),
    AnswerOfPort,
    /// Behind the finished lines.
    ByteOfPort(usize),
}

impl fmt::Display for Difference {
    fn fmt(&self, f: &mut fmt::Formatter) -> fmt::Result {
        match self {
            Difference::LineOfShrev(n) => {
                write!(f, "shrev and the ledger differ in line {}", n + 1)
            }
            Difference::LineOfPort(n) => {
                write!(f, "voice 1 and the ledger differ in line {}", n + 1)
            }
            Difference::AnswerOfPort => write!(f, "voice 1 and the ledger differ in the answer"),
            Difference::ByteOfPort(n) => write!(f, "voice 1 wrote byte {n}, which had to stay"),
        }
    }
}
