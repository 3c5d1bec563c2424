//! Counts of what a run of scripts went through.

use crate::ledger::{Answer, Line};
use crate::voices::Answers;
use std::collections::BTreeMap;
use std::fmt;

#[derive(Default)]
pub struct Tally {
    pub scripts: u64,
    pub lines: u64,
    pub bytes: u64,
    pub events: u64,
    /// Writes after which the size was another.
    pub growths: u64,
    /// Reads that handed out as many events as the size.
    pub laps: u64,
    /// By mark and number, as `WR no 8`.
    pub refusals: BTreeMap<String, u64>,
    /// By number, for the output that the script was run with.
    pub faults: BTreeMap<u8, u64>,
}

impl Tally {
    pub fn add(&mut self, script: &[u8], answers: &Answers) {
        self.scripts += 1;
        self.bytes += script.len() as u64;
        let mut size = 0;
        for line in &answers.ledger.lines {
            self.lines += 1;
            self.add_line(line, &mut size);
        }
        let whole: usize = answers.ledger.lines.iter().map(|l| l.text.len()).sum();
        let full = (whole > answers.out_len).then_some(16);
        if let Some(number) = answers.ledger.fault.map(|f| f.fault.number()).or(full) {
            *self.faults.entry(number).or_default() += 1;
        }
    }

    fn add_line(&mut self, line: &Line, size: &mut usize) {
        match &line.answer {
            Answer::Opened(n) => *size = *n,
            Answer::Wrote { size: after, .. } => {
                self.growths += u64::from(after != size);
                *size = *after;
            }
            Answer::Handed { events, .. } => {
                self.events += events.len() as u64;
                self.laps += u64::from(events.len() == *size);
            }
            Answer::Refused(_) => *self.refusals.entry(line.text.trim().into()).or_default() += 1,
            _ => {}
        }
    }

    pub fn join(&mut self, other: &Tally) {
        self.scripts += other.scripts;
        self.lines += other.lines;
        self.bytes += other.bytes;
        self.events += other.events;
        self.growths += other.growths;
        self.laps += other.laps;
        other.refusals.iter().for_each(|(k, n)| *self.refusals.entry(k.clone()).or_default() += n);
        other.faults.iter().for_each(|(k, n)| *self.faults.entry(*k).or_default() += n);
    }

    pub const HEAD: &'static str = "   scripts       lines  script bytes   events read    growths  full laps";

    pub fn row(&self) -> String {
        let Tally { scripts, lines, bytes, events, growths, laps, .. } = self;
        format!("{scripts:>10} {lines:>11} {bytes:>13} {events:>13} {growths:>10} {laps:>10}")
    }
}

/// Refusals and faults.
impl fmt::Display for Tally {
    fn fmt(&self, f: &mut fmt::Formatter) -> fmt::Result {
        let refusals: Vec<String> = self.refusals.iter().map(|(line, n)| format!("{line}: {n}")).collect();
        let faults: Vec<String> = self.faults.iter().map(|(k, n)| format!("{k}: {n}")).collect();
        writeln!(f, "refusals  {}", refusals.join(", "))?;
        write!(f, "faults    {}", faults.join(", "))
    }
}
