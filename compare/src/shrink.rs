//! Makes a failing script small: as long as something can be left out or lowered and it still fails, that is done.

use crate::ledger;
use crate::script::{bytes, decode, Record};
use crate::voices::{Case, Room};

/// Each step has fewer bytes, or else lower numbers, or else less output; so there is an end.
pub fn shrink(mut case: Case, fails: impl Fn(&Case) -> bool) -> Case {
    loop {
        let next = smaller(&case).find(|c| fails(c));
        match next {
            Some(smaller) => case = smaller,
            None => return case,
        }
    }
}

/// Large cuts first.
fn smaller(case: &Case) -> impl Iterator<Item = Case> + '_ {
    let scripts = by_record(&case.script).chain(without_some(case.script.clone()));
    other_output(case).chain(scripts.flat_map(|script| with_output(script, case)))
}

fn other_output(case: &Case) -> impl Iterator<Item = Case> + '_ {
    let rooms = match case.out {
        Room::Ample => vec![],
        Room::Bytes(0) => vec![Room::Ample],
        Room::Bytes(n) => vec![Room::Ample, Room::Bytes(n / 2), Room::Bytes(n - 1)],
    };
    rooms.into_iter().map(|out| Case { script: case.script.clone(), out })
}

/// A smaller script with the output of the case, and with one that ends as far from the end of the lines.
fn with_output(script: Vec<u8>, case: &Case) -> Vec<Case> {
    let mut rooms = vec![case.out];
    if let Room::Bytes(n) = case.out {
        let length = |script: &[u8]| ledger::run(script).text().len();
        rooms.extend((n + length(&script)).checked_sub(length(&case.script)).map(Room::Bytes));
    }
    rooms.into_iter().map(|out| Case { script: script.clone(), out }).collect()
}

/// Nothing when the script has no records.
fn by_record(script: &[u8]) -> Box<dyn Iterator<Item = Vec<u8>>> {
    let Ok(records) = decode(script) else {
        return Box::new(std::iter::empty());
    };
    let records: Vec<Record> = records.into_iter().map(|p| p.record).collect();
    let simpler = simpler(records.clone());
    let renumbered = renumbered(&records).into_iter();
    Box::new(without_some(records).chain(renumbered).chain(simpler).map(|r| bytes(&r)))
}

/// Left out: all, halves, quarters, and so on down to single ones.
fn without_some<T: Clone>(all: Vec<T>) -> impl Iterator<Item = Vec<T>> {
    let count = all.len();
    let lengths = (0..usize::BITS).map(move |k| count >> k).take_while(|length| *length > 0);
    let cuts = lengths.flat_map(move |l| (0..count).step_by(l).map(move |at| (at, l)));
    cuts.map(move |(at, length)| {
        let end = (at + length).min(all.len());
        [&all[..at], &all[end..]].concat()
    })
}

/// One record shorter or lower.
fn simpler(records: Vec<Record>) -> impl Iterator<Item = Vec<Record>> {
    (0..records.len()).flat_map(move |n| {
        let records = records.clone();
        simpler_record(&records[n]).into_iter().map(move |record| {
            let mut records = records.clone();
            records[n] = record;
            records
        })
    })
}

fn simpler_record(record: &Record) -> Vec<Record> {
    match record {
        Record::Register | Record::WouldWrite => vec![],
        Record::Open(size) => lower(*size).into_iter().map(Record::Open).collect(),
        Record::Read(n) => lower(u16::from(*n)).iter().map(|n| Record::Read(*n as u8)).collect(),
        Record::Close(n) => lower(u16::from(*n)).iter().map(|n| Record::Close(*n as u8)).collect(),
        Record::Write(events) => lower(events.len() as u16)
            .iter()
            .map(|n| Record::Write(events[..usize::from(*n)].into()))
            .collect(),
    }
}

fn lower(n: u16) -> Vec<u16> {
    let mut all = vec![0, 2, n / 2, n.saturating_sub(1)];
    all.retain(|m| *m < n);
    all.dedup();
    all
}

/// The events counted from 1, if that lowers them.
fn renumbered(records: &[Record]) -> Option<Vec<Record>> {
    let mut next = 0;
    let mut count = || {
        next += 1;
        next
    };
    let lowered: Vec<Record> = records
        .iter()
        .map(|record| match record {
            Record::Write(events) => Record::Write(events.iter().map(|_| count()).collect()),
            other => other.clone(),
        })
        .collect();
    (sum(&lowered) < sum(records)).then_some(lowered)
}

fn sum(records: &[Record]) -> u64 {
    let events = records.iter().flat_map(|record| match record {
        Record::Write(events) => events.as_slice(),
        _ => &[],
    });
    events.map(|e| u64::from(*e)).sum()
}
