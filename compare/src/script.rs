//! Scripts: rows of records, as bytes and back.

use crate::{Fault, FaultAt};
use std::fmt;

#[derive(Clone, Debug, PartialEq, Eq)]
pub enum Record {
    Open(u16),
    Register,
    WouldWrite,
    /// At most 255 events, since the count has one byte.
    Write(Vec<u32>),
    Read(u8),
    Close(u8),
}

/// A record and the byte at which it begins.
#[derive(Clone, Debug, PartialEq, Eq)]
pub struct Placed {
    pub at: usize,
    pub record: Record,
}

impl Record {
    pub fn mark(&self) -> &'static str {
        match self {
            Record::Open(_) => "CH",
            Record::Register => "RG",
            Record::WouldWrite => "WW",
            Record::Write(_) => "WR",
            Record::Read(_) => "RD",
            Record::Close(_) => "CL",
        }
    }

    fn put(&self, bytes: &mut Vec<u8>) {
        bytes.extend(self.mark().as_bytes());
        match self {
            Record::Open(size) => bytes.extend(size.to_be_bytes()),
            Record::Register | Record::WouldWrite => {}
            Record::Write(events) => {
                bytes.push(u8::try_from(events.len()).expect("at most 255 events"));
                bytes.extend(events.iter().flat_map(|e| e.to_be_bytes()));
            }
            Record::Read(reader) | Record::Close(reader) => bytes.push(*reader),
        }
    }
}

/// As the rules write calls: `WR 7 8`.
impl fmt::Display for Record {
    fn fmt(&self, f: &mut fmt::Formatter) -> fmt::Result {
        f.write_str(self.mark())?;
        match self {
            Record::Open(size) => write!(f, " {size}"),
            Record::Register | Record::WouldWrite => Ok(()),
            Record::Write(events) => events.iter().try_for_each(|e| write!(f, " {e}")),
            Record::Read(reader) | Record::Close(reader) => write!(f, " {reader}"),
        }
    }
}

pub fn bytes(records: &[Record]) -> Vec<u8> {
    let mut bytes = Vec::new();
    records.iter().for_each(|r| r.put(&mut bytes));
    bytes
}

/// Calls as they are printed, with semicolons between them: `CH 2; RG; WR 7 8`.
pub fn of_text(text: &str) -> Option<Vec<Record>> {
    text.split(';').map(|call| record_of_text(call.trim())).collect()
}

fn record_of_text(call: &str) -> Option<Record> {
    let (mark, numbers) = call.split_at_checked(2)?;
    let numbers: Option<Vec<u32>> = numbers.split_whitespace().map(|n| n.parse().ok()).collect();
    let numbers = numbers?;
    Some(match (mark, &numbers[..]) {
        ("CH", [size]) => Record::Open(u16::try_from(*size).ok()?),
        ("RG", []) => Record::Register,
        ("WW", []) => Record::WouldWrite,
        ("WR", events) if events.len() <= 255 => Record::Write(numbers),
        ("RD", [reader]) => Record::Read(u8::try_from(*reader).ok()?),
        ("CL", [reader]) => Record::Close(u8::try_from(*reader).ok()?),
        _ => return None,
    })
}

/// The calls as text.
pub fn text(records: &[Placed]) -> String {
    let calls: Vec<String> = records.iter().map(|placed| placed.record.to_string()).collect();
    calls.join("; ")
}

/// Every record, or the first one's fault that has one.
pub fn decode(script: &[u8]) -> Result<Vec<Placed>, FaultAt> {
    let mut records = Vec::new();
    let mut at = 0;
    // an empty script goes through once, for the first record that it lacks
    while at < script.len() || records.is_empty() {
        let first = records.is_empty();
        let (record, length) = decode_one(&script[at..], first).map_err(|fault| FaultAt { fault, at })?;
        records.push(Placed { at, record });
        at += length;
    }
    Ok(records)
}

/// The record with which the bytes begin, and its length.
fn decode_one(rest: &[u8], first: bool) -> Result<(Record, usize), Fault> {
    if rest.starts_with(b"CH") != first {
        return Err(Fault::Opening);
    }
    let [a, b, body @ ..] = rest else {
        return Err(Fault::CutShort);
    };
    let record = match &[*a, *b] {
        b"CH" => Record::Open(u16::from_be_bytes([byte(body, 0)?, byte(body, 1)?])),
        b"RG" => Record::Register,
        b"WW" => Record::WouldWrite,
        b"WR" => Record::Write(events(body)?),
        b"RD" => Record::Read(byte(body, 0)?),
        b"CL" => Record::Close(byte(body, 0)?),
        _ => return Err(Fault::Mark),
    };
    let length = match &record {
        Record::Open(_) => 4,
        Record::Register | Record::WouldWrite => 2,
        Record::Write(events) => 3 + 4 * events.len(),
        Record::Read(_) | Record::Close(_) => 3,
    };
    Ok((record, length))
}

fn byte(body: &[u8], at: usize) -> Result<u8, Fault> {
    body.get(at).copied().ok_or(Fault::CutShort)
}

fn events(body: &[u8]) -> Result<Vec<u32>, Fault> {
    let end = 1 + 4 * usize::from(byte(body, 0)?);
    let numbers = body.get(1..end).ok_or(Fault::CutShort)?;
    Ok(numbers.chunks_exact(4).map(|n| u32::from_be_bytes([n[0], n[1], n[2], n[3]])).collect())
}

pub fn hex(bytes: &[u8]) -> String {
    bytes.iter().map(|b| format!("{b:02X}")).collect()
}

pub fn of_hex(text: &str) -> Option<Vec<u8>> {
    let digits: Option<Vec<u8>> = text.chars().map(|c| c.to_digit(16).map(|d| d as u8)).collect();
    let digits = digits.filter(|d| d.len() % 2 == 0)?;
    Some(digits.chunks_exact(2).map(|d| d[0] << 4 | d[1]).collect())
}
