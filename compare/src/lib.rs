//! Runs scripts on three voices and compares their answers line by line: the port through its exported call, shrev
//! itself, and a plain ledger written from the rules.

// built by build.rs, so Cargo.toml doesn't name it
extern crate shrev;

pub mod kinds;
pub mod known;
pub mod ledger;
pub mod random;
pub mod script;
pub mod shrev_voice;
pub mod shrink;
pub mod stand_in;
pub mod tally;
pub mod voices;

use std::fmt;

/// The library of the port that was linked; none when the stand-in answers in its place.
pub const PORT: Option<&str> = option_env!("PORT_LIBRARY");

extern "C" {
    /// Neither pointer may be null, also where the length is 0, and the two ranges must not overlap.
    fn channel_run_script(script: *const u8, script_len: usize, out: *mut u8, out_len: usize) -> i64;
}

/// The exported call's bare answer: how many bytes were written, or minus the number of a fault.
pub fn answer(script: &[u8], out: &mut [u8]) -> i64 {
    // SAFETY: a slice's pointer is never null, and a shared and an exclusive slice don't overlap
    unsafe { channel_run_script(script.as_ptr(), script.len(), out.as_mut_ptr(), out.len()) }
}

/// Runs a script. Its lines are in the output up to the length that is answered, and the rest is as it was. After
/// a fault the output is untouched, except that 16 leaves the lines that fitted. Panics if the library answers
/// something else than the rules allow.
pub fn run(script: &[u8], out: &mut [u8]) -> Result<usize, Fault> {
    let answer = answer(script, out);
    match usize::try_from(answer) {
        Ok(written) if written <= out.len() => Ok(written),
        _ => Err(Fault::of_answer(answer).expect("a length within the output, or a fault")),
    }
}

/// Why a script was not carried out to its end.
#[derive(Clone, Copy, Debug, PartialEq, Eq)]
pub enum Fault {
    /// The first record is no CH, a later one is, or there is no byte at all.
    Opening = 13,
    /// A mark that is none of the six.
    Mark = 14,
    /// The bytes end inside a mark or a body.
    CutShort = 15,
    /// The next line is longer than what is left of the output.
    OutputFull = 16,
}

impl Fault {
    pub fn number(self) -> u8 {
        self as u8
    }

    fn of_answer(answer: i64) -> Option<Fault> {
        let all = [Fault::Opening, Fault::Mark, Fault::CutShort, Fault::OutputFull];
        all.into_iter().find(|f| answer == -i64::from(f.number()))
    }
}

/// A fault and the byte at which its record begins.
#[derive(Clone, Copy, Debug, PartialEq, Eq)]
pub struct FaultAt {
    pub fault: Fault,
    pub at: usize,
}

impl fmt::Display for FaultAt {
    fn fmt(&self, f: &mut fmt::Formatter) -> fmt::Result {
        write!(f, "fault {} at {}", self.fault.number(), self.at)
    }
}
