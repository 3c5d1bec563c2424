//! Scripts with answers written down by hand, from the rules and their examples.

use crate::script::{bytes, of_text, Record};

pub struct Known {
    pub script: Vec<u8>,
    pub out_len: usize,
    /// As `channel-run` prints it: the lines, and a line for a fault.
    pub printed: String,
}

/// The output of `channel-run`.
pub const OUTPUT: usize = 65_536;

/// The script that the rules show with its lines.
const EXAMPLE: (&str, &str) = (
    "CH 2; RG; WR 7 8; WR 9; RD 0; RD 0; CL 0; WW; WR 1 2 3 4 5; RG",
    "CH 2\nRG 0\nWR 2 2\nWR 1 4\nRD 0: 7 8 9\nRD 0:\nCL 0\nWW 0\nWR no 8\nRG 0\n",
);

const CALLS: [(&str, &str); 15] = [
    ("CH 0", "CH no 1\n"),
    ("CH 1; RG; RD 0", "CH no 1\n"),
    ("CH 2", "CH 2\n"),
    ("CH 1024", "CH 1024\n"),
    ("CH 1025; WW", "CH no 3\n"),
    // a full lap is not nothing
    ("CH 2; RG; WR 7 8; RD 0", "CH 2\nRG 0\nWR 2 2\nRD 0: 7 8\n"),
    // growth from place 0
    ("CH 2; RG; WR 7 8; WR 9; RD 0", "CH 2\nRG 0\nWR 2 2\nWR 1 4\nRD 0: 7 8 9\n"),
    // growth with the reader above the last place
    ("CH 4; WR 1 2 3; RG; WR 4 5; WR 6 7 8; RD 0", "CH 4\nWR 3 4\nRG 0\nWR 2 4\nWR 3 8\nRD 0: 4 5 6 7 8\n"),
    // an empty write is no news
    ("CH 2; RG; WR 7 8; RD 0; WR; RD 0", "CH 2\nRG 0\nWR 2 2\nRD 0: 7 8\nWR 0 2\nRD 0:\n"),
    // two doublings at once
    ("CH 3; RG; WR 1 2 3 4 5 6 7", "CH 3\nRG 0\nWR 7 12\n"),
    ("CH 2; RD 0", "CH 2\nRD no 7\n"),
    ("CH 2; RG; CL 1; CL 255; CL 0; CL 0; RD 0", "CH 2\nRG 0\nCL no 7\nCL no 7\nCL 0\nCL no 7\nRD no 7\n"),
    // freed numbers are a stack
    ("CH 2; RG; RG; CL 1; CL 0; RG; RG", "CH 2\nRG 0\nRG 1\nCL 1\nCL 0\nRG 0\nRG 1\n"),
    // a number that is taken again is another reader
    ("CH 2; RG; WR 7; CL 0; RG; WR 8; RD 0", "CH 2\nRG 0\nWR 1 2\nCL 0\nRG 0\nWR 1 2\nRD 0: 8\n"),
    ("CH 2; WR 1 2 3; WW; WR 1 2", "CH 2\nWR no 8\nWW 0\nWR 2 2\n"),
];

const FAULTS: [(&[u8], &str); 16] = [
    (b"", "fault 13 at 0\n"),
    (b"Z", "fault 13 at 0\n"),
    (b"C", "fault 13 at 0\n"),
    (b"XX", "fault 13 at 0\n"),
    (b"RG", "fault 13 at 0\n"),
    (b"CH", "fault 15 at 0\n"),
    (b"CH\0", "fault 15 at 0\n"),
    (b"CH\0\x02CH", "fault 13 at 4\n"),
    (b"CH\0\x02XX", "fault 14 at 4\n"),
    (b"CH\0\x02Z", "fault 15 at 4\n"),
    (b"CH\0\x02C", "fault 15 at 4\n"),
    (b"CH\0\x02WR", "fault 15 at 4\n"),
    (b"CH\0\x02WR\x01\0\0\0", "fault 15 at 4\n"),
    (b"CH\0\x02RGRD", "fault 15 at 6\n"),
    (b"CH\0\x02XXCH\0\x02", "fault 14 at 4\n"),
    // behind a refused CH
    (b"CH\0\x01XX", "fault 14 at 4\n"),
];

const SHORT_OUTPUTS: [(&str, usize, &str); 4] = [
    ("CH 2", 5, "CH 2\n"),
    ("CH 2", 4, "fault 16 at 0\n"),
    ("CH 2", 0, "fault 16 at 0\n"),
    // the last line would fit where the one before it didn't
    ("CH 2; RG; WR 7 88888; RD 0; WW", 30, "CH 2\nRG 0\nWR 2 2\nfault 16 at 17\n"),
];

pub fn example() -> Known {
    calls(EXAMPLE)
}

pub fn known() -> Vec<Known> {
    let faults = FAULTS.map(|(script, printed)| whole(script.to_vec(), printed));
    let short = SHORT_OUTPUTS.map(|(text, out_len, printed)| Known { out_len, ..calls((text, printed)) });
    let all = [example(), crowd(), no_doubling(), all_slots()].into_iter();
    all.chain(CALLS.map(calls)).chain(faults).chain(short).collect()
}

fn calls((text, printed): (&str, &str)) -> Known {
    whole(bytes(&of_text(text).expect("calls")), printed)
}

fn whole(script: Vec<u8>, printed: &str) -> Known {
    Known { script, out_len: OUTPUT, printed: printed.into() }
}

/// The sixty-fifth registration, and one more after a close.
fn crowd() -> Known {
    let text = format!("CH 2{}; CL 63; RG", "; RG".repeat(65));
    let numbers: String = (0..64).map(|n| format!("RG {n}\n")).collect();
    calls((&text, &format!("CH 2\n{numbers}RG no 4\nCL 63\nRG 63\n")))
}

/// 600 can't double within 1,024 slots. The refused write leaves all as it was.
fn no_doubling() -> Known {
    let mut records = of_text("CH 600; RG").expect("calls");
    records.extend([255, 255, 91, 90].map(|count| Record::Write(vec![5; count])));
    whole(bytes(&records), "CH 600\nRG 0\nWR 255 600\nWR 255 600\nWR no 9\nWR 90 600\n")
}

/// 512 doubles once, and then a full lap of all slots waits.
fn all_slots() -> Known {
    let mut records = of_text("CH 512; RG").expect("calls");
    records.extend([255, 255, 3, 255, 255, 2, 1].map(|count| Record::Write(vec![5; count])));
    records.push(Record::Read(0));
    let writes = "WR 255 512\nWR 255 512\nWR 3 1024\nWR 255 1024\nWR 255 1024\nWR no 9\nWR 1 1024\n";
    whole(bytes(&records), &format!("CH 512\nRG 0\n{writes}RD 0:{}\n", " 5".repeat(1024)))
}
