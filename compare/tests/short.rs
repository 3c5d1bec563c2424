//! The three voices on a few thousand scripts, in a debug build.

use compare::kinds::{case, every_growth, every_row, Kind};
use compare::known::{example, known};
use compare::ledger;
use compare::random::Random;
use compare::script::{bytes, decode, hex, of_hex, of_text, text, Record};
use compare::shrink::shrink;
use compare::stand_in::{self, Mistake};
use compare::tally::Tally;
use compare::voices::{ask, ask_with, Answers, Case, Room};
use compare::{run, Fault};

/// All three voices, or two and the stand-in, say the same.
fn agree(case: &Case) -> Answers {
    let answers = ask(case);
    if let Some(difference) = answers.difference() {
        panic!("{difference}\n{}", answers.report(case));
    }
    answers
}

fn script_agrees(script: &[u8]) {
    agree(&Case::ample(script.to_vec()));
}

#[test]
#[cfg_attr(
    not(port),
    ignore = "NO LIBRARY OF THE PORT: a stand-in answered, nothing was compared with the port"
)]
fn the_port_takes_part() {
    let library = compare::PORT.expect("a library was linked");
    println!("{library}");
    assert_eq!(run(&example().script, &mut [0; 65]), Ok(65));
}

#[test]
fn the_example() {
    let example = example();
    let raw = b"CH\0\x02RGWR\x02\0\0\0\x07\0\0\0\x08WR\x01\0\0\0\x09RD\0RD\0CL\0WW\
        WR\x05\0\0\0\x01\0\0\0\x02\0\0\0\x03\0\0\0\x04\0\0\0\x05RG";
    assert_eq!(example.script, raw);
    assert_eq!((example.script.len(), example.printed.len()), (60, 65));
    let mut out = [0; 65];
    assert_eq!(run(raw, &mut out), Ok(65));
    assert_eq!(out, example.printed.as_bytes());
    script_agrees(raw);
}

#[test]
fn answers_written_by_hand() {
    for known in known() {
        let expected = ledger::run(&known.script).cut(known.out_len);
        assert_eq!(expected.printed(), known.printed, "{}", hex(&known.script));
        agree(&Case { script: known.script, out: Room::Bytes(known.out_len) });
    }
}

#[test]
fn faults_by_name() {
    let mut out = [1; 4];
    assert_eq!(run(b"", &mut out), Err(Fault::Opening));
    assert_eq!(run(b"CH\0\x02XX", &mut out), Err(Fault::Mark));
    assert_eq!(run(b"CH\0\x02X", &mut out), Err(Fault::CutShort));
    assert_eq!(run(b"CH\0\x02", &mut out), Err(Fault::OutputFull));
    assert_eq!(run(b"CH\0\x02", &mut []), Err(Fault::OutputFull));
    assert_eq!(out, [1; 4]);
}

#[test]
fn the_longest_line() {
    let mut calls = vec![Record::Open(1024)];
    calls.extend(vec![Record::Register; 64]);
    for count in [255, 255, 255, 255, 4] {
        calls.push(Record::Write(vec![u32::MAX; count]));
    }
    calls.push(Record::Read(63));
    let answers = agree(&Case::ample(bytes(&calls)));
    assert_eq!(answers.ledger.lines.last().unwrap().text.len(), 11_271);
}

#[test]
fn random_scripts_of_every_kind() {
    let mut tally = Tally::default();
    for turn in 0..6_000 {
        let kind = Kind::ALL[turn as usize % Kind::ALL.len()];
        let case = case(kind, &mut Random::new(2, turn));
        tally.add(&case.script, &agree(&case));
    }
    println!("{}\n{}\n{tally}", Tally::HEAD, tally.row());
    // the scripts are worth something only if they get everywhere
    for refusal in ["CH no 1", "CH no 3", "RG no 4", "WR no 8", "WR no 9", "RD no 7", "CL no 7"] {
        assert!(tally.refusals.get(refusal) > Some(&20), "{refusal}");
    }
    for fault in 13..=16 {
        assert!(tally.faults.get(&fault) > Some(&20), "{fault}");
    }
    assert!(tally.growths > 1_000 && tally.laps > 1_000);
}

#[test]
fn every_row_of_three_calls() {
    every_row(3).for_each(|case| drop(agree(&case)));
}

#[test]
fn every_growth_of_a_small_ring() {
    every_growth(4).for_each(|case| drop(agree(&case)));
}

#[test]
fn damage_to_the_example_at_every_byte() {
    let script = example().script;
    for at in 0..=script.len() {
        script_agrees(&script[..at]);
        for byte in 0..=255 {
            script_agrees(&[&script[..at], &[byte], &script[at..]].concat());
            if at < script.len() {
                script_agrees(&[&script[..at], &[byte], &script[at + 1..]].concat());
            }
        }
    }
}

#[test]
fn every_two_records_of_the_example_swapped() {
    let records: Vec<Record> = decode(&example().script).unwrap().into_iter().map(|p| p.record).collect();
    for a in 0..records.len() {
        for b in 0..a {
            let mut swapped = records.clone();
            swapped.swap(a, b);
            script_agrees(&bytes(&swapped));
        }
    }
}

#[test]
fn every_length_of_output() {
    let random = (0..60).map(|turn| {
        let kind = Kind::ALL[turn as usize % Kind::ALL.len()];
        case(kind, &mut Random::new(3, turn)).script
    });
    let scripts = known().into_iter().map(|known| known.script).chain(random);
    for script in scripts {
        let whole = ledger::run(&script).text().len();
        // near its end only, where the output is long
        for length in (0..whole.min(400)).chain(whole.max(800) - 400..=whole + 1) {
            agree(&Case { script: script.clone(), out: Room::Bytes(length) });
        }
    }
}

#[test]
fn bytes_and_text_and_back() {
    for turn in 0..500 {
        let script = case(Kind::Mixed, &mut Random::new(4, turn)).script;
        let text = text(&decode(&script).unwrap());
        assert_eq!(bytes(&of_text(&text).unwrap()), script);
        assert_eq!(of_hex(&hex(&script)), Some(script));
    }
    for wrong in ["", "CH", "CH 65536", "RG 1", "RD", "RD 256", "WR x", "XX"] {
        assert_eq!(of_text(wrong), None);
    }
}

/// The recorded text still is what the voices say.
#[test]
fn the_recorded_sample() {
    let text = include_str!("../sample.txt");
    let blocks: Vec<&str> = text.split("\nscript").skip(1).collect();
    assert!(blocks.len() > 100);
    for block in blocks {
        let (script, printed) = block.split_once('\n').unwrap();
        let script = of_hex(script.trim()).unwrap();
        assert_eq!(ledger::run(&script).printed().trim_end(), printed.trim_end());
        script_agrees(&script);
    }
}

/// The comparison itself: with a mistake in the first voice, some script shows it, and shrinking keeps it.
#[test]
fn every_mistake_is_found() {
    for mistake in Mistake::ALL {
        let voice = |script: &[u8], out: &mut [u8]| stand_in::answer(script, out, mistake);
        let fails = |case: &Case| ask_with(case, voice).difference().is_some();
        let mut cases = (0..5_000)
            .map(|turn| case(Kind::ALL[turn as usize % Kind::ALL.len()], &mut Random::new(5, turn)));
        let found = cases.find(|case| fails(case)).unwrap_or_else(|| panic!("{mistake:?} stays hidden"));
        let small = shrink(found, fails);
        assert!(fails(&small));
        println!("{mistake:?}\n{}", ask_with(&small, voice).report(&small));
    }
}

#[test]
fn shrinking_ends_at_the_smallest() {
    let long = case(Kind::Crowd, &mut Random::new(6, 0));
    let two_registrations = |case: &Case| {
        let registers = |r: &ledger::Line| r.text.starts_with("RG ");
        ledger::run(&case.script).lines.iter().filter(|l| registers(l)).count() >= 2
    };
    let small = shrink(long, two_registrations);
    assert_eq!(small, Case::ample(b"CH\0\x02RGRG".to_vec()));
}
