//! `sample COUNT SEED`: scripts with shrev's answers to them, as a text for checks that have no Rust at hand.
//!
//! A script is a line of `script` and its bytes; what `channel-run` has to print for it follows. So a program that
//! copies the lines with `#` and `script` and puts its own answers in place of the others has to print the same text.

use compare::kinds::{case, Kind};
use compare::known::{known, OUTPUT};
use compare::random::Random;
use compare::script::{decode, hex};
use compare::{ledger, shrev_voice};
use std::process::ExitCode;

fn main() -> ExitCode {
    let words: Vec<String> = std::env::args().skip(1).collect();
    let numbers: Vec<u64> = words.iter().filter_map(|word| word.parse().ok()).collect();
    let [count, seed] = numbers[..] else {
        eprintln!("usage: sample COUNT SEED");
        return ExitCode::from(2);
    };
    print_head(count, seed);
    for script in by_hand().into_iter().chain((0..count).map(|n| random_script(n, seed))) {
        match recorded(&script) {
            Some(block) => print!("{block}"),
            None => {
                eprintln!("shrev and the ledger differ on {}", hex(&script));
                return ExitCode::FAILURE;
            }
        }
    }
    ExitCode::SUCCESS
}

fn print_head(count: u64, seed: u64) {
    println!("# Recorded from shrev 1.1.1 by: sample {count} {seed}");
    println!("# After 'script' come its bytes, and on the lines below what channel-run prints for it.");
    println!("# By the rules and not from shrev, which has neither: lines with ' no ', lines with 'fault'.");
}

/// Those that `channel-run` can be given.
fn by_hand() -> Vec<Vec<u8>> {
    known().into_iter().filter(|k| k.out_len == OUTPUT).map(|k| k.script).collect()
}

/// Short ones only, to keep the text small.
fn random_script(n: u64, seed: u64) -> Vec<u8> {
    let kind = Kind::ALL[n as usize % Kind::ALL.len()];
    let longest = if kind == Kind::Large { 1_500 } else { 300 };
    let mut random = Random::new(seed, n);
    let mut scripts = std::iter::repeat_with(|| case(kind, &mut random).script);
    scripts.find(|script| script.len() <= longest).unwrap()
}

/// None when shrev and the ledger differ.
fn recorded(script: &[u8]) -> Option<String> {
    let ledger = ledger::run(script);
    if let Ok(records) = decode(script) {
        let shrev = shrev_voice::run(&records, &ledger.lines);
        let same = shrev.iter().map(|l| &l.text).eq(ledger.lines.iter().map(|l| &l.text));
        same.then_some(())?;
    }
    let head = format!("script {}", hex(script));
    Some(format!("{}\n{}", head.trim_end(), ledger.cut(OUTPUT).printed()))
}
