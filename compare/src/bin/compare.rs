//! `compare COUNT SEED [CALLS]`: every small growth, every row of CALLS calls (5 unless named), and COUNT random
//! scripts of ten kinds. `compare show SCRIPT [OUT_LEN]`: the three answers to one script, which is written as calls
//! ('CH 2; RG; WR 7 8') or as bytes (4348000252475752020000000700000008).

use compare::kinds::{case, every_growth, every_row, Kind};
use compare::random::Random;
use compare::script::{bytes, of_hex, of_text};
use compare::shrink::shrink;
use compare::tally::Tally;
use compare::voices::{ask, Case, Room};
use compare::PORT;
use std::process::ExitCode;

const USAGE: &str = "usage: compare COUNT SEED [CALLS]
       compare show SCRIPT [OUT_LEN]";

fn main() -> ExitCode {
    let words: Vec<String> = std::env::args().skip(1).collect();
    let words: Vec<&str> = words.iter().map(String::as_str).collect();
    let done = match words[..] {
        ["show", script] => script_of(script).map(|script| show(&Case::ample(script))),
        ["show", script, out] => script_of(script)
            .zip(out.parse().ok())
            .map(|(script, out)| show(&Case { script, out: Room::Bytes(out) })),
        [count, seed] => numbers(count, seed, "5").map(run),
        [count, seed, calls] => numbers(count, seed, calls).map(run),
        _ => None,
    };
    done.unwrap_or_else(|| {
        eprintln!("{USAGE}");
        ExitCode::from(2)
    })
}

fn numbers(count: &str, seed: &str, calls: &str) -> Option<(u64, u64, u32)> {
    Some((count.parse().ok()?, seed.parse().ok()?, calls.parse().ok().filter(|c| *c <= 8)?))
}

fn script_of(word: &str) -> Option<Vec<u8>> {
    of_text(word).map(|calls| bytes(&calls)).or_else(|| of_hex(word))
}

fn show(case: &Case) -> ExitCode {
    let answers = ask(case);
    print!("{}", answers.report(case));
    match answers.difference() {
        None => ExitCode::SUCCESS,
        Some(difference) => {
            println!("{difference}");
            ExitCode::FAILURE
        }
    }
}

type Batch = (String, Box<dyn Iterator<Item = Case>>);

fn run((count, seed, calls): (u64, u64, u32)) -> ExitCode {
    print_voices();
    println!("{:<14}{}", "", Tally::HEAD);
    let mut total = Tally::default();
    for (name, scripts) in batches(count, seed, calls) {
        match compare_all(scripts) {
            Ok(tally) => {
                println!("{name:<14}{}", tally.row());
                total.join(&tally);
            }
            Err(case) => {
                print_difference(&name, case);
                return ExitCode::FAILURE;
            }
        }
    }
    println!("{:<14}{}\n\n{total}\n", "all", total.row());
    print_verdict(total.scripts);
    ExitCode::SUCCESS
}

fn batches(count: u64, seed: u64, calls: u32) -> Vec<Batch> {
    let mut batches: Vec<Batch> = vec![
        ("every growth".into(), Box::new(every_growth(8))),
        (format!("every {calls} calls"), Box::new(every_row(calls))),
    ];
    for (n, kind) in Kind::ALL.into_iter().enumerate() {
        // the turns go round the kinds
        let turns = (n as u64..count).step_by(Kind::ALL.len());
        let scripts = turns.map(move |turn| case(kind, &mut Random::new(seed, turn)));
        batches.push((format!("{kind:?}"), Box::new(scripts)));
    }
    batches
}

/// The first case in which the voices differ is the error.
fn compare_all(scripts: impl Iterator<Item = Case>) -> Result<Tally, Case> {
    let mut tally = Tally::default();
    for case in scripts {
        let answers = ask(&case);
        if answers.difference().is_some() {
            return Err(case);
        }
        tally.add(&case.script, &answers);
    }
    Ok(tally)
}

fn print_difference(batch: &str, case: Case) {
    println!("\nA DIFFERENCE, in '{batch}', in a script of {} bytes. Made smaller:", case.script.len());
    let case = shrink(case, |case| ask(case).difference().is_some());
    let answers = ask(&case);
    print!("{}", answers.report(&case));
    // a voice that answers twice in two ways has nothing left to show here
    let difference = answers.difference().map_or("no difference any more".into(), |d| d.to_string());
    println!("{difference}");
}

fn print_voices() {
    match PORT {
        Some(library) => println!("voice 1: the port, {library}"),
        None => {
            println!("voice 1: A STAND-IN. There is no library of the port; nothing here is about the port.")
        }
    }
    let checks = if cfg!(debug_assertions) { "debug" } else { "release" };
    println!("voice 2: shrev, from its own sources, {checks} build");
    println!("voice 3: the ledger\n");
}

fn print_verdict(scripts: u64) {
    match PORT {
        Some(_) => {
            println!("no difference between the port, shrev and the ledger in {scripts} scripts")
        }
        None => {
            println!("no difference between shrev and the ledger in {scripts} scripts");
            println!("THE PORT WAS NOT COMPARED: its library was not there when this was built");
        }
    }
}
