//! Differential tests: random and damaged inputs to `drive`, `rehearse` and `flowmods`, compared with the Rust side call
//! by call, random runs checked against the ideal controller, and answers of `isolated` compared with trying
//! everything. Every script comes again from its seed and number.

#![forbid(unsafe_code)]

mod aim;
mod alter;
mod body;
mod books;
mod calls;
mod domain;
mod edit;
mod flowmods;
mod isolation;
mod networks;
mod program;
mod random;
mod rehearsals;
mod runs;
mod script;
mod tally;

use std::panic::{catch_unwind, AssertUnwindSafe};
use std::process::ExitCode;
use std::sync::atomic::{AtomicBool, AtomicU64, Ordering};
use std::sync::Mutex;
use tally::Tally;

const HELP: &str = "\
differences calls       random scripts of drive, compared line by line
differences rehearsals  random inputs of rehearse, compared line by line
differences flowmods    random inputs of flowmods, compared byte by byte
differences isolation   random networks and evenings of isolated, its answers compared with trying everything
differences runs        random runs, checked against the ideal controller; their calls are compared too
differences edit FILE FOLDER
                        makes the edits of FILE in FOLDER; each old text must stand there exactly once

  --drive PATH, --rehearse PATH, --flowmods PATH, --isolated PATH
                  the program to compare with; without it only the Rust side's own checks are made
  --seed S        the seed (1)
  --scripts N     how many scripts, numbered from 0 (100)
  --only K        script K alone
  --show          prints every call with the lines of both sides
  --pairs         fails if a pair of call and answer that the documents allow was not met
  --threads T     how many scripts at once (2)

Prints how often each pair was met, then what differs; it stops at the first difference. Status 0: nothing differs; 1:
something does, or a pair is missing; 2: it wasn't asked rightly.";

/// What was asked on the command line.
pub struct Options {
    pub seed: u64,
    pub program: Option<String>,
    pub show: bool,
    scripts: u64,
    only: Option<u64>,
    pairs: bool,
    threads: u64,
}

/// The options of a kind of script; `program` is the option that names the program to compare with.
fn options(words: &[String], program: &str) -> Result<Options, String> {
    let mut options =
        Options { seed: 1, program: None, show: false, scripts: 100, only: None, pairs: false, threads: 2 };
    let mut words = words.iter();
    while let Some(word) = words.next() {
        let mut value = || words.next().ok_or(format!("{word} needs a value"));
        let number = |text: &String| text.parse::<u64>().map_err(|_| format!("{word} {text}: not a number"));
        match word.as_str() {
            named if named == program => options.program = Some(value()?.clone()),
            "--seed" => options.seed = number(value()?)?,
            "--scripts" => options.scripts = number(value()?)?,
            "--only" => options.only = Some(number(value()?)?),
            "--threads" => options.threads = number(value()?)?.max(1),
            "--show" => options.show = true,
            "--pairs" => options.pairs = true,
            _ => return Err(format!("{word} is not known")),
        }
    }
    Ok(options)
}

/// A script of its kind: what was met, how many calls, and the first difference if there is one.
type Compared = (Tally, u64, Result<(), String>);
type Script = fn(&Options, u64) -> Compared;

/// Makes all scripts, some at once, until one differs.
fn compare_all(options: &Options, one: Script) -> (Tally, u64, u64, Vec<String>) {
    let (next, calls, scripts) = (AtomicU64::new(options.only.unwrap_or(0)), AtomicU64::new(0), AtomicU64::new(0));
    let end = options.only.map_or(options.scripts, |only| only + 1);
    let stop = AtomicBool::new(false);
    let (tally, found) = (Mutex::new(Tally::default()), Mutex::new(Vec::new()));
    std::thread::scope(|scope| {
        for _ in 0..options.threads {
            scope.spawn(|| loop {
                let number = next.fetch_add(1, Ordering::Relaxed);
                if number >= end || stop.load(Ordering::Relaxed) {
                    break;
                }
                // A panic is a fault of the Rust side, told like any other.
                let compared = catch_unwind(AssertUnwindSafe(|| one(options, number)));
                let (met, made, result) =
                    compared.unwrap_or_else(|_| (Tally::default(), 0, Err("the Rust side panicked".to_string())));
                tally.lock().expect("no thread panics holding it").add(&met);
                calls.fetch_add(made, Ordering::Relaxed);
                scripts.fetch_add(1, Ordering::Relaxed);
                if let Err(what) = result {
                    found.lock().expect("no thread panics holding it").push(format!("script {number}: {what}"));
                    stop.store(true, Ordering::Relaxed);
                }
            });
        }
    });
    let tally = tally.into_inner().expect("the threads ended");
    let found = found.into_inner().expect("the threads ended");
    (tally, calls.into_inner(), scripts.into_inner(), found)
}

/// Makes the scripts and prints what was met and what is wrong. Of `pairs`, all must be met and no others of their
/// calls; of `edges`, all.
fn compare(options: &Options, one: Script, pairs: &str, edges: &str) -> bool {
    let (tally, calls, scripts, found) = compare_all(options, one);
    tally.print();
    let mut wrong = found;
    if options.pairs {
        let missing = [tally.missing(pairs), tally.missing(edges)].concat();
        wrong.extend(missing.into_iter().map(|pair| format!("never met: {pair}")));
    }
    wrong.extend(tally.unlisted(pairs).into_iter().map(|pair| format!("the documents don't allow: {pair}")));
    for line in &wrong {
        println!("{line}");
    }
    let with = if options.program.is_some() { "compared" } else { "on the Rust side alone" };
    println!("{scripts} scripts, {calls} calls {with}, seed {}: {} found", options.seed, wrong.len());
    wrong.is_empty()
}

fn main() -> ExitCode {
    let words: Vec<String> = std::env::args().skip(1).collect();
    let Some((kind, rest)) = words.split_first() else {
        eprintln!("{HELP}");
        return ExitCode::from(2);
    };
    if words.iter().any(|word| word == "--help" || word == "-h") {
        println!("{HELP}");
        return ExitCode::SUCCESS;
    }
    let with = |program: &str, one: Script, pairs, edges| {
        options(rest, program).map(|options| compare(&options, one, pairs, edges))
    };
    let asked = match kind.as_str() {
        "calls" => with("--drive", calls::script, calls::PAIRS, calls::EDGES),
        "runs" => with("--drive", runs::script, runs::PAIRS, ""),
        "rehearsals" => with("--rehearse", rehearsals::script, rehearsals::PAIRS, ""),
        "flowmods" => with("--flowmods", flowmods::script, flowmods::PAIRS, flowmods::EDGES),
        "isolation" => with("--isolated", isolation::script, isolation::PAIRS, isolation::EDGES),
        "edit" => edit::edit(rest).map(|()| true),
        _ => Err(format!("{kind} is not known; --help tells")),
    };
    match asked {
        Ok(true) => ExitCode::SUCCESS,
        Ok(false) => ExitCode::from(1),
        Err(what) => {
            eprintln!("differences: {what}");
            ExitCode::from(2)
        }
    }
}
