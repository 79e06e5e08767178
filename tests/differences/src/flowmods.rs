//! `flowmods`: the FLOW_MODs of what a switch applied in a random rehearsal, compared byte by byte.

use crate::body::hex;
use crate::program::{run, Ended};
use crate::random::Random;
use crate::rehearsals;
use crate::script::first_difference;
use crate::tally::Tally;
use crate::Options;
use reference::flow::{Action, Rule};
use reference::rehearsal::{applied, flow_mods_of, Applied};

/// What must be met, and nothing else under these names.
pub const PAIRS: &str = "
no switch: 30
switch above 15: 12
FLOW_MOD: removal /0, removal between, removal /32, set /0, set between, set /32
";

/// What must be met; a playbook has refusals besides.
pub const EDGES: &str = "
switch: 20, 28, 30, nothing applied, one applied, more applied
";

/// How many rehearsals are drawn at most until a switch applies something.
const TRIES: u64 = 3;

/// A rehearsal's input, and what was applied. Where that is nothing another is drawn, so that few have no FLOW_MODs.
fn rehearsal(seed: u64, number: u64) -> (Vec<u8>, Vec<Applied>) {
    let mut again = 0;
    loop {
        let (input, _) = rehearsals::input(Random::new(seed, 5 + again, number), number);
        again += 1;
        match applied(&input) {
            Ok(none) if none.is_empty() && again < TRIES => {}
            applied => return (input, applied.unwrap_or_default()),
        }
    }
}

/// The byte for the switch, most often one that applied something; now and then no byte, and no rehearsal behind it.
fn switch(random: &mut Random, applied: &[Applied]) -> Option<u8> {
    match random.below(24) {
        0 => None,
        1 | 2 => Some(random.pick(&[16, 17, 128, 255])),
        3 => Some(random.pick(&[0, 15])),
        _ if applied.is_empty() => Some(random.below(16) as u8),
        _ => Some(random.pick(applied).switch),
    }
}

/// What the rule of a FLOW_MOD does, and how much of an address it matches.
fn kind(rule: &Rule) -> String {
    let what = if rule.action == Action::Remove { "removal" } else { "set" };
    match rule.length {
        length @ (0 | 32) => format!("{what} /{length}"),
        _ => format!("{what} between"),
    }
}

/// What was met: the fault, or what the switch applied.
fn counted(switch: Option<u8>, applied: &[Applied], given: &Result<Vec<u8>, u8>) -> Tally {
    let mut tally = Tally::default();
    let name = match switch {
        None => "no switch",
        Some(0..=15) => "switch",
        Some(_) => "switch above 15",
    };
    if let Err(fault) = given {
        tally.count(name, &fault.to_string());
        return tally;
    }
    let here: Vec<_> = applied.iter().filter(|applied| Some(applied.switch) == switch).collect();
    let many = match here.len() {
        0 => "nothing applied",
        1 => "one applied",
        _ => "more applied",
    };
    tally.count(name, many);
    here.iter().for_each(|applied| tally.count("FLOW_MOD", &kind(&applied.rule)));
    tally
}

/// Bytes in hexadecimal, a line for each FLOW_MOD as the lengths in the bytes say, and what is left in one line.
fn lines(mut bytes: &[u8]) -> String {
    let mut text = String::new();
    while !bytes.is_empty() {
        let told = bytes.get(2..4).map_or(0, |length| u16::from_be_bytes([length[0], length[1]])) as usize;
        let length = if (8..=bytes.len()).contains(&told) { told } else { bytes.len() };
        text += &(hex(&bytes[..length]) + "\n");
        bytes = &bytes[length..];
    }
    text
}

/// What the program must give: the bytes, or a line that says the fault. The documents leave its status open then.
fn expected(given: &Result<Vec<u8>, u8>) -> String {
    given.as_ref().map_or_else(|fault| format!("fault {fault}\n"), |bytes| lines(bytes))
}

fn printed(ended: &Ended, refused: bool) -> String {
    let status = if refused || ended.status.success() { String::new() } else { format!("{}\n", ended.status) };
    lines(&ended.output) + &String::from_utf8_lossy(&ended.errors) + &status
}

/// One input, compared where there is a program to compare with.
pub fn script(options: &Options, number: u64) -> (Tally, u64, Result<(), String>) {
    let (rehearsal, applied) = rehearsal(options.seed, number);
    let switch = switch(&mut Random::new(options.seed, 5 + TRIES, number), &applied);
    let input = switch.map_or(Vec::new(), |switch| [vec![switch], rehearsal].concat());
    let given = flow_mods_of(&input);
    let tally = counted(switch, &applied, &given);
    let expected = expected(&given);
    let ended = options.program.as_ref().map(|path| run(path, &input)).transpose();
    let result = ended.and_then(|ended| {
        let printed = ended.map(|ended| printed(&ended, given.is_err()));
        if options.show {
            println!("input {}\nrust\n{expected}", hex(&input));
            println!("program\n{}", printed.as_deref().unwrap_or_default());
        }
        match printed {
            Some(printed) if printed != expected => Err(first_difference(&expected, &printed, |_| {
                format!("the FLOW_MOD of that place, input {}", hex(&input))
            })),
            _ => Ok(()),
        }
    });
    (tally, expected.lines().count() as u64, result)
}
