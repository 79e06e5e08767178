//! The tables, in Markdown.

use crate::inputs::{self, FLOW_MOD_FRAME};
use crate::measure::{compare, Rounds, Run, Taken};
use crate::openssl::Openssl;
use crate::rattle::Rattle;
use crate::rust::Rust;
use crate::sides::{mix, Place, Side, Trigger};
use reference::drive::FRAME;

/// How many messages a run receives before it starts again from the same state.
const MESSAGES: usize = 512;

/// The step between addresses that are looked up; it goes all over the address space.
const STEP: u32 = 0x9e37_79b1;

/// An offset in a frame.
const PLACE: Place = Place { receiver: 3, at: 7 };

/// A trigger's switch past the last one: decisions are refused right after question 20.
const NOWHERE: Trigger = Trigger { switch: 16, cause: 0 };

/// A time with three digits or more. What takes no time at all, a compiler has taken out of its loop.
fn shown(ns: f64) -> String {
    match ns {
        ns if ns < 0.1 => "under 0.1".to_string(),
        ns if ns < 10.0 => format!("{ns:.2}"),
        ns if ns < 100.0 => format!("{ns:.1}"),
        ns => format!("{ns:.0}"),
    }
}

/// How many times as long the first takes as the second, where both take any.
fn ratio(a: f64, b: f64) -> String {
    if a < 0.1 || b < 0.1 {
        return String::new();
    }
    format!("{:.2}", a / b)
}

/// What the library and the Rust code take for a call, where a run of one time makes `each` calls.
fn both(name: &str, rounds: Rounds, each: usize, call: &dyn Fn(&dyn Side, u32) -> u64) -> [Taken; 2] {
    let mut sides: [Run; 2] = [Box::new(|times| call(&Rattle, times)), Box::new(|times| call(&Rust, times))];
    let taken = compare(name, rounds, each, &mut sides);
    [taken[0], taken[1]]
}

/// The cells of both sides: the middle rounds, their ratio, and that of the shortest.
fn pair([rattle, rust]: [Taken; 2]) -> String {
    let middle = ratio(rattle.middle, rust.middle);
    format!(" {} | {} | {middle} | {} |", shown(rattle.middle), shown(rust.middle), ratio(rattle.least, rust.least))
}

/// A row of both sides.
fn row(name: &str, rounds: Rounds, each: usize, call: &dyn Fn(&dyn Side, u32) -> u64) {
    println!("| {name} |{}", pair(both(name, rounds, each, call)));
}

/// Two more cells: a library's time, and how the proved one compares.
fn cells(rattle: Taken, other: Option<Taken>) -> String {
    match other {
        Some(other) => format!(" {} | {} |", shown(other.middle), ratio(rattle.middle, other.middle)),
        None => " not measured | |".to_string(),
    }
}

type Hash<'a> = &'a dyn Fn(&Openssl, &[u8]) -> [u8; 32];

/// The run of a hash of OpenSSL's, with the sums that the other sides make.
fn hashing<'a>(library: &'a Openssl, bytes: &'a [u8], hash: Hash<'a>) -> Run<'a> {
    Box::new(move |times| {
        let mut bytes = bytes.to_vec();
        (0..times).fold(0, |sum, _| {
            let hash = hash(library, &bytes);
            bytes[0] = hash[0];
            mix(sum, u32::from_be_bytes([hash[0], hash[1], hash[2], hash[3]]))
        })
    })
}

/// A row of all sides, for a hash of bytes.
fn tag_row(
    name: &str,
    rounds: Rounds,
    libraries: [Option<&Openssl>; 2],
    bytes: &[u8],
    call: &dyn Fn(&dyn Side, &mut [u8], u32) -> u64,
    hash: Hash,
) {
    let mut sides: Vec<Run> = vec![
        Box::new(|times| call(&Rattle, &mut bytes.to_vec(), times)),
        Box::new(|times| call(&Rust, &mut bytes.to_vec(), times)),
    ];
    sides.extend(libraries.iter().flatten().map(|library| hashing(library, bytes, hash)));
    let taken = compare(name, rounds, 1, &mut sides);
    let mut others = taken[2..].iter().copied();
    print!("| {name} |{}", pair([taken[0], taken[1]]));
    for library in libraries {
        print!("{}", cells(taken[0], library.and_then(|_| others.next())));
    }
    println!();
}

/// Tags: the library, the Rust code, and OpenSSL with and without its assembly.
pub fn tags(rounds: Rounds, with: Option<&Openssl>, without: Option<&Openssl>) {
    for (library, words) in [(with, "with assembly"), (without, "without assembly")] {
        match library {
            Some(library) => println!("{words}: {}", library.version),
            None => println!("{words}: no such libcrypto, not measured"),
        }
    }
    println!();
    println!(
        "| Tags | Rattle ns | Rust ns | ratio | least | OpenSSL ns | ratio | OpenSSL without assembly ns | ratio |"
    );
    println!("|---|---|---|---|---|---|---|---|---|");
    let libraries = [with, without];
    let large = inputs::noise(7, 1_000_000);
    tag_row("SHA-256 of 1 MB", rounds, libraries, &large, &|s, m, t| s.sha256(m, t), &|l, m| l.sha256(m));
    let key = inputs::noise(8, 32);
    let body = inputs::noise(9, 14);
    let hmac = |side: &dyn Side, bytes: &mut [u8], times: u32| side.hmac(&key, bytes, times);
    tag_row("HMAC of a share's 14 bytes", rounds, libraries, &body, &hmac, &|l, m| l.hmac(&key, m));
    let name = "the same; OpenSSL by SHA256_Init, _Update, _Final";
    tag_row(name, rounds, libraries, &body, &hmac, &|l, m| l.hmac_of_hashes(&key, m));
    println!();
}

/// The calls of both ends, the reader and the rehearsal.
pub fn calls(rounds: Rounds) {
    println!("| Call | Rattle ns | Rust ns | ratio | least |");
    println!("|---|---|---|---|---|");
    at_a_switch(rounds);
    at_a_controller(rounds);
    let book = inputs::playbook(512, true);
    row("a playbook of 512 changes in 64 plans read", rounds, 1, &|side, times| {
        side.read(&mut book.clone(), inputs::FLOW_BYTE, times)
    });
    let one = inputs::playbook(512, false);
    row("the same, all changes on one switch", rounds, 1, &|side, times| {
        side.read(&mut one.clone(), inputs::FLOW_BYTE, times)
    });
    for n in [4, 16] {
        let input = inputs::rehearsal(n);
        let name = format!("a rehearsal of 8,192 script bytes, n = {n}");
        row(&name, rounds, 1, &|side, times| side.rehearsed(&input, &mut vec![0; 135_168], times));
    }
    println!();
}

fn at_a_switch(rounds: Rounds) {
    let switch = inputs::switch(4, 32);
    let shares = inputs::quorums(4, 32, MESSAGES / 2);
    row("a share received, n = 4, 32 entries: one held, one applied", rounds, MESSAGES, &|side, times| {
        side.received(&switch, &shares, times)
    });
    let shares = inputs::singles(4, 32, MESSAGES);
    row("the same, all held", rounds, MESSAGES, &|side, times| side.received(&switch, &shares, times));
    row("an acknowledgement written", rounds, 1, &|side, times| {
        side.written(&switch, false, PLACE, &mut [0; FRAME], times)
    });
    row("an event written", rounds, 1, &|side, times| side.written(&switch, true, PLACE, &mut [0; FRAME], times));
    flow_mods(rounds);
    let full = inputs::switch(4, 64);
    row("lookup at a switch, 64 entries", rounds, 1, &|side, times| side.looked_up(&full, STEP, times));
    row("lookup in its table (no question 20)", rounds, 1, &|side, times| side.forwarded(&full, STEP, times));
}

/// FLOW_MODs of rules of each form, with prefixes that differ from turn to turn.
fn flow_mods(rounds: Rounds) {
    for (name, length, port) in [
        ("a FLOW_MOD written, a set of length 16", 16, 3),
        ("the same, a removal", 16, 0),
        ("the same, a set of length 32", 32, 3),
        ("the same, a set of length 0", 0, 3),
    ] {
        let rule = inputs::route(0, length, port);
        let step = 1u32.checked_shl(32 - u32::from(length)).unwrap_or(0);
        row(name, rounds, 1, &|side, times| side.flow_mods(&rule, step, &mut [0; FLOW_MOD_FRAME], PLACE.at, times));
    }
}

fn at_a_controller(rounds: Rounds) {
    let trigger = inputs::last_trigger(512);
    let controller = inputs::controller(4, inputs::playbook(512, true));
    let done = inputs::all_done();
    row("a decision, 512 changes listed: 8 done already", rounds, 1, &|side, times| {
        side.decided(&controller, &done, trigger, times)
    });
    let acknowledgements = inputs::acknowledgements(trigger.switch, inputs::PLAN as u32, MESSAGES as u32 / 2);
    row("a decision or acknowledgement in turn: 8 held, 8 dropped", rounds, MESSAGES, &|side, times| {
        side.in_turn(&controller, trigger, &acknowledgements, times)
    });
    let others = inputs::acknowledgements(0, 1, MESSAGES as u32);
    row("an acknowledgement received, 32 undone", rounds, MESSAGES, &|side, times| {
        side.acknowledged(&controller, trigger, 4, &others, times)
    });
    let place = Place { receiver: trigger.switch, at: 7 };
    row("a share made, 32 undone", rounds, 1, &|side, times| {
        side.share_written(&controller, trigger, 4, place, &mut [0; FRAME], times)
    });
}

/// Question 20 alone: calls that are refused right after it.
pub fn question(rounds: Rounds) {
    println!("| Question 20, and a refusal right after it | Rattle ns | Rust ns | ratio | least |");
    println!("|---|---|---|---|---|");
    for entries in [0, 32, 64] {
        let switch = inputs::switch(4, entries);
        let nobody = Place { receiver: 255, at: 0 };
        row(&format!("a switch with {entries} entries"), rounds, 1, &|side, times| {
            side.written(&switch, false, nobody, &mut [0; FRAME], times)
        });
    }
    for (changes, spread) in [(0, true), (256, true), (512, true), (512, false)] {
        let controller = inputs::controller(4, inputs::playbook(changes, spread));
        let where_to = if spread { "" } else { ", all on one switch" };
        row(&format!("a controller, {changes} changes listed{where_to}"), rounds, 1, &|side, times| {
            side.decided(&controller, &[], NOWHERE, times)
        });
    }
    let controller = inputs::controller(4, inputs::playbook(512, true));
    let trigger = inputs::last_trigger(512);
    let nobody = Place { receiver: 16, at: 0 };
    row("a controller, 512 changes listed, 64 undone", rounds, 1, &|side, times| {
        side.share_written(&controller, trigger, 8, nobody, &mut [0; FRAME], times)
    });
    println!();
}

/// Several calls of both sides in one row of a growth table.
type Column<'a> = (&'a str, usize, Box<dyn Fn(&dyn Side, u32) -> u64 + 'a>);

fn heading(first: &str, names: &[&str]) {
    println!(
        "| {first} |{}",
        names.iter().map(|name| format!(" {name}: Rattle ns | Rust ns | ratio |")).collect::<String>()
    );
    println!("|---|{}", "---|---|---|".repeat(names.len()));
}

fn grown(size: usize, rounds: Rounds, columns: &[Column]) {
    print!("| {size} |");
    for (name, each, call) in columns {
        let [rattle, rust] = both(name, rounds, *each, call);
        let least = ratio(rattle.least, rust.least);
        print!(" {} | {} | {least} |", shown(rattle.least), shown(rust.least));
    }
    println!();
}

/// Cost as it grows: with the controllers, with a table's entries, with a playbook's changes. The times are those of
/// the shortest rounds, which show growth best.
pub fn growth(rounds: Rounds) {
    let rounds = Rounds { span: rounds.span / 2.0, ..rounds };
    heading("n", &["a share, each change sent by a quorum", "an acknowledgement written"]);
    for n in 1..=16 {
        let switch = inputs::switch(n, 32);
        let changes = MESSAGES / reference::switch::quorum(n) as usize;
        let shares = inputs::quorums(n, 32, changes);
        let each = shares.len() / reference::message::SHARE_LENGTH;
        let place = Place { receiver: n - 1, at: 7 };
        let columns: [Column; 2] = [
            ("a share", each, Box::new(|side, times| side.received(&switch, &shares, times))),
            ("an acknowledgement", 1, Box::new(|s, t| s.written(&switch, false, place, &mut [0; FRAME], t))),
        ];
        grown(n.into(), rounds, &columns);
    }
    println!();
    heading("entries", &["a share applied, n = 1", "lookup at a switch", "lookup in its table"]);
    for entries in (0..=64).step_by(8) {
        let switch = inputs::switch(1, entries);
        let shares = inputs::quorums(1, entries, MESSAGES);
        let columns: [Column; 3] = [
            ("a share", MESSAGES, Box::new(|side, times| side.received(&switch, &shares, times))),
            ("lookup at a switch", 1, Box::new(|side, times| side.looked_up(&switch, STEP, times))),
            ("lookup in a table", 1, Box::new(|side, times| side.forwarded(&switch, STEP, times))),
        ];
        grown(entries, rounds, &columns);
    }
    println!();
    heading("changes", &["read", "a decision", "an acknowledgement received", "a share made (at 0: none)"]);
    let done = inputs::all_done();
    let acknowledgements = inputs::acknowledgements(0, 1, MESSAGES as u32);
    for changes in (0..=512).step_by(64) {
        let book = inputs::playbook(changes, true);
        let controller = inputs::controller(4, book.clone());
        let trigger = inputs::last_trigger(changes);
        let place = Place { receiver: trigger.switch, at: 7 };
        let columns: [Column; 4] = [
            ("read", 1, Box::new(|side, times| side.read(&mut book.clone(), inputs::FLOW_BYTE, times))),
            ("a decision", 1, Box::new(|side, times| side.decided(&controller, &done, trigger, times))),
            (
                "an acknowledgement",
                MESSAGES,
                Box::new(|side, times| side.acknowledged(&controller, trigger, 1, &acknowledgements, times)),
            ),
            ("a share made", 1, Box::new(|s, t| s.share_written(&controller, trigger, 1, place, &mut [0; FRAME], t))),
        ];
        grown(changes, rounds, &columns);
    }
    println!();
}
