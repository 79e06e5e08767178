//! `rehearsals`: random inputs of `rehearse`, compared line by line. A world of ends is kept beside the script, so that
//! sends get somewhere and raw shares have to do with what the switches hold.

use crate::body::{self, hex, kept, rule, Body};
use crate::books::{at_a_limit, encoded, faulty, ill_formed, pair, Few, Record};
use crate::program;
use crate::random::Random;
use crate::script::first_difference;
use crate::tally::Tally;
use crate::Options;
use reference::flow::Rule;
use reference::message::{KEY_LENGTH, SHARE_LENGTH};
use reference::rehearsal::{rehearse, DECIDE, DELIVER, KEEP, KINDS, RAW, REPORT, SCRIPT, SEND};

/// The pairs of record and answer that document 01 allows. 10, 20, 21, 23 and 25 cannot come about: raw shares have a
/// share's length, states, stores and frames are good, and 8,192 bytes do not use up the numbers.
pub const PAIRS: &str = "
before the script: 12, 15, 20, 28, 30, 31, 34, 35, 36, 37
decide: 0, 12, 22, 24
send: 0, 1, 2, 12, 16, 17, 18, 19, 26
report: 0, 2, 12
raw: 0, 1, 2, 11, 12, 13, 14, 15, 16, 17, 18, 19
keep: 0, 12, 26, 29
deliver: 0, 1, 2, 16, 17, 18, 19, 26, 29
no record: 30, 31
script: empty, of 8192 bytes, of 8193 bytes, much longer, other
";

/// The triggers of a playbook's plans, and the rules of its changes with their switches.
type Triggers = Vec<(u8, u8)>;
type Rules = Vec<(u8, Rule)>;

struct Rehearsal {
    random: Random,
    n: u8,
    few: Few,
    triggers: Triggers,
    rules: Rules,
    serial: u32,
    script: Vec<u8>,
}

/// A share with the tag of its pair's key, which is the pair and thirty zeros.
fn share(controller: u8, switch: u8, number: u32, rule: Rule) -> Vec<u8> {
    let mut key = [0; KEY_LENGTH];
    (key[0], key[1]) = (controller, switch);
    body::share(&key, controller, switch, number, rule)
}

// Records

fn decide(controller: u8, switch: u8, serial: u32, cause: u8) -> Body {
    Body::new().byte(DECIDE).byte(controller).byte(switch).long(serial).byte(cause)
}

fn send(controller: u8, switch: u8) -> Body {
    Body::new().byte(SEND).byte(controller).byte(switch)
}

fn report(switch: u8, controller: u8) -> Body {
    Body::new().byte(REPORT).byte(switch).byte(controller)
}

fn raw(switch: u8, share: &[u8]) -> Body {
    Body::new().byte(RAW).byte(switch).bytes(share)
}

fn keep(controller: u8, switch: u8, place: u8) -> Body {
    Body::new().byte(KEEP).byte(controller).byte(switch).byte(place)
}

fn deliver(place: u8) -> Body {
    Body::new().byte(DELIVER).byte(place)
}

impl Rehearsal {
    fn record(&mut self, bytes: Body) {
        self.script.extend(bytes.0);
    }

    fn controller(&mut self) -> u8 {
        if self.random.once_in(60) {
            return self.random.pick(&[self.n, 15, 16, 255]);
        }
        self.random.below(self.n as usize) as u8
    }

    fn switch(&mut self) -> u8 {
        if self.random.once_in(60) {
            return self.random.pick(&[15, 16, 17, 255]);
        }
        self.few.switch(&mut self.random)
    }

    fn place(&mut self) -> u8 {
        match self.random.below(30) {
            0 => self.random.pick(&[63, 64, 65, 255]),
            1 => self.random.below(64) as u8,
            _ => self.random.below(5) as u8,
        }
    }

    fn decide(&mut self) {
        let (mut switch, cause) = match self.triggers.len() {
            0 => (self.switch(), 1),
            _ => self.random.pick(&self.triggers),
        };
        let serial = match self.random.below(10) {
            0 => self.random.pick(&[0, 1, self.serial, u32::MAX - 1]),
            _ => {
                self.serial += 1;
                self.serial
            }
        };
        if self.random.once_in(40) {
            switch = self.random.pick(&[16, 255]);
        }
        // Most decisions reach all controllers, so that their shares agree.
        let all = !self.random.once_in(4);
        for controller in 0..self.n {
            if all || self.random.once_in(2) {
                let controller = if self.random.once_in(80) { self.controller() } else { controller };
                self.record(decide(controller, switch, serial, cause));
            }
        }
    }

    fn send(&mut self) {
        let (controller, switch) = (self.controller(), self.switch());
        self.record(send(controller, switch));
    }

    /// Every controller sends to a switch, and the switch reports to every controller.
    fn round(&mut self) {
        let switch = self.few.switch(&mut self.random);
        for controller in 0..self.n {
            self.record(send(controller, switch));
        }
        for controller in 0..self.n {
            self.record(report(switch, controller));
        }
    }

    fn report(&mut self) {
        let (switch, controller) = (self.switch(), self.controller());
        self.record(report(switch, controller));
    }

    fn keep(&mut self) {
        let (controller, switch, place) = (self.controller(), self.switch(), self.place());
        self.record(keep(controller, switch, place));
    }

    fn deliver(&mut self) {
        let place = self.place();
        self.record(deliver(place));
    }

    /// A share as a controller would make it or nearly so, and what can be done to it.
    fn raw(&mut self) {
        let (switch, controller) = (self.few.switch(&mut self.random), self.random.below(self.n as usize) as u8);
        let (_, mut rule) = match self.rules.len() {
            0 => (0, self.few.rule(&mut self.random)),
            _ => self.random.pick(&self.rules),
        };
        if self.random.once_in(8) {
            rule = ill_formed(&mut self.random);
        }
        let number = match self.random.below(20) {
            0 => self.random.pick(&[0, u32::MAX]),
            _ => self.random.below(12) as u32,
        };
        let mut bytes = share(controller, switch, number, rule);
        match self.random.below(14) {
            0 => bytes[self.random.below(SHARE_LENGTH)] ^= 1 << self.random.below(8),
            1 => bytes[0] = self.random.pick(&[0, 1, 3, 255]),
            2 => bytes[1] = self.random.pick(&[self.n, 15, 16, 255]),
            3 => bytes[2] = self.random.pick(&[(switch + 1) % 16, 16, 255]),
            4 => bytes[SHARE_LENGTH - 1] ^= 1,
            _ => {}
        }
        let to = if self.random.once_in(40) { self.random.pick(&[16, 255]) } else { switch };
        self.record(raw(to, &bytes));
    }

    /// Stray shares that a controller's own then meets: a higher number in its slot, or another rule under its number.
    fn in_the_way(&mut self) {
        let (controller, switch) = (self.random.below(self.n as usize) as u8, self.few.switch(&mut self.random));
        self.record(keep(controller, switch, 9));
        let number = self.random.pick(&[1, 1, 2, 2, 3, 900]);
        let rule = self.few.rule(&mut self.random);
        let bytes = share(controller, switch, number, rule);
        self.record(raw(switch, &bytes));
        self.record(send(controller, switch));
        self.record(deliver(9));
    }

    /// A table that raw shares fill to 64 entries, then the playbook's own changes, which come with higher numbers.
    fn full_table(&mut self) {
        let Some(&(switch, _)) = self.rules.first() else { return };
        let controller = 0;
        for number in 1..=64 {
            let (prefix, length) = pair(64 + number as usize);
            let bytes = share(controller, switch, number, rule(prefix, length, 4));
            self.record(raw(switch, &bytes));
        }
        self.record(report(switch, controller));
        for _ in 0..70 {
            self.serial += 1;
            let (trigger, cause) = self.random.pick(&self.triggers);
            self.record(decide(controller, trigger, self.serial, cause));
            self.record(keep(controller, switch, 7));
        }
        for _ in 0..4 {
            self.record(send(controller, switch));
            self.record(deliver(7));
            self.record(report(switch, controller));
            self.raw();
        }
        // The same prefix with another length is not its entry, and a removal needs no room.
        for (length, port) in [(15, 1), (15, 0), (16, 0), (15, 1)] {
            let number = self.random.between(100, 100_000) as u32;
            let rule = rule(kept(pair(70).0, length), length, port);
            let bytes = share(controller, switch, number, rule);
            self.record(raw(switch, &bytes));
        }
    }

    fn step(&mut self) {
        match self.random.below(40) {
            0..=2 => self.decide(),
            3..=14 => self.send(),
            15..=17 => self.round(),
            18..=22 => self.report(),
            23..=26 => self.keep(),
            27..=31 => self.deliver(),
            32..=37 => self.raw(),
            _ => self.in_the_way(),
        }
    }
}

/// The triggers and rules of a playbook's records.
fn listed(records: &[Record]) -> (Triggers, Rules) {
    let (mut triggers, mut rules) = (Vec::new(), Vec::new());
    for record in records {
        match record {
            Record::Plan { switch, cause } => triggers.push((*switch, *cause)),
            Record::Change { switch, rule, .. } => rules.push((*switch, *rule)),
            _ => {}
        }
    }
    (triggers, rules)
}

/// Brings a script to a length: with deliveries at its end, and a half one where the length is odd.
fn filled(rehearsal: &mut Rehearsal, length: usize) {
    while rehearsal.script.len() + 600 <= length.min(SCRIPT) {
        rehearsal.step();
    }
    while rehearsal.script.len() + 2 <= length {
        rehearsal.record(deliver(62));
    }
    if rehearsal.script.len() < length {
        rehearsal.record(Body::new().byte(DELIVER));
    }
}

/// An input: n, a playbook, a script.
pub fn input(random: Random, number: u64) -> (Vec<u8>, Tally) {
    let mut random = random;
    let full = number % 16 == 5;
    let n = match random.below(30) {
        0 => random.pick(&[0, 17, 18, 128, 255]),
        1..=8 => 4,
        9..=12 => 1,
        _ => random.between(1, 16) as u8,
    };
    let n = if full { 1 } else { n };
    let few = Few::new(&mut random);
    let sizes: &[usize] = if full || random.once_in(8) { &[1, 31, 32] } else { &[0, 1, 2, 3, 4] };
    let mut records = few.book(&mut random, sizes);
    if full {
        // Pairs that raw shares don't fill the table with.
        records.insert(1, Record::Change { flow: 0, switch: few.switches[0], rule: rule(0xFE00_0000, 8, 1) });
        records.truncate(33);
        records.push(Record::End);
    }
    let (triggers, rules) = listed(&records);
    let mut book = encoded(&records);
    let mut tally = Tally::default();
    match random.below(24) {
        0 | 1 if !full => book = faulty(&mut random, &few, records),
        2 | 3 if !full => book = encoded(&at_a_limit(&mut random, &few).1),
        _ => {}
    }
    let steps = random.pick(&[0, 20, 60, 120, 200]);
    let ending = random.below(24);
    let n_known = n.clamp(1, 16);
    let mut r = Rehearsal { random, n: n_known, few, triggers, rules, serial: 0, script: Vec::new() };
    if full {
        r.full_table();
    }
    for _ in 0..steps {
        r.step();
    }
    if r.script.len() > SCRIPT {
        r.script.truncate(SCRIPT);
    }
    match ending {
        0 | 1 => filled(&mut r, SCRIPT),
        2 => {
            filled(&mut r, SCRIPT);
            r.script.push(DELIVER);
        }
        6 => filled(&mut r, 70_000),
        3 => {
            let kind = r.random.pick(&[0, 0x20, 0x27, 0x13, 0xFF]);
            r.record(Body::new().byte(kind).bytes(&[DELIVER, 1]));
        }
        4 => {
            let (kind, _, length) = r.random.pick(&KINDS);
            let rest = r.random.between(0, length - 2);
            r.record(Body::new().byte(kind).bytes(&vec![1; rest]));
        }
        5 if !r.script.is_empty() => {
            let at = r.random.below(r.script.len());
            r.script[at] ^= 1 << r.random.below(8);
        }
        _ => {}
    }
    let length = match r.script.len() {
        0 => "empty",
        SCRIPT => "of 8192 bytes",
        8193 => "of 8193 bytes",
        70_000 => "much longer",
        _ => "other",
    };
    tally.count("script", length);
    let mut input = [&[n][..], &book, &r.script].concat();
    if number % 64 == 63 {
        input.truncate(r.random.below(3));
    }
    (input, tally)
}

/// The records with their kinds, told by the bytes: a damaged script has other ones than were meant.
fn records(input: &[u8]) -> Vec<(&'static str, &[u8])> {
    let rest = input.get(1..).unwrap_or(&[]);
    let (answer, used, _) = reference::playbook::read_first(rest);
    let mut left = if answer == 0 { &rest[used..] } else { &[] };
    let mut records = Vec::new();
    while let Some(&kind) = left.first() {
        let known = KINDS.iter().find(|known| known.0 == kind);
        let (name, length) = known.map_or(("no record", usize::MAX), |&(_, name, length)| (name, length));
        if left.len() < length {
            records.push(("no record", left));
            break;
        }
        records.push((name, &left[..length]));
        left = &left[length..];
    }
    records
}

/// What a line is about: a record by its ordinal, or the input before the script.
fn told(records: &[(&'static str, &[u8])], line: &str) -> (&'static str, String) {
    let ordinal: usize = line.split(' ').next().and_then(|word| word.parse().ok()).unwrap_or(0);
    match ordinal.checked_sub(1).and_then(|place| records.get(place)) {
        Some((kind, bytes)) => (kind, hex(bytes)),
        None => ("before the script", String::new()),
    }
}

fn show(input: &[u8], expected: &str, printed: &str) {
    let records = records(input);
    println!("input {}", hex(input));
    let mut printed = printed.lines();
    for line in expected.lines() {
        let (kind, bytes) = told(&records, line);
        println!("{kind} {bytes}\n  rust     {line}");
        if let Some(line) = printed.next() {
            println!("  rehearse {line}");
        }
    }
    for line in printed {
        println!("  rehearse {line}");
    }
}

/// One input, compared where there is a program to compare with.
pub fn script(options: &Options, number: u64) -> (Tally, u64, Result<(), String>) {
    let (input, mut tally) = input(Random::new(options.seed, 3, number), number);
    let expected = rehearse(&input);
    let records = records(&input);
    for line in expected.lines() {
        tally.count(told(&records, line).0, line.split(' ').nth(1).unwrap_or("none"));
    }
    let printed = options.program.as_ref().map(|path| program::printed(path, &input)).transpose();
    if options.show {
        let printed = printed.iter().flatten().next().map(|bytes| String::from_utf8_lossy(bytes).to_string());
        show(&input, &expected, &printed.unwrap_or_default());
    }
    let result = printed.and_then(|printed| match printed {
        Some(printed) if printed != expected.as_bytes() => {
            let lines: Vec<&str> = expected.lines().collect();
            let record = |place: usize| lines.get(place).map(|line| told(&records, line)).unwrap_or_default();
            let named = |place| format!("{} {}", record(place).0, record(place).1);
            Err(first_difference(&expected, &String::from_utf8_lossy(&printed), named))
        }
        _ => Ok(()),
    });
    (tally, expected.lines().count() as u64, result)
}
