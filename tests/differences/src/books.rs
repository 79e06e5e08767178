//! Random playbooks: good ones of every size up to the limits, and ones with a fault, or several, put in on purpose.

use crate::body::{kept, rule, Body};
use crate::random::Random;
use reference::flow::Rule;
use reference::playbook::{CHANGE_KIND, END_KIND, PLAN_KIND};

/// A record of a playbook. `Other` is any bytes.
#[derive(Clone)]
pub enum Record {
    Plan { switch: u8, cause: u8 },
    Change { flow: u8, switch: u8, rule: Rule },
    End,
    Other(Vec<u8>),
}

pub fn encoded(records: &[Record]) -> Vec<u8> {
    let mut bytes = Body::new();
    for record in records {
        bytes = match record {
            Record::Plan { switch, cause } => bytes.byte(PLAN_KIND).byte(*switch).byte(*cause),
            Record::Change { flow, switch, rule } => bytes.byte(CHANGE_KIND).byte(*flow).byte(*switch).carried(*rule),
            Record::End => bytes.byte(END_KIND),
            Record::Other(other) => bytes.bytes(other),
        };
    }
    bytes.0
}

/// The few switches, causes and rules that a script keeps to, so that its calls have to do with each other.
#[derive(Clone)]
pub struct Few {
    pub switches: Vec<u8>,
    pub causes: Vec<u8>,
    pub rules: Vec<Rule>,
    pub flows: u8,
}

impl Few {
    pub fn new(random: &mut Random) -> Few {
        let mut switches: Vec<u8> = (0..16).collect();
        random.shuffle(&mut switches);
        let many = random.pick(&[1, 2, 2, 3, 3, 4, 16]);
        switches.truncate(many);
        Few {
            switches,
            causes: random.pick(&[[0, 1, 2], [1, 7, 255], [3, 4, 5]]).to_vec(),
            rules: nested(random),
            flows: random.pick(&[1, 2, 2, 3, 255]),
        }
    }

    pub fn switch(&self, random: &mut Random) -> u8 {
        random.pick(&self.switches)
    }

    pub fn rule(&self, random: &mut Random) -> Rule {
        random.pick(&self.rules)
    }

    pub fn change(&self, random: &mut Random) -> Record {
        let flow = (random.byte() % self.flows).wrapping_mul(random.pick(&[1, 1, 255]));
        Record::Change { flow, switch: self.switch(random), rule: self.rule(random) }
    }

    /// Different triggers, as many as there are up to `most`.
    fn triggers(&self, random: &mut Random, most: usize) -> Vec<Record> {
        let mut all: Vec<Record> = Vec::new();
        for &switch in &self.switches {
            all.extend(self.causes.iter().map(|&cause| Record::Plan { switch, cause }));
        }
        random.shuffle(&mut all);
        all.truncate(most);
        all
    }

    /// A good playbook of a few plans.
    pub fn book(&self, random: &mut Random, sizes: &[usize]) -> Vec<Record> {
        let mut records = Vec::new();
        let plans = random.between(1, 6);
        for plan in self.triggers(random, plans) {
            records.push(plan);
            let changes = random.pick(sizes);
            records.extend((0..changes).map(|_| self.change(random)));
        }
        records.push(Record::End);
        records
    }
}

/// Rules whose prefixes lie within one another or side by side, among them removals and the extreme ports.
fn nested(random: &mut Random) -> Vec<Rule> {
    let any = random.long();
    let base = random.pick(&[0x0A00_0000, 0xFFFF_FFFF, 0, any]);
    let many = random.between(2, 7);
    let mut rules = Vec::new();
    for _ in 0..many {
        let length = random.pick(&[0, 1, 8, 8, 16, 24, 31, 32]);
        let prefix = kept(base ^ (u32::from(random.byte() % 3) << (32 - length.max(1))), length);
        let ports = [0, 1, 2, 3, 65_535];
        rules.push(rule(prefix, length, random.pick(&ports)));
        // The same prefix with another port, so that rules differ in nothing else.
        rules.push(rule(prefix, length, random.pick(&ports)));
    }
    rules
}

/// A rule that is not well formed.
pub fn ill_formed(random: &mut Random) -> Rule {
    let port = random.pick(&[0, 1, 65_535]);
    match random.below(5) {
        0 => rule(0, 33, port),
        1 => rule(0, random.pick(&[34, 64, 128, 255]), port),
        2 => rule(1 << random.below(32), 0, port),
        3 => rule(0x0A00_0001, 8, port),
        _ => {
            let length = random.between(0, 31) as u8;
            rule(kept(random.long(), length) | 1 << random.below(32 - length as usize), length, port)
        }
    }
}

/// The pair of prefix and length of a number from 0 to 511: neighbours share the prefix or the length.
pub fn pair(number: usize) -> (u32, u8) {
    match number {
        0..=32 => (0, number as u8),
        33..=63 => (1 << (number - 33), 32),
        _ => ((number as u32) << 16, 16),
    }
}

/// A change with its pair given by number.
fn numbered(switch: u8, number: usize) -> Record {
    let (prefix, length) = pair(number);
    Record::Change { flow: number as u8, switch, rule: rule(prefix, length, (number % 5) as u16) }
}

/// A good playbook at the limits: `plans` plans with `changes` changes between them, all switches with up to 64 pairs.
pub fn large(random: &mut Random, plans: usize, changes: usize) -> Vec<Record> {
    let mut counts = vec![0; plans];
    let mut left = changes.min(32 * plans);
    while left > 0 {
        let place = random.below(plans);
        let more = random.between(1, 8).min(left).min(32 - counts[place]);
        counts[place] += more;
        left -= more;
    }
    let mut records = Vec::new();
    for (place, count) in counts.iter().enumerate() {
        records.push(Record::Plan { switch: (place % 16) as u8, cause: (place / 16) as u8 });
        for _ in 0..*count {
            let switch = random.below(16) as u8;
            records.push(numbered(switch, random.below(64)));
        }
    }
    records.push(Record::End);
    records
}

/// A playbook with `pairs` different pairs on one switch, each twice or so where there is room.
pub fn crowded(random: &mut Random, pairs: usize) -> Vec<Record> {
    let switch = random.below(16) as u8;
    let mut numbers: Vec<usize> = (0..pairs).collect();
    let again: Vec<usize> = (0..random.between(0, 40)).map(|_| random.below(pairs)).collect();
    numbers.extend(again);
    random.shuffle(&mut numbers);
    let mut records = Vec::new();
    for (cause, part) in numbers.chunks(random.between(20, 32)).enumerate() {
        records.push(Record::Plan { switch: random.byte() % 16, cause: cause as u8 });
        records.extend(part.iter().map(|&number| numbered(switch, number)));
    }
    records.push(Record::End);
    records
}

/// A playbook that sets 64 different pairs on one switch: a table that is full once all is made.
pub fn brim(random: &mut Random) -> Vec<Record> {
    let switch = random.below(16) as u8;
    let mut records = Vec::new();
    for number in 0..64 {
        if number % 22 == 0 {
            records.push(Record::Plan { switch, cause: number as u8 });
        }
        let (prefix, length) = pair(number);
        records.push(Record::Change { flow: random.byte() % 2, switch, rule: rule(prefix, length, 1 + number as u16) });
    }
    records.push(Record::End);
    records
}

/// One plan of so many changes, maybe among others.
pub fn long_plan(random: &mut Random, few: &Few, changes: usize) -> Vec<Record> {
    let mut records = vec![Record::Plan { switch: 3, cause: 200 }];
    records.extend((0..random.below(3)).map(|_| few.change(random)));
    records.push(Record::Plan { switch: 3, cause: 201 });
    records.extend((0..changes).map(|_| few.change(random)));
    records.push(Record::End);
    records
}

/// Spoils fields of one record: each of its questions may be answered no at once, so that their order matters.
fn spoil(random: &mut Random, record: &mut Record) {
    match record {
        Record::Plan { switch, .. } => *switch = random.pick(&[16, 17, 255]),
        Record::Change { switch, rule, .. } => {
            let what = random.below(3);
            if what != 0 {
                *switch = random.pick(&[16, 17, 255]);
            }
            if what != 1 {
                *rule = ill_formed(random);
            }
        }
        _ => {}
    }
}

/// Puts one fault into a good playbook, and gives the bytes.
pub fn faulty(random: &mut Random, few: &Few, mut records: Vec<Record>) -> Vec<u8> {
    let place = random.below(records.len());
    match random.below(12) {
        0 => {
            let mut bytes = encoded(&records);
            bytes.truncate(random.below(bytes.len()));
            return bytes;
        }
        1 => {
            let after = random.between(1, 3);
            let mut bytes = encoded(&records);
            let more = if random.once_in(2) { vec![0x13; after] } else { random.bytes(after) };
            bytes.extend(more);
            return bytes;
        }
        2 => {
            let kind = random.pick(&[0, 1, 2, 3, 0x10, 0x14, 0x21, 0xFF]);
            records.insert(place, Record::Other(vec![kind]));
        }
        3 => records.insert(0, few.change(random)),
        4 | 5 => spoil(random, &mut records[place]),
        6 => {
            // A change with everything wrong, first of all or not.
            let mut change = few.change(random);
            spoil(random, &mut change);
            records.insert(random.pick(&[0, place]), change);
        }
        7 => {
            let plan = records.iter().find(|record| matches!(record, Record::Plan { .. })).cloned();
            records.insert(records.len() - 1, plan.unwrap_or(Record::End));
        }
        8 => {
            records.pop();
        }
        9 => {
            // Limits and ill-formed rules at once, in either order.
            records = long_plan(random, few, 33);
            let last = records.len() - 2;
            spoil(random, &mut records[last]);
        }
        10 => {
            records.remove(place);
        }
        _ => {
            let mut bytes = encoded(&records);
            let at = random.below(bytes.len());
            bytes[at] ^= 1 << random.below(8);
            return bytes;
        }
    }
    encoded(&records)
}

/// A playbook at a limit, or one past it, with its name.
pub fn at_a_limit(random: &mut Random, few: &Few) -> (&'static str, Vec<Record>) {
    let changes = random.below(40);
    match random.below(11) {
        0 => ("64 plans and 512 changes", large(random, 64, 512)),
        1 => ("65 plans", large(random, 65, changes)),
        2 => {
            let plans = random.between(17, 64);
            ("513 changes", large(random, plans, 513))
        }
        3 => ("a plan of 32 changes", long_plan(random, few, 32)),
        4 => ("a plan of 33 changes", long_plan(random, few, 33)),
        5 => ("64 pairs", crowded(random, 64)),
        6 => ("65 pairs", crowded(random, 65)),
        7 => ("64 plans", large(random, 64, changes)),
        8 => ("512 changes", large(random, 16, 512)),
        // At the limits, a trigger that is not new, or a change that makes pair 65: the earlier question answers.
        9 => {
            let mut records = large(random, 64, changes);
            let again = records[0].clone();
            records.insert(records.len() - 1, again);
            ("65 plans, the last one's trigger met", records)
        }
        _ => {
            let mut records = crowded(random, 64);
            let switch = match records[1] {
                Record::Change { switch, .. } => switch,
                _ => 0,
            };
            let last = records.len() - 1;
            records.insert(last, Record::Plan { switch, cause: 250 });
            for place in 0..33 {
                let number = if place == 32 { 99 } else { 0 };
                records.insert(last + 1 + place, numbered(switch, number));
            }
            ("33 changes and 65 pairs at once", records)
        }
    }
}
