//! Flow tables: applying rules compared with a sorted map, lookup compared with trying every entry, on good tables and
//! damaged ones.

mod support;

use reference::flow::{Action, Entry, Rule, Table};
use std::collections::BTreeMap;
use support::*;

fn random_rule(random: &mut Random) -> Rule {
    let length = *random.pick(&[0, 1, 2, 3, 8, 31, 32]);
    let spread = (random.below(64) << 26 | random.below(4)) as u32;
    let prefix = (u64::from(spread) >> (32 - length) << (32 - length)) as u32;
    let port = random.below(3) as u16 * 700;
    Rule { prefix, length: length as u8, action: Action::of_port(port) }
}

#[test]
fn applying_is_like_a_sorted_map() {
    let mut random = Random::new(1);
    for _ in 0..40 {
        let mut table = Table::EMPTY;
        let mut map = BTreeMap::new();
        for _ in 0..400 {
            let rule = random_rule(&mut random);
            assert!(rule.well_formed());
            let place = (rule.prefix, rule.length);
            let room = rule.action == Action::Remove || map.contains_key(&place) || map.len() < 64;
            assert_eq!(table.has_room(&rule), room);
            if !room {
                continue;
            }
            match rule.action {
                Action::Remove => map.remove(&place),
                Action::Set(port) => map.insert(place, port),
            };
            table.apply(&rule);
            assert!(table.obeys_limits());
            let entries: Vec<Entry> =
                map.iter().map(|(&(prefix, length), &port)| entry(prefix, length, port)).collect();
            assert_eq!(table.used(), entries);
        }
    }
}

/// The longest match as document 01 words it: bit by bit, the first among the longest.
fn looked_up(table: &Table, address: u32) -> Option<u16> {
    let used = &table.entries[..table.count.min(64)];
    let bits =
        |number: u32, length: u8| -> Vec<bool> { (0..length).map(|bit| number >> (31 - bit) & 1 == 1).collect() };
    let matching =
        |entry: &&Entry| entry.length <= 32 && bits(entry.prefix, entry.length) == bits(address, entry.length);
    let longest = used.iter().filter(matching).map(|entry| entry.length).max()?;
    used.iter().filter(matching).find(|entry| entry.length == longest).map(|entry| entry.port)
}

#[test]
fn lookup_takes_the_longest() {
    let mut table = Table::EMPTY;
    assert_eq!(table.lookup(0), None);
    for rule in [set(0x0A00_0000, 8, 1), set(0x0A01_0000, 16, 2), set(0x0A01_0203, 32, 3)] {
        table.apply(&rule);
    }
    assert_eq!(table.lookup(0x0A02_0000), Some(1));
    assert_eq!(table.lookup(0x0A01_0204), Some(2));
    assert_eq!(table.lookup(0x0A01_0203), Some(3));
    assert_eq!(table.lookup(0x0B00_0000), None);
    table.apply(&set(0, 0, 9));
    assert_eq!(table.lookup(0x0B00_0000), Some(9));
}

#[test]
fn lookup_is_total() {
    let mut random = Random::new(2);
    for round in 0..3000 {
        let mut table = Table { count: *random.pick(&[0, 1, 5, 63, 64, 65, 200, usize::MAX]), ..Table::EMPTY };
        for place in &mut table.entries {
            let rule = random_rule(&mut random);
            *place = entry(rule.prefix, rule.length, random.below(4) as u16);
            if round % 2 == 0 && random.chance(4) {
                *place = entry(random.next() as u32, random.byte(), random.below(4) as u16);
            }
        }
        let address = if random.chance(2) { random.next() as u32 } else { random_rule(&mut random).prefix };
        assert_eq!(table.lookup(address), looked_up(&table, address));
    }
}

#[test]
fn limits_of_tables() {
    let good = filled_switch(0, 1, 5).table;
    let spoilt = |spoil: fn(&mut Table)| {
        let mut table = good.clone();
        spoil(&mut table);
        table.obeys_limits()
    };
    assert!(spoilt(|_| {}));
    assert!(spoilt(|table| table.entries[0] = entry(0, 0, 1)));
    assert!(spoilt(|table| table.entries[1] = entry(0, 25, 1)));
    assert!(!spoilt(|table| table.count = 4), "an unused place is not zero");
    assert!(!spoilt(|table| table.count = 6), "a used place has port 0");
    assert!(!spoilt(|table| table.count = 65));
    assert!(!spoilt(|table| table.count = usize::MAX));
    assert!(!spoilt(|table| table.entries[63] = entry(0, 0, 1)));
    assert!(!spoilt(|table| table.entries[63] = entry(0, 1, 0)));
    assert!(!spoilt(|table| table.entries[2].port = 0));
    assert!(!spoilt(|table| table.entries[2].length = 33));
    assert!(!spoilt(|table| table.entries[2].prefix |= 1));
    assert!(!spoilt(|table| table.entries.swap(1, 2)));
    assert!(!spoilt(|table| table.entries[1] = table.entries[2]));
    assert!(!spoilt(|table| (table.entries[1].prefix, table.entries[1].length) = (0, 23)));
}
