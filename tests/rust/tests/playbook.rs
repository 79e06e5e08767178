//! The playbook reader: its questions in their order, its store, and question 20's opinion of damaged stores.

mod support;

use reference::flow::{Action, Rule};
use reference::playbook::{read, read_first, Change, Plan, Playbook};
use support::*;

/// Refused with this number, with an empty store, by both readings.
fn refused(number: u8, bytes: &[u8]) {
    assert_eq!(read(bytes), (number, Playbook::EMPTY));
    assert_eq!(read_first(bytes), (number, 0, Playbook::EMPTY));
}

fn joined(records: &[Vec<u8>]) -> Vec<u8> {
    records.concat()
}

const DEFAULT: Rule = Rule { prefix: 0, length: 0, action: Action::Set(1) };

/// Plans and changes up to the limits: so many plans for different triggers, so many changes in each.
fn large(plans: usize, changes: usize) -> Vec<u8> {
    let mut bytes = Vec::new();
    for place in 0..plans {
        bytes.extend(plan((place % 16) as u8, (place / 16) as u8));
        for flow in 0..changes {
            bytes.extend(change(flow as u8, (place % 16) as u8, DEFAULT));
        }
    }
    bytes
}

#[test]
fn what_is_stored() {
    let (answer, used, book) = read_first(&joined(&[
        plan(5, 1),
        change(7, 2, set(0x0A00_0000, 8, 3)),
        change(8, 5, remove(0x0A00_0000, 8)),
        plan(5, 2),
        plan(15, 255),
        change(0, 0, remove(0, 0)),
        vec![0x13, 0x99],
    ]));
    assert_eq!((answer, used, book.planned, book.listed), (0, 40, 3, 3));
    assert_eq!(book.plans[0], Plan { switch: 5, cause: 1, first: 0, count: 2 });
    assert_eq!(book.plans[1], Plan { switch: 5, cause: 2, first: 2, count: 0 });
    assert_eq!(book.plans[2], Plan { switch: 15, cause: 255, first: 2, count: 1 });
    assert_eq!(book.changes[0], Change { flow: 7, switch: 2, rule: set(0x0A00_0000, 8, 3) });
    assert_eq!(book.changes[1], Change { flow: 8, switch: 5, rule: remove(0x0A00_0000, 8) });
    assert!(book.plans[3..].iter().all(|plan| *plan == Plan::ZERO));
    assert!(book.changes[2..].iter().all(|change| *change == Change::ZERO));
    assert!(book.obeys_limits());
    assert_eq!(book.planned_for(5, 1).len(), 2);
    assert_eq!(book.planned_for(5, 2).len(), 0);
    assert_eq!(book.planned_for(5, 3).len(), 0);
}

#[test]
fn cut_and_unknown_records() {
    refused(30, &[]);
    refused(30, &plan(1, 1));
    refused(31, &[0x00]);
    refused(31, &[0x14, 0x13]);
    let whole = joined(&[plan(1, 1), change(0, 1, DEFAULT), vec![0x13]]);
    for cut in 0..whole.len() {
        refused(30, &whole[..cut]);
    }
    assert_eq!(read(&whole).0, 0);
    refused(30, &[0x11, 16]);
    refused(30, &change(0, 16, DEFAULT)[..9]);
}

#[test]
fn nothing_may_follow() {
    let bytes = joined(&[plan(1, 1), vec![0x13, 0x00]]);
    assert_eq!(read(&bytes), (38, Playbook::EMPTY));
    let (answer, used, book) = read_first(&bytes);
    assert_eq!((answer, used, book.planned), (0, 4, 1));
}

#[test]
fn questions_of_a_plan_in_order() {
    refused(12, &plan(16, 0));
    refused(12, &plan(255, 0));
    refused(35, &joined(&[plan(3, 4), plan(3, 4)]));
    assert_eq!(read(&joined(&[plan(3, 4), plan(3, 5), plan(4, 4), vec![0x13]])).0, 0);
    let full = large(64, 0);
    refused(36, &joined(&[full.clone(), plan(0, 200)]));
    refused(35, &joined(&[full.clone(), plan(0, 0)]));
    refused(12, &joined(&[full.clone(), plan(16, 0)]));
    assert_eq!(read(&joined(&[full, vec![0x13]])).0, 0);
}

#[test]
fn questions_of_a_change_in_order() {
    let bad = set(1, 0, 1);
    refused(12, &change(0, 16, bad));
    refused(34, &change(0, 15, bad));
    refused(15, &joined(&[plan(0, 0), change(0, 15, bad)]));
    refused(15, &joined(&[large(1, 32), change(0, 0, bad)]));
    refused(36, &joined(&[large(1, 32), change(0, 0, DEFAULT)]));
    assert_eq!(read(&joined(&[large(1, 32), vec![0x13]])).0, 0);
    refused(36, &joined(&[large(16, 32), plan(0, 9), change(0, 0, DEFAULT)]));
    refused(12, &joined(&[large(16, 32), plan(0, 9), change(0, 16, DEFAULT)]));
    assert_eq!(read(&joined(&[large(16, 32), plan(0, 9), vec![0x13]])).0, 0);
}

/// 64 different prefixes with lengths on switch 9, over two plans, the half of them removals.
fn sixty_four_pairs() -> Vec<u8> {
    let mut bytes = Vec::new();
    for pair in 0..64u32 {
        if pair % 32 == 0 {
            bytes.extend(plan(0, pair as u8));
        }
        let rule = if pair % 2 == 0 { set(pair << 8, 24, 1) } else { remove((pair - 1) << 8, 25) };
        bytes.extend(change(0, 9, rule));
    }
    bytes
}

#[test]
fn different_prefixes_with_lengths() {
    let full = || joined(&[sixty_four_pairs(), plan(0, 1)]);
    refused(37, &joined(&[full(), change(0, 9, set(0, 26, 1))]));
    refused(37, &joined(&[full(), change(0, 9, remove(0, 26))]));
    refused(37, &joined(&[full(), change(0, 9, set(0x0A00_0000, 24, 1))]));
    assert_eq!(read(&joined(&[full(), change(0, 9, set(0, 25, 7)), vec![0x13]])).0, 0, "seen before");
    assert_eq!(read(&joined(&[full(), change(0, 8, set(0, 26, 7)), vec![0x13]])).0, 0, "another switch");
    refused(36, &joined(&[sixty_four_pairs(), change(0, 9, set(0, 26, 1))]));
}

#[test]
fn the_longest_good_playbook() {
    let bytes = joined(&[large(64, 8), vec![0x13]]);
    assert_eq!(bytes.len(), 5313);
    let (answer, book) = read(&bytes);
    assert_eq!((answer, book.planned, book.listed), (0, 64, 512));
    assert!(book.obeys_limits());
}

#[test]
fn damaged_stores() {
    let good =
        read(&joined(&[plan(5, 1), change(1, 2, DEFAULT), plan(6, 1), plan(7, 1), change(0, 3, DEFAULT), vec![0x13]]))
            .1;
    let spoilt = |spoil: fn(&mut Playbook)| {
        let mut book = good.clone();
        spoil(&mut book);
        book.obeys_limits()
    };
    assert!(spoilt(|_| {}));
    assert!(spoilt(|book| *book = Playbook::EMPTY));
    assert!(spoilt(|book| book.plans[1].switch = 0));
    assert!(!spoilt(|book| book.planned = 2));
    assert!(!spoilt(|book| book.planned = 65));
    assert!(!spoilt(|book| book.planned = usize::MAX));
    assert!(!spoilt(|book| book.listed = 1));
    assert!(!spoilt(|book| book.listed = 3));
    assert!(!spoilt(|book| book.listed = 513));
    assert!(!spoilt(|book| book.listed = usize::MAX));
    assert!(!spoilt(|book| book.plans[1].switch = 16));
    assert!(!spoilt(|book| book.plans[1].switch = 5), "a trigger twice");
    assert!(!spoilt(|book| book.plans[1].first = 0), "an empty plan's place");
    assert!(!spoilt(|book| book.plans[2].first = 0));
    assert!(!spoilt(|book| book.plans[2].count = 0));
    assert!(!spoilt(|book| book.plans[2].count = 2));
    assert!(!spoilt(|book| book.plans[2].count = usize::MAX));
    assert!(!spoilt(|book| book.plans[3].cause = 1));
    assert!(!spoilt(|book| book.plans[63].first = 2));
    assert!(!spoilt(|book| book.changes[0].switch = 16));
    assert!(!spoilt(|book| book.changes[0].switch = 255));
    assert!(!spoilt(|book| book.changes[0].rule = set(1, 0, 1)));
    assert!(!spoilt(|book| book.changes[0].rule = set(0, 0, 0)));
    assert!(spoilt(|book| book.changes[0].rule = remove(0, 0)));
    assert!(!spoilt(|book| book.changes[2].flow = 1));
    assert!(!spoilt(|book| book.changes[511].rule = set(0, 0, 0)));
    assert!(!spoilt(|book| book.plans[2].count = 33));
}

/// A plan may have 32 changes and not 33, wherever the sums come out right.
#[test]
fn damaged_counts_of_changes() {
    let mut book = read(&joined(&[large(2, 32), vec![0x13]])).1;
    assert!(book.obeys_limits());
    (book.plans[0].count, book.plans[1].count, book.plans[1].first) = (33, 31, 33);
    assert!(!book.obeys_limits());
    (book.plans[0].count, book.plans[1].count, book.plans[1].first) = (31, 33, 31);
    assert!(!book.obeys_limits());
}

#[test]
fn damaged_pairs() {
    let bytes = joined(&[sixty_four_pairs(), plan(0, 1), change(0, 9, set(0, 25, 7)), vec![0x13]]);
    let mut book = read(&bytes).1;
    assert!(book.obeys_limits());
    book.changes[64].rule = set(0, 26, 7);
    assert!(!book.obeys_limits());
    book.changes[64].switch = 8;
    assert!(book.obeys_limits());
}

/// A store obeys its limits exactly where writing it out and reading it gives it back.
#[test]
fn limits_are_what_the_reader_stores() {
    let mut random = Random::new(3);
    let (mut good, mut bad) = (0, 0);
    for _ in 0..4000 {
        let mut book = random_book(&mut random);
        for _ in 0..random.below(3) {
            damage(&mut random, &mut book);
        }
        let stored = stored_by_reader(&book);
        assert_eq!(book.obeys_limits(), stored, "{book:?}");
        if stored {
            good += 1;
        } else {
            bad += 1;
        }
    }
    assert!(good > 500 && bad > 500, "{good} good, {bad} bad");
}

/// Every store that reading gives is given by these bytes, if by any.
fn stored_by_reader(book: &Playbook) -> bool {
    if book.planned > 64 || book.listed > 512 {
        return false;
    }
    let mut bytes = Vec::new();
    for plan in &book.plans[..book.planned] {
        bytes.extend([0x11, plan.switch, plan.cause]);
        let Some(changes) = book.changes.get(plan.first..plan.first.saturating_add(plan.count)) else { return false };
        for listed in changes {
            bytes.extend(change(listed.flow, listed.switch, listed.rule));
        }
    }
    bytes.push(0x13);
    read(&bytes) == (0, book.clone())
}

fn random_book(random: &mut Random) -> Playbook {
    let mut bytes = Vec::new();
    let crowded = random.chance(4);
    for place in 0..random.below(if crowded { 16 } else { 5 }) as u8 {
        bytes.extend(plan(place % 16, random.byte()));
        for _ in 0..if crowded { 32 } else { random.below(4) } {
            let switch = if crowded { 3 } else { random.below(16) as u8 };
            bytes.extend(change(random.byte(), switch, set((random.below(80) as u32) << 20, 12, 1)));
        }
    }
    bytes.push(0x13);
    read(&bytes).1
}

fn damage(random: &mut Random, book: &mut Playbook) {
    let plan = random.below(6) as usize;
    let bound = *random.pick(&[8, 512]);
    let change = random.below(bound) as usize;
    match random.below(12) {
        0 => book.planned = random.below(70) as usize,
        1 => book.listed = random.below(520) as usize,
        2 => book.planned = book.planned.wrapping_add(1),
        3 => book.plans[plan].switch = random.below(18) as u8,
        4 => book.plans[plan].cause = random.below(3) as u8,
        5 => book.plans[plan].first = random.below(8) as usize,
        6 => book.plans[plan].count = random.below(40) as usize,
        7 => book.changes[change].switch = random.below(18) as u8,
        8 => book.changes[change].flow = random.byte(),
        9 => book.changes[change].rule.length = random.below(35) as u8,
        10 => book.changes[change].rule.action = Action::Set(random.below(2) as u16),
        _ => book.changes[change].rule.prefix = (random.below(90) as u32) << 20,
    }
}
