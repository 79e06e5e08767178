//! Whole runs, random ones: controllers that keep the rules and some that stray, messages late, lost, repeated and
//! damaged. After every call the flow tables are the ideal controller's, and after as many full rounds as changes
//! remain, all are made (document 01, "Controller end").

mod support;

use reference::controller::Controller;
use reference::flow::Rule;
use reference::ideal::{agreed, Agreed, Decision, Ideal, Refusal};
use reference::playbook::{self, Playbook};
use reference::switch::Switch;
use std::collections::BTreeMap;
use support::*;

/// A run: its ends, the agreed list, how much of it each controller was brought, and the messages on their way.
struct Run {
    n: u8,
    strays: u8,
    switches: Vec<Switch>,
    controllers: Vec<Controller>,
    list: Vec<Decision>,
    brought: Vec<usize>,
    shares: Vec<(u8, Vec<u8>)>,
    acknowledgements: Vec<(u8, Vec<u8>)>,
    ideal: Ideal,
    applied: Vec<u32>,
}

fn random_rule(random: &mut Random) -> Rule {
    let prefix = (random.below(6) as u32) << 28;
    if random.chance(3) {
        remove(prefix, 4)
    } else {
        set(prefix, 4, 1 + random.below(3) as u16)
    }
}

fn random_book(random: &mut Random) -> Playbook {
    let mut bytes = Vec::new();
    for place in 0..6 {
        bytes.extend(plan(place % 3, place / 3));
        for _ in 0..random.below(7) {
            bytes.extend(change(random.below(3) as u8, random.below(4) as u8, random_rule(random)));
        }
    }
    bytes.push(0x13);
    playbook::read(&bytes).1
}

fn random_list(random: &mut Random) -> Vec<Decision> {
    let decision = |serial: u32| Decision {
        switch: *random.pick(&[0, 0, 1, 1, 2, 2, 16]),
        serial: serial / 2 * 2 + random.below(3) as u32,
        cause: random.below(3) as u8,
    };
    (1..12).map(decision).collect()
}

impl Run {
    /// One to ten controllers, of which the last floor((n-1)/3) stray.
    fn new(random: &mut Random) -> Run {
        let n = 1 + random.below(10) as u8;
        let book = random_book(random);
        let list = random_list(random);
        let ideal = Ideal::new(agreed(&book, &list));
        Run {
            n,
            strays: (n - 1) / 3,
            switches: (0..16).map(|id| switch(id, n)).collect(),
            controllers: (0..n).map(|id| controller(id, n, &book)).collect(),
            list,
            brought: vec![0; n as usize],
            shares: Vec::new(),
            acknowledgements: Vec::new(),
            ideal,
            applied: Vec::new(),
        }
    }

    fn keeping(&self) -> u8 {
        self.n - self.strays
    }

    fn hand_share(&mut self, to: u8, bytes: &[u8]) {
        let state = &mut self.switches[to as usize];
        if receive(state, bytes) == 1 {
            let number = state.last;
            self.applied.push(number);
            assert_eq!(self.ideal.feed(number), Ok(()));
            let change = self.ideal.agreed.iter().find(|change| change.number == number).unwrap();
            assert_eq!((change.switch, carried(bytes)), (to, (number, change.rule)));
        }
        self.check(to);
    }

    fn check(&self, switch: u8) {
        let state = &self.switches[switch as usize];
        assert!(state.obeys_limits());
        assert!(self.ideal.table_equals(switch, &state.table));
        assert_eq!(state.last, self.ideal.last_made(switch));
    }

    fn bring_decision(&mut self, to: u8) {
        let Some(decision) = self.list.get(self.brought[to as usize]) else { return };
        let state = &mut self.controllers[to as usize];
        if decide(state, decision.switch, decision.serial, decision.cause) != 24 {
            self.brought[to as usize] += 1;
        }
    }

    /// One call, or one message written or delivered. Delivered messages stay on their way, so they come again.
    fn step(&mut self, random: &mut Random) {
        let (to, at) = (random.below(u64::from(self.keeping())) as u8, random.below(5) as u8);
        match random.below(12) {
            0 => self.bring_decision(to),
            1..4 => {
                let (answer, bytes) = make_share(&self.controllers[to as usize], at);
                if answer == 0 {
                    self.shares.push((at, bytes));
                }
            }
            4..7 if !self.shares.is_empty() => {
                let (to, bytes) = random.pick(&self.shares).clone();
                self.hand_share(to, &bytes);
            }
            7..9 => {
                let (answer, bytes) = make_acknowledgement(&self.switches[at as usize], to);
                assert_eq!(answer, 0);
                self.acknowledgements.push((to, bytes));
            }
            9 | 10 if !self.acknowledgements.is_empty() => {
                let (to, bytes) = random.pick(&self.acknowledgements).clone();
                assert!([0, 2].contains(&hear(&mut self.controllers[to as usize], &bytes).0));
            }
            _ => self.stray(random, at),
        }
    }

    /// A stray's share with a good tag, the agreed change or another; or noise.
    fn stray(&mut self, random: &mut Random, at: u8) {
        if self.strays == 0 || random.chance(4) {
            let bytes = random.bytes(SHARE);
            self.hand_share(at, &bytes);
            return;
        }
        let from = self.keeping() + random.below(u64::from(self.strays)) as u8;
        let mut number = random.below(30) as u32;
        let mut rule = random_rule(random);
        let next: Vec<&Agreed> = self.ideal.unmade().filter(|change| change.switch == at).collect();
        if let (Some(change), false) = (next.first(), random.chance(3)) {
            number = change.number;
            rule = if random.chance(2) { change.rule } else { rule };
        }
        self.hand_share(at, &share(from, at, number, rule));
    }

    /// A full round: acknowledgements to every rule-keeping controller, then their shares to every switch.
    fn round(&mut self, random: &mut Random) {
        for to in 0..self.keeping() {
            for from in 0..16 {
                let (_, bytes) = make_acknowledgement(&self.switches[from as usize], to);
                assert!([0, 2].contains(&hear(&mut self.controllers[to as usize], &bytes).0));
            }
        }
        for from in 0..self.keeping() {
            for to in 0..16 {
                if self.strays > 0 && random.chance(8) {
                    self.stray(random, to % 5);
                }
                let (answer, bytes) = make_share(&self.controllers[from as usize], to);
                if answer == 0 {
                    self.hand_share(to, &bytes);
                }
            }
        }
    }
}

/// The number and rule that a share's bytes carry.
fn carried(bytes: &[u8]) -> (u32, Rule) {
    let number = u32::from_be_bytes(bytes[3..7].try_into().unwrap());
    let prefix = u32::from_be_bytes(bytes[7..11].try_into().unwrap());
    let port = u16::from_be_bytes(bytes[12..14].try_into().unwrap());
    (number, if port == 0 { remove(prefix, bytes[11]) } else { set(prefix, bytes[11], port) })
}

#[test]
fn runs_end_as_the_ideal_controller_says() {
    let mut random = Random::new(21);
    let mut made = 0;
    for _ in 0..150 {
        let mut run = Run::new(&mut random);
        for _ in 0..random.below(400) {
            run.step(&mut random);
        }
        let mut tries = 0;
        while (0..run.keeping()).any(|to| run.brought[to as usize] < run.list.len()) {
            (0..run.keeping()).for_each(|to| run.bring_decision(to));
            run.round(&mut random);
            tries += 1;
            assert!(tries < 1000, "a decision is refused for ever");
        }
        for _ in 0..run.ideal.remaining() {
            run.round(&mut random);
        }
        assert_eq!(run.ideal.remaining(), 0);
        (0..16).for_each(|switch| run.check(switch));
        made += run.applied.len();
        let mut again = Ideal::new(run.ideal.agreed.clone());
        run.applied.sort();
        assert!(run.applied.iter().all(|number| again.feed(*number) == Ok(())), "by rising number");
        assert_eq!(again.tables, run.ideal.tables);
    }
    assert!(made > 500, "{made} changes made");
}

#[test]
fn agreed_changes() {
    let route = set(0x0A00_0000, 8, 3);
    let book = book(&[(0, 0, vec![(1, 4, route), (2, 5, route)]), (0, 1, vec![(1, 4, remove(0, 0))])]);
    let decision = |switch, serial, cause| Decision { switch, serial, cause };
    let list = [
        decision(0, 0, 0),
        decision(16, 1, 0),
        decision(0, 5, 1),
        decision(0, 5, 0),
        decision(1, 5, 0),
        decision(0, 6, 0),
        decision(0, 7, 9),
        decision(0, 7, 0),
    ];
    let change = |number, first, flow, switch, rule| Agreed { number, first, flow, switch, rule };
    let expected = [change(1, 1, 1, 4, remove(0, 0)), change(2, 2, 1, 4, route), change(3, 2, 2, 5, route)];
    assert_eq!(agreed(&book, &list), expected);
    assert_eq!(agreed(&book, &[]), []);
}

#[test]
fn what_the_ideal_controller_refuses() {
    let route = set(0x0A00_0000, 8, 3);
    let change = |number, first, flow, switch| Agreed { number, first, flow, switch, rule: route };
    let mut ideal = Ideal::new(vec![
        change(1, 1, 7, 4),
        change(2, 1, 7, 5),
        change(3, 1, 8, 6),
        change(4, 4, 7, 9),
        change(5, 4, 9, 4),
    ]);
    assert_eq!(ideal.remaining(), 5);
    assert_eq!(ideal.feed(0), Err(Refusal::Unknown));
    assert_eq!(ideal.feed(6), Err(Refusal::Unknown));
    assert_eq!(ideal.feed(2), Err(Refusal::Skips(1)), "the same decision and flow");
    assert_eq!(ideal.feed(5), Err(Refusal::Skips(1)), "the same switch");
    assert_eq!(ideal.feed(3), Ok(()));
    assert_eq!(ideal.feed(4), Ok(()), "the flow byte of another decision");
    assert_eq!(ideal.feed(3), Err(Refusal::Made));
    assert_eq!(ideal.feed(1), Ok(()));
    assert_eq!(ideal.feed(5), Ok(()));
    assert_eq!(ideal.remaining(), 1);
    assert_eq!(ideal.made.iter().copied().collect::<Vec<u32>>(), [1, 3, 4, 5]);
    assert_eq!((ideal.last_made(4), ideal.last_made(5)), (5, 0));
    assert_eq!(ideal.tables[4], BTreeMap::from([((0x0A00_0000, 8), 3)]));
}
