//! `runs`: random runs as document 01 means them, checked after every call against the ideal controller, and brought to
//! their end by full rounds. Every call is a call of `drive` too, so its lines can be compared.

use crate::body::{self, whole_frame, Body, RULE};
use crate::books::{self, encoded};
use crate::domain::{Domain, Sent};
use crate::random::Random;
use crate::script::{Reply, Script};
use crate::tally::Tally;
use crate::Options;
use reference::drive::FRAME;
use reference::ideal::{agreed, Decision, Ideal};
use reference::message::Fields;
use reference::message::{ACKNOWLEDGEMENT_LENGTH as ACKNOWLEDGEMENT, EVENT_LENGTH as EVENT, SHARE_LENGTH as SHARE};
use reference::playbook::read;

/// What a run meets. Question 23 is not among it: no run uses up the numbers. Nor are 19 for a change that is agreed,
/// which question 37 excludes, and 20, 21, which the setups do; stray shares may meet 19.
pub const PAIRS: &str = "
switch setup: 0
switch keys: made
switch receive: 0, 1, 2, 10, 11, 12, 13, 14, 15, 16, 17, 18, 19
raise: 0
write event: 0, 26
write acknowledgement: 0
read: 0
controller setup: 0
controller keys: made
controller receive: 0 offered, 0 acknowledged, 2, 10, 11, 12, 13, 14, 22
decide: 0, 12, 22, 24
write share: 0, 26
run: made whole, nothing agreed
strays: 0, 1, 2, 3, 4, 5
rounds: none, fewer than changes, as many as changes
stray share: applied as agreed, held, refused, repeat
";

struct Run {
    d: Domain,
    keeps: Vec<u8>,
    strays: Vec<u8>,
    list: Vec<Decision>,
    /// How far along the list each controller is; strays' places aren't used.
    taken: Vec<usize>,
    ideal: Ideal,
    /// Messages on their way; some stay after delivery, some are lost.
    pool: Vec<Sent>,
    touched: Vec<u8>,
    wrong: Option<String>,
}

/// An agreed list: decisions of the playbook with rising serials, and some that every controller refuses or that have
/// no plan.
fn agreed_list(d: &mut Domain, triggers: &[(u8, u8)], length: usize) -> Vec<Decision> {
    let mut serials = [0u32; 16];
    let mut list = Vec::new();
    for _ in 0..length {
        let (mut switch, mut cause) = d.random.pick(triggers);
        let mut serial = serials[switch as usize] + d.random.between(1, 3) as u32;
        match d.random.below(12) {
            0 => switch = d.random.pick(&[16, 200, 255]),
            1 => serial = serials[switch as usize].saturating_sub(d.random.below(2) as u32),
            2 => cause = 77,
            _ => {}
        }
        if switch < 16 && serial > serials[switch as usize] {
            serials[switch as usize] = serial;
        }
        list.push(Decision { switch, serial, cause });
    }
    list
}

impl Run {
    fn new(random: Random, number: u64) -> Run {
        // Some have plans large enough for 24, some a switch whose table the playbook fills to the brim.
        let (large, brim) = (number % 12 == 11, number % 24 == 5);
        let sizes: &[usize] = if large { &[20, 31, 32] } else { &[0, 1, 1, 2, 3, 4, 6] };
        let mut d = Domain::new(random, Script::new(), sizes);
        if large || brim {
            d.n = d.n.min(7);
        }
        if brim {
            d.n = d.n.max(4);
            d.book = encoded(&books::brim(&mut d.random));
        }
        let most = (d.n as usize - 1) / 3;
        let count = d.random.pick(&[0, most, most, most / 2]);
        let mut all: Vec<u8> = (0..d.n).collect();
        d.random.shuffle(&mut all);
        let keeps = all.split_off(count);
        let (_, book) = read(&d.book);
        let triggers: Vec<(u8, u8)> = book.plans[..book.planned].iter().map(|plan| (plan.switch, plan.cause)).collect();
        let length = if large { d.random.between(3, 6) } else { d.random.between(1, 9) };
        let mut list = agreed_list(&mut d, &triggers, length);
        if brim {
            list =
                triggers.iter().zip(1..).map(|(&(switch, cause), serial)| Decision { switch, serial, cause }).collect();
        }
        let ideal = Ideal::new(agreed(&book, &list));
        // Switches that no change concerns take part in every eighth run only: nothing happens there.
        let mut touched: Vec<u8> = ideal.agreed.iter().map(|change| change.switch).collect();
        touched.extend(&d.few.switches);
        touched.sort();
        touched.dedup();
        if number.is_multiple_of(8) || touched.is_empty() {
            touched = (0..16).collect();
        }
        Run { d, keeps, strays: all, list, taken: vec![0; 16], ideal, pool: Vec::new(), touched, wrong: None }
    }

    fn set_up(&mut self) {
        for switch in 0..16 {
            self.d.set_up_switch(switch);
        }
        self.d.read_book();
        for controller in self.keeps.clone() {
            self.d.set_up_controller(controller);
        }
    }

    fn blame(&mut self, what: String) {
        if self.wrong.is_none() {
            self.wrong = Some(format!("call {}: {what}", self.d.script.calls.len()));
        }
    }

    /// A call at an end, and what demand 3 claims of the run so far.
    fn call(&mut self, letter: u8, end: u8, body: &[u8]) -> Reply {
        let reply = self.d.call(letter, end, body);
        if letter == b'M' && reply.is("1") {
            self.applied(end, body);
        }
        for switch in 0..16 {
            let (state, ideal) = (self.d.script.switch(switch), &self.ideal);
            if !ideal.table_equals(switch, &state.table) {
                self.blame(format!("switch {switch} has another table than the ideal controller"));
            } else if state.last != ideal.last_made(switch) {
                self.blame(format!("switch {switch}: its last applied number is not the highest made there"));
            }
        }
        reply
    }

    /// A share answered 1: it carries the agreed change of its number, and the ideal controller takes the number, in
    /// order of answer and with all others by rising number.
    fn applied(&mut self, switch: u8, share: &[u8]) {
        let number = Fields::new(&share[3..]).long();
        let agreed = self.ideal.agreed.iter().find(|change| change.number == number).copied();
        let Some(change) = agreed else { return self.blame(format!("number {number} was applied and not agreed")) };
        if change.switch != switch || Body::new().carried(change.rule).0 != share[RULE] {
            self.blame(format!("number {number} was applied with another change than the agreed one"));
        }
        if let Err(refusal) = self.ideal.feed(number) {
            self.blame(format!("the ideal controller refuses number {number}: {refusal:?}"));
        }
        let mut rising = Ideal::new(self.ideal.agreed.clone());
        for &number in &self.ideal.made.clone() {
            if let Err(refusal) = rising.feed(number) {
                self.blame(format!("by rising number, the ideal controller refuses number {number}: {refusal:?}"));
            }
        }
        if rising.tables != self.ideal.tables {
            self.blame("by rising number, the ideal controller has other tables".to_string());
        }
    }

    // Calls of the run

    fn some(&mut self, of: fn(&Run) -> &Vec<u8>) -> u8 {
        let all = of(self).clone();
        self.d.random.pick(&all)
    }

    fn keeper(&mut self) -> u8 {
        self.some(|run| &run.keeps)
    }

    fn switch(&mut self) -> u8 {
        self.some(|run| &run.touched)
    }

    /// Brings a controller its next decision. One answered 24 is brought again before any other.
    fn decide(&mut self, controller: u8) -> bool {
        let Some(&Decision { switch, serial, cause }) = self.list.get(self.taken[controller as usize]) else {
            return false;
        };
        let reply = self.call(b'd', controller, &Body::new().byte(switch).long(serial).byte(cause).0);
        if reply.is("24") {
            return false;
        }
        self.taken[controller as usize] += 1;
        true
    }

    /// A write into the longest frame, and the message out of it if there is one.
    fn write(&mut self, letter: u8, end: u8, receiver: u8) -> Option<Sent> {
        let length = match letter {
            b'w' => SHARE,
            b'A' => ACKNOWLEDGEMENT,
            _ => EVENT,
        };
        let offset = self.d.random.below(FRAME - length + 1);
        let reply = self.call(letter, end, &whole_frame(receiver, offset as u64));
        let bytes = reply.frame().get(offset..offset + length)?.to_vec();
        reply.is("0").then_some(Sent { to_switch: letter == b'w', end: receiver, bytes })
    }

    /// Messages to strays go nowhere: what they do is bytes only.
    fn deliver(&mut self, sent: &Sent) {
        if sent.to_switch {
            let reply = self.call(b'M', sent.end, &sent.bytes);
            let stray = sent.bytes.len() == SHARE && self.strays.contains(&sent.bytes[1]);
            if stray {
                let met = match reply.answer.as_str() {
                    "0" => "held",
                    "1" => "applied as agreed",
                    "2" => "repeat",
                    _ => "refused",
                };
                self.d.script.tally.count("stray share", met);
            }
        } else if self.keeps.contains(&sent.end) {
            self.call(b'm', sent.end, &sent.bytes);
        }
    }

    fn post(&mut self, sent: Option<Sent>) {
        let Some(sent) = sent else { return };
        match self.d.random.below(4) {
            0 => self.deliver(&sent),
            _ => self.pool.push(sent),
        }
    }

    /// A message out of the pool: delivered, delivered and left for later, lost, or damaged.
    fn transport(&mut self) {
        if self.pool.is_empty() {
            return;
        }
        let place = self.d.random.below(self.pool.len());
        match self.d.random.below(10) {
            0 => {
                self.pool.remove(place);
            }
            1..=5 => {
                let sent = self.pool.remove(place);
                self.deliver(&sent);
            }
            6 => {
                let mut sent = self.pool[place].clone();
                let at = self.d.random.below(sent.bytes.len());
                match self.d.random.below(3) {
                    0 => sent.bytes.truncate(at),
                    1 => sent.end = self.d.random.below(16) as u8,
                    _ => sent.bytes[at] ^= 1 << self.d.random.below(8),
                }
                self.deliver(&sent);
            }
            _ => {
                let sent = self.pool[place].clone();
                self.deliver(&sent);
            }
        }
    }

    /// What a stray sends with a good tag of its own: agreed changes, other rules under agreed numbers, an agreed
    /// rule under another number, high numbers, old ones, rules that are none.
    fn stray(&mut self) {
        if self.strays.is_empty() {
            return;
        }
        let controller = self.some(|run| &run.strays);
        let mut switch = self.switch();
        let (mut number, mut rule) = (self.d.random.between(0, 6) as u32, self.d.some_rule());
        if !self.ideal.agreed.is_empty() {
            let mut change = self.d.random.pick(&self.ideal.agreed);
            if !self.d.random.once_in(12) {
                // One that is due now: a stray that holds a higher number is out of the game until then.
                let due = self.ideal.unmade().find(|due| due.switch == change.switch).copied();
                change = due.unwrap_or(change);
            }
            let other = self.d.random.pick(&self.ideal.agreed);
            let last = self.d.script.switch(change.switch).last;
            (switch, number) = (change.switch, change.number);
            let ahead = last.saturating_add(self.d.random.pick(&[1, 1, 1, 2, 3]));
            match self.d.random.below(60) {
                0..=19 => rule = change.rule,
                20..=26 => rule = other.rule,
                27 => (number, rule) = (other.number, change.rule),
                28..=34 => (number, rule) = (ahead, change.rule),
                35..=40 => number = ahead,
                41..=43 => number = self.d.random.pick(&[0, 1, last]),
                44 => number = self.d.random.pick(&[1000, u32::MAX]),
                45..=49 => rule = books::ill_formed(&mut self.d.random),
                _ => {}
            }
            let state = self.d.script.switch(switch);
            if state.table.count == 64 && self.d.random.once_in(4) {
                (number, rule) = (ahead, body::rule(0xFE00_0000, 7, 1));
            }
            // A number that a rule-keeping controller's share is held for, which this one may complete.
            let held =
                self.keeps.iter().map(|&c| self.d.script.switch(switch).slots[c as usize]).find(|s| s.number > last);
            if let Some(slot) = held.filter(|_| self.d.random.once_in(3)) {
                number = slot.number;
                rule = if self.d.random.once_in(3) { other.rule } else { slot.rule };
            }
        }
        let bytes = self.d.share(controller, switch, number, rule);
        let sent = Sent { to_switch: true, end: switch, bytes };
        self.deliver(&sent);
        // A stray repeats itself, at once or later, and several send the same.
        for other in self.strays.clone() {
            if self.d.random.once_in(2) {
                let bytes = self.d.share(other, switch, number, rule);
                self.deliver(&Sent { to_switch: true, end: switch, bytes });
            }
        }
        if self.d.random.once_in(2) {
            self.deliver(&sent);
        } else if self.d.random.once_in(3) {
            self.pool.push(sent);
        }
    }

    fn step(&mut self) {
        let switch = self.switch();
        match self.d.random.below(24) {
            0 => {
                let cause = self.d.random.byte() % 4;
                self.call(b'R', switch, &[cause]);
            }
            1 => {
                let receiver = self.d.some_controller();
                let sent = self.write(b'E', switch, receiver);
                self.post(sent);
            }
            2 | 3 => {
                let controller = self.keeper();
                self.decide(controller);
            }
            4..=8 => {
                let controller = self.keeper();
                let sent = self.write(b'w', controller, switch);
                self.post(sent);
            }
            9..=11 => {
                let receiver = self.keeper();
                let sent = self.write(b'A', switch, receiver);
                self.post(sent);
            }
            12..=14 => self.stray(),
            15 => {
                let length = self.d.random.pick(&[0, 1, ACKNOWLEDGEMENT, EVENT, SHARE, SHARE + 1, 2 * SHARE]);
                let mut bytes = self.d.random.bytes(length);
                if let Some(kind) = bytes.first_mut() {
                    *kind = self.d.random.pick(&[1, 2, 3, *kind]);
                }
                let (to_switch, end) = (self.d.random.once_in(2), self.d.random.below(16) as u8);
                self.deliver(&Sent { to_switch, end, bytes });
            }
            _ => self.transport(),
        }
        if self.pool.len() > 60 {
            self.pool.remove(0);
        }
    }

    // The end of a run

    /// A full round: acknowledgements, then shares, delivered as they are at that moment or a little later in their
    /// half. Strays and old messages come in between.
    fn round(&mut self) {
        let (switches, keeps) = (self.touched.clone(), self.keeps.clone());
        let later = self.d.random.once_in(3);
        for letter in [b'A', b'w'] {
            let mut half = Vec::new();
            for &switch in &switches {
                for &controller in &keeps {
                    let (end, receiver) = if letter == b'A' { (switch, controller) } else { (controller, switch) };
                    let sent = self.write(letter, end, receiver);
                    match sent {
                        Some(sent) if later => half.push(sent),
                        Some(sent) => self.deliver(&sent),
                        None => {}
                    }
                    if self.d.random.once_in(24) {
                        self.stray();
                    }
                    if self.d.random.once_in(24) {
                        self.transport();
                    }
                }
            }
            self.d.random.shuffle(&mut half);
            for sent in half {
                self.deliver(&sent);
            }
        }
    }

    /// All rule-keeping controllers take the whole list. Where one has no room, rounds make some.
    fn take_all(&mut self) {
        for _ in 0..200 {
            for controller in self.keeps.clone() {
                while self.decide(controller) {}
            }
            let behind = self.keeps.iter().any(|&controller| self.taken[controller as usize] < self.list.len());
            if !behind || self.wrong.is_some() {
                return;
            }
            self.round();
        }
        self.blame("a decision is refused by 24 for ever".to_string());
    }

    fn finish(&mut self) {
        self.take_all();
        let remaining = self.ideal.remaining();
        let mut rounds = 0;
        while self.ideal.remaining() > 0 && rounds < remaining && self.wrong.is_none() {
            self.round();
            rounds += 1;
        }
        if self.ideal.remaining() > 0 {
            self.blame(format!("{} changes remain after {rounds} full rounds", self.ideal.remaining()));
        }
        let met = match rounds {
            0 => "none",
            _ if rounds < remaining => "fewer than changes",
            _ => "as many as changes",
        };
        let tally = &mut self.d.script.tally;
        tally.count("rounds", met);
        tally.count("strays", &self.strays.len().to_string());
        tally.count("run", if self.ideal.agreed.is_empty() { "nothing agreed" } else { "made whole" });
        // Nothing comes after the end: what is late, and what strays say, alters nothing any more.
        for _ in 0..20 {
            self.transport();
            self.stray();
        }
    }
}

/// One run, checked, and compared where there is a program to compare with.
pub fn script(options: &Options, number: u64) -> (Tally, u64, Result<(), String>) {
    let mut run = Run::new(Random::new(options.seed, 4, number), number);
    run.set_up();
    let steps = run.d.random.pick(&[0, 30, 100, 200, 400]);
    for _ in 0..steps {
        run.step();
    }
    run.finish();
    let script = run.d.script;
    let compared = match &options.program {
        Some(drive) => script.compare(drive, "", options.show),
        None if options.show => {
            script.show("");
            Ok(())
        }
        None => Ok(()),
    };
    let calls = script.calls.len() as u64;
    let result = match run.wrong {
        Some(what) => Err(format!("on the Rust side, {what}")),
        None => compared,
    };
    (script.tally, calls, result)
}
