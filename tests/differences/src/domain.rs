//! A domain that a script plays in: its n, the keys of its pairs, the few switches and rules it keeps to, the
//! messages on their way. It sets ends up, and sets them up again once a damaged state has served its purpose.

use crate::body::{acknowledgement, event, share};
use crate::books::{encoded, Few};
use crate::random::Random;
use crate::script::{Reply, Script};
use reference::flow::Rule;

/// A message on its way to a switch or a controller.
#[derive(Clone)]
pub struct Sent {
    pub to_switch: bool,
    pub end: u8,
    pub bytes: Vec<u8>,
}

pub struct Domain {
    pub random: Random,
    pub script: Script,
    pub n: u8,
    keys: Vec<Vec<u8>>,
    pub few: Few,
    pub book: Vec<u8>,
    pub pool: Vec<Sent>,
}

impl Domain {
    pub fn new(mut random: Random, script: Script, sizes: &[usize]) -> Domain {
        let n = random.pick(&[1, 1, 2, 3, 4, 4, 4, 5, 6, 7, 7, 8, 9, 10, 11, 12, 13, 14, 15, 16, 16]);
        let few = Few::new(&mut random);
        let book = encoded(&few.book(&mut random, sizes));
        let keys = (0..256).map(|_| random.bytes(32)).collect();
        Domain { random, script, n, keys, few, book, pool: Vec::new() }
    }

    /// The key of a controller and a switch. Ids outside the domain have one too, for messages that nobody should take.
    pub fn key(&self, controller: u8, switch: u8) -> &[u8] {
        &self.keys[16 * (controller as usize % 16) + switch as usize % 16]
    }

    pub fn switch_store(&self, switch: u8) -> Vec<u8> {
        (0..self.n).flat_map(|controller| self.key(controller, switch).to_vec()).collect()
    }

    pub fn controller_store(&self, controller: u8) -> Vec<u8> {
        (0..16).flat_map(|switch| self.key(controller, switch).to_vec()).collect()
    }

    pub fn call(&mut self, letter: u8, end: u8, body: &[u8]) -> Reply {
        self.script.call(letter, end, body)
    }

    pub fn set_up_switch(&mut self, switch: u8) {
        let n = self.n;
        self.call(b'S', switch, &[switch, n]);
        let store = self.switch_store(switch);
        self.call(b'K', switch, &store);
    }

    /// Sets a controller up with the playbook that was read last.
    pub fn set_up_controller(&mut self, controller: u8) {
        let n = self.n;
        self.call(b's', controller, &[controller, n]);
        let store = self.controller_store(controller);
        self.call(b'k', controller, &store);
    }

    pub fn read_book(&mut self) {
        let book = self.book.clone();
        self.call(b'b', 0, &book);
    }

    /// Reads the playbook and sets up the script's switches and all controllers, or a few where there are many.
    pub fn set_up(&mut self) {
        for switch in self.few.switches.clone() {
            self.set_up_switch(switch);
        }
        self.read_book();
        for controller in 0..self.n {
            self.set_up_controller(controller);
        }
    }

    /// Is the state one that calls answer otherwise than with 20?
    pub fn is_good_switch(&self, switch: u8) -> bool {
        self.script.switch(switch).clone().raise(0) != 20
    }

    pub fn is_good_controller(&self, controller: u8) -> bool {
        self.script.controller(controller).clone().decide(16, 0, 0) != 20
    }

    /// Sets up again the ends whose states or stores have become useless, so that a script goes on.
    pub fn mend(&mut self) {
        for switch in self.few.switches.clone() {
            let state = self.script.switch(switch);
            let whole = state.id == switch && state.n == self.n && state.last < u32::MAX - 2;
            if !whole || !self.is_good_switch(switch) {
                self.set_up_switch(switch);
            } else if self.script.switch_store(switch) != self.switch_store(switch) {
                let store = self.switch_store(switch);
                self.call(b'K', switch, &store);
            }
        }
        let mut read = false;
        for controller in 0..self.n {
            let state = self.script.controller(controller);
            let whole = state.id == controller && state.n == self.n && state.last < u32::MAX - 100;
            if !whole || state.playbook.planned == 0 || !self.is_good_controller(controller) {
                if !read {
                    self.read_book();
                    read = true;
                }
                self.set_up_controller(controller);
            } else if self.script.controller_store(controller) != self.controller_store(controller) {
                let store = self.controller_store(controller);
                self.call(b'k', controller, &store);
            }
        }
    }

    pub fn some_switch(&mut self) -> u8 {
        self.few.switch(&mut self.random)
    }

    pub fn some_controller(&mut self) -> u8 {
        self.random.below(self.n as usize) as u8
    }

    pub fn some_rule(&mut self) -> Rule {
        self.few.rule(&mut self.random)
    }

    pub fn share(&self, controller: u8, switch: u8, number: u32, rule: Rule) -> Vec<u8> {
        share(self.key(controller, switch), controller, switch, number, rule)
    }

    pub fn event(&self, switch: u8, controller: u8, serial: u32, cause: u8) -> Vec<u8> {
        event(self.key(controller, switch), switch, controller, serial, cause)
    }

    pub fn acknowledgement(&self, switch: u8, controller: u8, number: u32) -> Vec<u8> {
        acknowledgement(self.key(controller, switch), switch, controller, number)
    }

    pub fn deliver(&mut self, sent: &Sent) -> Reply {
        self.call(if sent.to_switch { b'M' } else { b'm' }, sent.end, &sent.bytes)
    }
}
