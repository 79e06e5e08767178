//! The agreed changes and the ideal controller (document 01, "Controller end"). Its tables are of a kind of their own,
//! so that it is a second opinion on what the ends do.

use crate::flow::{Action, Entry, Rule, Table};
use crate::message::is_switch;
use crate::playbook::Playbook;
use crate::ENDS;
use std::array;
use std::collections::{BTreeMap, BTreeSet};

/// A decision of the agreed list.
#[derive(Clone, Copy, Debug, PartialEq, Eq)]
pub struct Decision {
    pub switch: u8,
    pub serial: u32,
    pub cause: u8,
}

/// An agreed change; `first` is its decision's first number.
#[derive(Clone, Copy, Debug, PartialEq, Eq)]
pub struct Agreed {
    pub number: u32,
    pub first: u32,
    pub flow: u8,
    pub switch: u8,
    pub rule: Rule,
}

/// Why the ideal controller refuses a number.
#[derive(Clone, Copy, Debug, PartialEq, Eq)]
pub enum Refusal {
    /// No agreed change has it.
    Unknown,
    /// It was made already.
    Made,
    /// This lower one is unmade on the same switch, or in the same decision and flow.
    Skips(u32),
}

/// The ideal controller.
#[derive(Clone, Debug, PartialEq, Eq)]
pub struct Ideal {
    /// The agreed changes, by rising number.
    pub agreed: Vec<Agreed>,
    /// The numbers made.
    pub made: BTreeSet<u32>,
    /// A table for each switch: the port of each prefix with its length.
    pub tables: [BTreeMap<(u32, u8), u16>; ENDS],
}

/// The agreed changes along an agreed list. A decision that passes questions 12, 22 and 23 gives its plan's changes the
/// next numbers; others have none.
pub fn agreed(book: &Playbook, decisions: &[Decision]) -> Vec<Agreed> {
    let mut changes = Vec::new();
    let mut serials = [0; ENDS];
    let mut last = 0u64;
    for decision in decisions {
        let plan = plan_of(book, decision);
        let count = plan.len() as u64;
        let known = is_switch(decision.switch);
        if !known || decision.serial <= serials[decision.switch as usize] || last + count > u64::from(u32::MAX) {
            continue;
        }
        serials[decision.switch as usize] = decision.serial;
        for (number, change) in (last + 1..).zip(plan) {
            let (number, first) = (number as u32, (last + 1) as u32);
            changes.push(Agreed { number, first, flow: change.flow, switch: change.switch, rule: change.rule });
        }
        last += count;
    }
    changes
}

/// The changes listed for a decision.
fn plan_of<'a>(book: &'a Playbook, decision: &Decision) -> &'a [crate::playbook::Change] {
    book.planned_for(decision.switch, decision.cause)
}

impl Ideal {
    /// An ideal controller with nothing made and empty tables.
    pub fn new(agreed: Vec<Agreed>) -> Ideal {
        Ideal { agreed, made: BTreeSet::new(), tables: array::from_fn(|_| BTreeMap::new()) }
    }

    /// Makes the agreed change of a number, or refuses it.
    pub fn feed(&mut self, number: u32) -> Result<(), Refusal> {
        let change = *self.agreed.iter().find(|change| change.number == number).ok_or(Refusal::Unknown)?;
        if self.made.contains(&number) {
            return Err(Refusal::Made);
        }
        if let Some(skipped) = self.agreed.iter().find(|lower| self.waits_for(&change, lower)) {
            return Err(Refusal::Skips(skipped.number));
        }
        self.made.insert(number);
        self.carry_out(&change);
        Ok(())
    }

    /// How many agreed changes are unmade.
    pub fn remaining(&self) -> usize {
        self.unmade().count()
    }

    /// The agreed changes that are unmade, by rising number.
    pub fn unmade(&self) -> impl Iterator<Item = &Agreed> {
        self.agreed.iter().filter(|change| !self.made.contains(&change.number))
    }

    /// The highest number made on a switch, or 0.
    pub fn last_made(&self, switch: u8) -> u32 {
        let here = self.agreed.iter().filter(|change| change.switch == switch && self.made.contains(&change.number));
        here.map(|change| change.number).max().unwrap_or(0)
    }

    /// Is this flow table the ideal one of a switch?
    pub fn table_equals(&self, switch: u8, table: &Table) -> bool {
        let Some(ideal) = self.tables.get(switch as usize) else { return false };
        let entries = ideal.iter().map(|(&(prefix, length), &port)| Entry { prefix, length, port });
        table.count == ideal.len() && entries.eq(table.used().iter().copied())
    }

    /// Is `lower` an unmade lower change that the change may not pass?
    fn waits_for(&self, change: &Agreed, lower: &Agreed) -> bool {
        let bound = lower.switch == change.switch || (lower.first == change.first && lower.flow == change.flow);
        lower.number < change.number && bound && !self.made.contains(&lower.number)
    }

    /// Carries out a change's rule on its switch's table.
    fn carry_out(&mut self, change: &Agreed) {
        let Rule { prefix, length, action } = change.rule;
        let Some(table) = self.tables.get_mut(change.switch as usize) else { return };
        match action {
            Action::Remove => table.remove(&(prefix, length)),
            Action::Set(port) => table.insert((prefix, length), port),
        };
    }
}
