//! Playbooks: plans and changes as their reader stores them, the reader, and the limits that question 20 asks.

use crate::flow::{rank, Rule, ENTRIES};
use crate::message::{is_switch, Fields};
use crate::{ask, Question, DONE, ENDS};

/// How many plans a playbook has at most.
pub const PLANS: usize = 64;
/// How many changes a playbook has at most.
pub const CHANGES: usize = 512;
/// How many changes a plan has at most.
pub const PLAN_CHANGES: usize = 32;

/// The first bytes of the records, and the records' lengths.
pub const PLAN_KIND: u8 = 0x11;
pub const CHANGE_KIND: u8 = 0x12;
pub const END_KIND: u8 = 0x13;
const PLAN_LENGTH: usize = 3;
const CHANGE_LENGTH: usize = 10;
const END_LENGTH: usize = 1;

/// A plan: its trigger, the place of its first change, and how many follow. A plan without changes has the place where
/// its first would have gone.
#[derive(Clone, Copy, Debug, Default, PartialEq, Eq)]
pub struct Plan {
    pub switch: u8,
    pub cause: u8,
    pub first: usize,
    pub count: usize,
}

/// A change as a plan lists it.
#[derive(Clone, Copy, Debug, Default, PartialEq, Eq)]
pub struct Change {
    pub flow: u8,
    pub switch: u8,
    pub rule: Rule,
}

/// A playbook: how many plans and changes, and these in listed order.
#[derive(Clone, Debug, PartialEq, Eq)]
pub struct Playbook {
    pub planned: usize,
    pub listed: usize,
    pub plans: [Plan; PLANS],
    pub changes: [Change; CHANGES],
}

impl Plan {
    /// An unused place.
    pub const ZERO: Plan = Plan { switch: 0, cause: 0, first: 0, count: 0 };
}

impl Change {
    /// An unused place.
    pub const ZERO: Change = Change { flow: 0, switch: 0, rule: Rule::ZERO };
}

/// Reads a whole playbook: the answer, and the store, empty where refused.
pub fn read(bytes: &[u8]) -> (u8, Playbook) {
    let (answer, used, book) = read_first(bytes);
    if answer == DONE && used < bytes.len() {
        return (Question::NothingLeft.number(), Playbook::EMPTY);
    }
    (answer, book)
}

/// Reads a playbook up to its end record: the answer, how many bytes were read (0 where refused), and the store.
/// Question 38 is not put.
pub fn read_first(bytes: &[u8]) -> (u8, usize, Playbook) {
    let mut book = Playbook::EMPTY;
    match book.read_records(bytes) {
        Ok(used) => (DONE, used, book),
        Err(question) => (question.number(), 0, Playbook::EMPTY),
    }
}

impl Playbook {
    /// The empty playbook, which is also a refused one's store.
    pub const EMPTY: Playbook =
        Playbook { planned: 0, listed: 0, plans: [Plan::ZERO; PLANS], changes: [Change::ZERO; CHANGES] };

    /// The plans in use, all of them where the count is past the last.
    pub fn used_plans(&self) -> &[Plan] {
        &self.plans[..self.planned.min(PLANS)]
    }

    /// The changes of the plan with this trigger, none where there is no such plan.
    pub fn planned_for(&self, switch: u8, cause: u8) -> &[Change] {
        let plan = self.used_plans().iter().find(|plan| plan.switch == switch && plan.cause == cause);
        plan.and_then(|plan| self.changes.get(plan.first..plan.first.checked_add(plan.count)?)).unwrap_or(&[])
    }

    /// Is this a store that the reader gives with answer 0?
    pub fn obeys_limits(&self) -> bool {
        self.planned <= PLANS
            && self.listed <= CHANGES
            && self.plans_obey_limits()
            && self.changes[..self.listed].iter().all(|change| is_switch(change.switch) && change.rule.well_formed())
            && self.changes[self.listed..].iter().all(|change| *change == Change::ZERO)
            && self.pairs_obey_limit()
    }

    /// Reads records into an empty store, up to the end record: how many bytes these have.
    fn read_records(&mut self, bytes: &[u8]) -> Result<usize, Question> {
        let mut pairs = Pairs::new();
        let mut at = 0;
        loop {
            let left = &bytes[at..];
            let kind = *left.first().ok_or(Question::Whole)?;
            let length = record_length(kind).ok_or(Question::KindKnown)?;
            let record = left.get(..length).ok_or(Question::Whole)?;
            at += length;
            let fields = Fields::new(&record[1..]);
            match kind {
                PLAN_KIND => self.take_plan(fields)?,
                CHANGE_KIND => self.take_change(fields, &mut pairs)?,
                _ => return Ok(at),
            }
        }
    }

    /// A plan: questions 12, 35, 36.
    fn take_plan(&mut self, mut fields: Fields) -> Result<(), Question> {
        let plan = Plan { switch: fields.byte(), cause: fields.byte(), first: self.listed, count: 0 };
        ask(Question::Known, is_switch(plan.switch))?;
        let met = |earlier: &Plan| earlier.switch == plan.switch && earlier.cause == plan.cause;
        ask(Question::TriggerNew, !self.used_plans().iter().any(met))?;
        ask(Question::BookLimits, self.planned < PLANS)?;
        self.plans[self.planned] = plan;
        self.planned += 1;
        Ok(())
    }

    /// A change: questions 12, 34, 15, 36, 37.
    fn take_change(&mut self, mut fields: Fields, pairs: &mut Pairs) -> Result<(), Question> {
        let change = Change { flow: fields.byte(), switch: fields.byte(), rule: fields.rule() };
        ask(Question::Known, is_switch(change.switch))?;
        let plan = self.plans[..self.planned].last_mut().ok_or(Question::PlanBefore)?;
        ask(Question::WellFormed, change.rule.well_formed())?;
        ask(Question::BookLimits, self.listed < CHANGES && plan.count < PLAN_CHANGES)?;
        ask(Question::PairLimit, pairs.take(&change))?;
        plan.count += 1;
        self.changes[self.listed] = change;
        self.listed += 1;
        Ok(())
    }

    /// Are the triggers different, the switches known, and do the plans lie one after another over all changes?
    fn plans_obey_limits(&self) -> bool {
        let (used, unused) = self.plans.split_at(self.planned);
        let mut triggers = [0u64; PLANS];
        let mut listed = 0;
        for plan in used {
            if !is_switch(plan.switch) || plan.first != listed || plan.count > PLAN_CHANGES {
                return false;
            }
            let trigger = (plan.switch as usize) << 8 | plan.cause as usize;
            let bit = 1 << (trigger % 64);
            if triggers[trigger / 64] & bit != 0 {
                return false;
            }
            triggers[trigger / 64] |= bit;
            listed += plan.count;
        }
        listed == self.listed && unused.iter().all(|plan| *plan == Plan::ZERO)
    }

    /// Question 37 over the whole store. Where no switch has more than 64 changes there is nothing to compare.
    fn pairs_obey_limit(&self) -> bool {
        let changes = &self.changes[..self.listed];
        let mut counts = [0; ENDS];
        for change in changes {
            counts[change.switch as usize % ENDS] += 1;
        }
        if counts.iter().all(|count| *count <= ENTRIES) {
            return true;
        }
        let mut pairs = Pairs::new();
        changes.iter().all(|change| pairs.take(change))
    }
}

impl Default for Playbook {
    fn default() -> Playbook {
        Playbook::EMPTY
    }
}

/// The length of a kind of record, for the kinds that are known.
fn record_length(kind: u8) -> Option<usize> {
    match kind {
        PLAN_KIND => Some(PLAN_LENGTH),
        CHANGE_KIND => Some(CHANGE_LENGTH),
        END_KIND => Some(END_LENGTH),
        _ => None,
    }
}

/// The different prefixes with lengths met on each switch, at most 64 each.
struct Pairs {
    counts: [usize; ENDS],
    met: [[u64; ENTRIES]; ENDS],
}

impl Pairs {
    fn new() -> Pairs {
        Pairs { counts: [0; ENDS], met: [[0; ENTRIES]; ENDS] }
    }

    /// Takes the change's prefix and length, removals' too; false where it is a 65th on its switch.
    fn take(&mut self, change: &Change) -> bool {
        let place = change.switch as usize % ENDS;
        let (count, met) = (&mut self.counts[place], &mut self.met[place]);
        let pair = rank(change.rule.prefix, change.rule.length);
        if met[..*count].contains(&pair) {
            return true;
        }
        if *count == ENTRIES {
            return false;
        }
        met[*count] = pair;
        *count += 1;
        true
    }
}
