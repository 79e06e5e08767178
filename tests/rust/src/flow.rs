//! Rules, flow tables, their limits, applying a rule, and lookup (document 01, "Bytes").

/// How many entries a table has at most.
pub const ENTRIES: usize = 64;
/// The longest prefix length.
pub const LONGEST: u8 = 32;

/// What a rule does with the entry of its prefix and length.
#[derive(Clone, Copy, Debug, Default, PartialEq, Eq)]
pub enum Action {
    #[default]
    Remove,
    Set(u16),
}

/// A rule: which entry, and what becomes of it.
#[derive(Clone, Copy, Debug, Default, PartialEq, Eq)]
pub struct Rule {
    pub prefix: u32,
    pub length: u8,
    pub action: Action,
}

/// An entry of a flow table.
#[derive(Clone, Copy, Debug, Default, PartialEq, Eq)]
pub struct Entry {
    pub prefix: u32,
    pub length: u8,
    pub port: u16,
}

/// A flow table: the first `count` places are in use.
#[derive(Clone, Debug, PartialEq, Eq)]
pub struct Table {
    pub count: usize,
    pub entries: [Entry; ENTRIES],
}

/// The bits of a prefix that a length leaves; none past 32 are known, so a longer length leaves all.
const fn mask(length: u8) -> u32 {
    match length {
        0 => 0,
        1..=31 => u32::MAX << (LONGEST - length),
        _ => u32::MAX,
    }
}

/// Is the length at most 32, and is every prefix bit past it zero?
const fn well_formed_pair(prefix: u32, length: u8) -> bool {
    length <= LONGEST && prefix & !mask(length) == 0
}

impl Action {
    /// The action that a port stands for in bytes: 0 removes.
    pub const fn of_port(port: u16) -> Action {
        match port {
            0 => Action::Remove,
            _ => Action::Set(port),
        }
    }

    /// The port that stands for the action in bytes.
    pub const fn port(self) -> u16 {
        match self {
            Action::Remove => 0,
            Action::Set(port) => port,
        }
    }
}

impl Rule {
    /// The rule with every field zero; zero removes.
    pub const ZERO: Rule = Rule { prefix: 0, length: 0, action: Action::Remove };

    /// Question 15. `Set(0)`, which no bytes stand for, is not well formed.
    pub fn well_formed(&self) -> bool {
        well_formed_pair(self.prefix, self.length) && self.action != Action::Set(0)
    }

    /// The bits that an address has in common with the prefix where the rule's entry matches it.
    pub const fn mask(&self) -> u32 {
        mask(self.length)
    }
}

impl Entry {
    /// An unused place.
    pub const ZERO: Entry = Entry { prefix: 0, length: 0, port: 0 };

    /// Is the entry well formed with a port above 0?
    fn well_formed(&self) -> bool {
        well_formed_pair(self.prefix, self.length) && self.port > 0
    }

    /// Prefix and length as one number that orders entries by rising prefix, then length.
    const fn rank(&self) -> u64 {
        rank(self.prefix, self.length)
    }

    /// Do the first `length` bits of the address equal the prefix's? A length above 32, which only a damaged table has,
    /// asks for all 32.
    const fn matches(&self, address: u32) -> bool {
        (self.prefix ^ address) & mask(self.length) == 0
    }
}

/// A prefix and length as one number, in the order of tables.
pub const fn rank(prefix: u32, length: u8) -> u64 {
    (prefix as u64) << 8 | length as u64
}

impl Table {
    /// The empty table.
    pub const EMPTY: Table = Table { count: 0, entries: [Entry::ZERO; ENTRIES] };

    /// The places in use, all of them where the count is past the last.
    pub fn used(&self) -> &[Entry] {
        &self.entries[..self.count.min(ENTRIES)]
    }

    /// Does the table obey its limits: at most 64 entries, each well formed, rising, and zero in the unused places?
    pub fn obeys_limits(&self) -> bool {
        if self.count > ENTRIES {
            return false;
        }
        let (used, unused) = self.entries.split_at(self.count);
        used.iter().all(Entry::well_formed)
            && used.windows(2).all(|pair| pair[0].rank() < pair[1].rank())
            && unused.iter().all(|entry| *entry == Entry::ZERO)
    }

    /// Question 19: a removal, or its entry present, or under 64 entries?
    pub fn has_room(&self, rule: &Rule) -> bool {
        rule.action == Action::Remove || self.count < ENTRIES || self.find(rule).is_ok()
    }

    /// Carries out a rule. A new entry that has no room is left out; question 19 is asked before.
    pub fn apply(&mut self, rule: &Rule) {
        match (rule.action, self.find(rule)) {
            (Action::Remove, Ok(place)) => self.take_out(place),
            (Action::Remove, Err(_)) => {}
            (Action::Set(port), Ok(place)) => self.entries[place].port = port,
            (Action::Set(port), Err(place)) => {
                self.put_in(place, Entry { prefix: rule.prefix, length: rule.length, port })
            }
        }
    }

    /// The port of the longest matching entry among the first `count` places, the earlier of equals; total.
    pub fn lookup(&self, address: u32) -> Option<u16> {
        let mut best: Option<&Entry> = None;
        for entry in self.used() {
            if entry.matches(address) && best.is_none_or(|found| entry.length > found.length) {
                best = Some(entry);
            }
        }
        best.map(|entry| entry.port)
    }

    /// The place of the rule's entry, or the place where it would go.
    fn find(&self, rule: &Rule) -> Result<usize, usize> {
        let sought = rank(rule.prefix, rule.length);
        self.used().binary_search_by(|entry| entry.rank().cmp(&sought))
    }

    /// Closes the gap of a used place and zeroes the last.
    fn take_out(&mut self, place: usize) {
        let count = self.count.min(ENTRIES);
        self.entries.copy_within(place + 1..count, place);
        self.entries[count - 1] = Entry::ZERO;
        self.count = count - 1;
    }

    /// Makes a gap at a place and puts the entry there.
    fn put_in(&mut self, place: usize, entry: Entry) {
        if self.count < ENTRIES {
            self.entries.copy_within(place..self.count, place + 1);
            self.entries[place] = entry;
            self.count += 1;
        }
    }
}

impl Default for Table {
    fn default() -> Table {
        Table::EMPTY
    }
}
