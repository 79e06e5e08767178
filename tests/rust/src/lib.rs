//! Document 01, "Quorum-approved route changes, stated with their exact rules", and change request N1 of document 02 in
//! Rust, written from their text alone. The proved software is compared with it call by call; nothing here knows how
//! that software is built.
//!
//! States are plain data that anybody may damage. Every call over a state asks first whether the state obeys its limits
//! (question 20), and no call panics, whatever it is handed.

#![forbid(unsafe_code)]

pub mod controller;
pub mod drive;
pub mod flow;
pub mod ideal;
pub mod isolation;
pub mod message;
pub mod openflow;
pub mod playbook;
pub mod rehearsal;
pub mod switch;
pub mod tag;

/// Set up, read, raised, taken, held, offered or written.
pub const DONE: u8 = 0;
/// The share completed a quorum and its rule was applied.
pub const APPLIED: u8 = 1;
/// A repeat: nothing changed.
pub const REPEAT: u8 = 2;

/// How many switches a domain has, and how many controllers at most.
pub const ENDS: usize = 16;

/// The questions of document 01. A call whose question is answered no returns the question's number.
#[derive(Clone, Copy, Debug, PartialEq, Eq)]
#[repr(u8)]
pub enum Question {
    /// Is the message's length one expected here?
    Length = 10,
    /// Is its kind the one of that length?
    Kind = 11,
    /// Is the sender, the receiver or the switch known?
    Known = 12,
    /// Is it for this end?
    Addressed = 13,
    /// Does the tag match?
    Tag = 14,
    /// Is the rule well formed?
    WellFormed = 15,
    /// Is the number above the last applied?
    AboveApplied = 16,
    /// Is it at least the number in the sender's slot?
    AtLeastHeld = 17,
    /// If equal, is it the same rule?
    SameRule = 18,
    /// A removal, or its entry present, or under 64 entries?
    Room = 19,
    /// Does the state obey its limits?
    Limits = 20,
    /// Has the key store its length?
    KeyStore = 21,
    /// Is the serial above the last decided?
    AboveDecided = 22,
    /// Are there numbers left for the plan's changes?
    NumbersLeft = 23,
    /// Are the undone changes afterwards at most 64?
    UndoneFit = 24,
    /// Do the bytes fit from the offset?
    Fits = 25,
    /// Is there a ready change, a raised event, a share in the place?
    Present = 26,
    /// Is there a serial left?
    SerialLeft = 27,
    /// Is the script at most 8,192 bytes long?
    ScriptLength = 28,
    /// Is the place at most 63?
    Place = 29,
    /// Is a byte left, is the record whole?
    Whole = 30,
    /// Is the record's kind known?
    KindKnown = 31,
    /// Is there a plan before this change?
    PlanBefore = 34,
    /// Is the trigger new?
    TriggerNew = 35,
    /// Are the playbook's limits obeyed?
    BookLimits = 36,
    /// At most 64 different prefixes with lengths on that switch?
    PairLimit = 37,
    /// Is nothing left after the end record?
    NothingLeft = 38,
}

impl Question {
    /// The number document 01 gives the question.
    pub const fn number(self) -> u8 {
        self as u8
    }
}

/// Puts a question: goes on where the answer is yes.
#[inline(always)]
fn ask(question: Question, yes: bool) -> Result<(), Question> {
    if yes {
        Ok(())
    } else {
        Err(question)
    }
}

/// The number a call answers with.
#[inline(always)]
fn answer(outcome: Result<u8, Question>) -> u8 {
    outcome.unwrap_or_else(Question::number)
}
