//! The rehearsal program (document 01, "Rehearsal program"): what it prints for an input, and the FLOW_MODs of what a
//! switch applied (document 02, N1).

use crate::controller::Controller;
use crate::flow::Rule;
use crate::message::{is_switch, Fields, Kind, Message, ACKNOWLEDGEMENT_LENGTH, KEY_LENGTH, SHARE_LENGTH};
use crate::openflow::{flow_mod_length, write_flow_mod};
use crate::playbook::{self, Playbook};
use crate::switch::Switch;
use crate::{ask, Question, APPLIED, DONE, ENDS};
use std::fmt::Write;

/// How many bytes a script has at most.
pub const SCRIPT: usize = 8192;
/// How many places there are for kept shares.
pub const PLACES: usize = 64;

/// What a record answers, and its figure.
type Line = (u8, u32);

/// What the program prints for its standard input, whole.
pub fn rehearse(input: &[u8]) -> String {
    match begin(input) {
        Ok((mut world, script)) => world.play(script),
        Err(fault) => format!("0 {fault} 0\n"),
    }
}

/// A rule that a switch applied, and its change's number.
#[derive(Clone, Copy, Debug, PartialEq, Eq)]
pub struct Applied {
    pub switch: u8,
    pub number: u32,
    pub rule: Rule,
}

/// What the switches of a rehearsal applied, in order, or the fault before its script.
pub fn applied(input: &[u8]) -> Result<Vec<Applied>, u8> {
    let (mut world, script) = begin(input)?;
    world.play(script);
    Ok(world.applied)
}

/// The FLOW_MODs of what a switch applied in a rehearsal, one behind the other. A switch above 15 is refused first, then
/// what the rehearsal refuses before its script.
pub fn flow_mods(switch: u8, input: &[u8]) -> Result<Vec<u8>, u8> {
    ask(Question::Known, is_switch(switch)).map_err(Question::number)?;
    let mut bytes = Vec::new();
    for Applied { number, rule, .. } in applied(input)?.iter().filter(|applied| applied.switch == switch) {
        let at = bytes.len();
        bytes.resize(at + flow_mod_length(rule), 0);
        write_flow_mod(*number, rule, &mut bytes, at);
    }
    Ok(bytes)
}

/// What the program `flowmods` gives for its standard input: a byte for the switch, then a rehearsal's input.
pub fn flow_mods_of(input: &[u8]) -> Result<Vec<u8>, u8> {
    let (&switch, rehearsal) = input.split_first().ok_or(Question::Whole.number())?;
    flow_mods(switch, rehearsal)
}

/// The faults before the script, in order: no first byte, n, the playbook's refusal, script too long.
fn begin(input: &[u8]) -> Result<(World, &[u8]), u8> {
    let (&n, rest) = input.split_first().ok_or(Question::Whole.number())?;
    if !(1..=ENDS).contains(&(n as usize)) {
        return Err(Question::Limits.number());
    }
    let (answer, used, book) = playbook::read_first(rest);
    if answer != DONE {
        return Err(answer);
    }
    let script = &rest[used..];
    ask(Question::ScriptLength, script.len() <= SCRIPT).map_err(Question::number)?;
    Ok((World::setup(n, &book), script))
}

/// The kinds of a script's records, by their first bytes.
pub const DECIDE: u8 = 0x21;
pub const SEND: u8 = 0x22;
pub const REPORT: u8 = 0x23;
pub const RAW: u8 = 0x24;
pub const KEEP: u8 = 0x25;
pub const DELIVER: u8 = 0x26;

/// Each kind with its name and the length of its records.
pub const KINDS: [(u8, &str, usize); 6] = [
    (DECIDE, "decide", 8),
    (SEND, "send", 3),
    (REPORT, "report", 3),
    (RAW, "raw", 2 + SHARE_LENGTH),
    (KEEP, "keep", 4),
    (DELIVER, "deliver", 2),
];

/// A record of the script.
enum Record<'a> {
    Decide { controller: u8, switch: u8, serial: u32, cause: u8 },
    Send { controller: u8, switch: u8 },
    Report { switch: u8, controller: u8 },
    Raw { switch: u8, share: &'a [u8] },
    Keep { controller: u8, switch: u8, place: u8 },
    Deliver { place: u8 },
}

impl<'a> Record<'a> {
    /// Takes the first record off a script that has a byte left: questions 31 and 30.
    fn take(script: &mut &'a [u8]) -> Result<Record<'a>, Question> {
        let kind = *script.first().ok_or(Question::Whole)?;
        let length = Record::length(kind).ok_or(Question::KindKnown)?;
        let (record, rest) = script.split_at_checked(length).ok_or(Question::Whole)?;
        *script = rest;
        let mut fields = Fields::new(&record[1..]);
        Ok(match kind {
            DECIDE => Record::Decide {
                controller: fields.byte(),
                switch: fields.byte(),
                serial: fields.long(),
                cause: fields.byte(),
            },
            SEND => Record::Send { controller: fields.byte(), switch: fields.byte() },
            REPORT => Record::Report { switch: fields.byte(), controller: fields.byte() },
            RAW => Record::Raw { switch: fields.byte(), share: &record[2..] },
            KEEP => Record::Keep { controller: fields.byte(), switch: fields.byte(), place: fields.byte() },
            _ => Record::Deliver { place: fields.byte() },
        })
    }

    /// The length of a kind of record, for the kinds that are known.
    fn length(kind: u8) -> Option<usize> {
        KINDS.iter().find(|(known, _, _)| *known == kind).map(|(_, _, length)| *length)
    }
}

/// A share that was kept, and the switch it is for.
#[derive(Clone, Copy)]
struct Kept {
    switch: u8,
    share: [u8; SHARE_LENGTH],
}

/// The ends of a rehearsal, their key stores, the places, and what was applied.
struct World {
    switches: Vec<Switch>,
    controllers: Vec<Controller>,
    switch_keys: Vec<Vec<u8>>,
    controller_keys: Vec<Vec<u8>>,
    kept: [Option<Kept>; PLACES],
    applied: Vec<Applied>,
}

impl World {
    /// All ends set up with the same n and playbook.
    fn setup(n: u8, book: &Playbook) -> World {
        let switch_keys = |switch: u8| (0..n).flat_map(|controller| key(controller, switch)).collect();
        let controller_keys = |controller: u8| switches().flat_map(|switch| key(controller, switch)).collect();
        World {
            switches: switches().map(|id| Switch::setup(id, n).1).collect(),
            controllers: (0..n).map(|id| Controller::setup(id, n, book.clone()).1).collect(),
            switch_keys: switches().map(switch_keys).collect(),
            controller_keys: (0..n).map(controller_keys).collect(),
            kept: [None; PLACES],
            applied: Vec::new(),
        }
    }

    /// Plays a script: a line for each record. An unknown kind or a cut record stops it, with a line of its own.
    fn play(&mut self, mut script: &[u8]) -> String {
        let mut printed = String::new();
        let mut ordinal = 0;
        while !script.is_empty() {
            ordinal += 1;
            let (answer, figure) = match Record::take(&mut script) {
                Ok(record) => self.perform(record).unwrap_or_else(without_figure),
                Err(question) => {
                    script = &[];
                    without_figure(question)
                }
            };
            let _ = writeln!(printed, "{ordinal} {answer} {figure}");
        }
        printed
    }

    /// What a record gives; a question about the record's own ids and place has no figure.
    fn perform(&mut self, record: Record) -> Result<Line, Question> {
        match record {
            Record::Decide { controller, switch, serial, cause } => self.decide(controller, switch, serial, cause),
            Record::Send { controller, switch } => self.send(controller, switch),
            Record::Report { switch, controller } => self.report(switch, controller),
            Record::Raw { switch, share } => self.raw(switch, share),
            Record::Keep { controller, switch, place } => self.keep(controller, switch, place),
            Record::Deliver { place } => self.deliver(place),
        }
    }

    fn decide(&mut self, controller: u8, switch: u8, serial: u32, cause: u8) -> Result<Line, Question> {
        self.ask_ids(controller, switch)?;
        let answer = self.controllers[controller as usize].decide(switch, serial, cause);
        Ok((answer, self.undone(controller)))
    }

    fn send(&mut self, controller: u8, switch: u8) -> Result<Line, Question> {
        self.ask_ids(controller, switch)?;
        let (answer, share) = self.make_share(controller, switch);
        if answer != DONE {
            return Ok((answer, self.last_applied(switch)));
        }
        Ok(self.hand_over(switch, &share))
    }

    fn report(&mut self, switch: u8, controller: u8) -> Result<Line, Question> {
        self.ask_ids(controller, switch)?;
        let (from, to) = (switch as usize, controller as usize);
        let mut frame = [0; ACKNOWLEDGEMENT_LENGTH];
        let mut answer = self.switches[from].write_acknowledgement(&self.switch_keys[from], controller, &mut frame, 0);
        if answer == DONE {
            (answer, _) = self.controllers[to].receive(&self.controller_keys[to], &frame);
        }
        Ok((answer, self.undone(controller)))
    }

    fn raw(&mut self, switch: u8, share: &[u8]) -> Result<Line, Question> {
        ask(Question::Known, is_switch(switch))?;
        Ok(self.hand_over(switch, share))
    }

    fn keep(&mut self, controller: u8, switch: u8, place: u8) -> Result<Line, Question> {
        self.ask_ids(controller, switch)?;
        ask(Question::Place, (place as usize) < PLACES)?;
        let (answer, share) = self.make_share(controller, switch);
        if answer == DONE {
            self.kept[place as usize] = Some(Kept { switch, share });
        }
        Ok((answer, self.last_applied(switch)))
    }

    fn deliver(&mut self, place: u8) -> Result<Line, Question> {
        let kept = self.kept.get(place as usize).ok_or(Question::Place)?;
        let Kept { switch, share } = kept.ok_or(Question::Present)?;
        Ok(self.hand_over(switch, &share))
    }

    /// Are both ids in the domain?
    fn ask_ids(&self, controller: u8, switch: u8) -> Result<(), Question> {
        ask(Question::Known, (controller as usize) < self.controllers.len() && is_switch(switch))
    }

    /// A controller's current share for a switch.
    fn make_share(&self, controller: u8, switch: u8) -> (u8, [u8; SHARE_LENGTH]) {
        let from = controller as usize;
        let mut frame = [0; SHARE_LENGTH];
        let answer = self.controllers[from].write_share(&self.controller_keys[from], switch, &mut frame, 0);
        (answer, frame)
    }

    /// Delivers a share: the switch's answer, and its last applied number.
    fn hand_over(&mut self, switch: u8, share: &[u8]) -> Line {
        let to = switch as usize;
        let answer = self.switches[to].receive(&self.switch_keys[to], share);
        if answer == APPLIED {
            self.note_applied(switch, share);
        }
        (answer, self.last_applied(switch))
    }

    /// Notes what an applied share carries.
    fn note_applied(&mut self, switch: u8, share: &[u8]) {
        if let Ok(Message::Share { number, rule, .. }) = Message::read(share, &[Kind::Share]) {
            self.applied.push(Applied { switch, number, rule });
        }
    }

    fn last_applied(&self, switch: u8) -> u32 {
        self.switches[switch as usize].last
    }

    fn undone(&self, controller: u8) -> u32 {
        self.controllers[controller as usize].undone.used().len() as u32
    }
}

/// The ids of the switches.
fn switches() -> std::ops::Range<u8> {
    0..ENDS as u8
}

/// The key of a controller and a switch in a rehearsal.
fn key(controller: u8, switch: u8) -> [u8; KEY_LENGTH] {
    let mut key = [0; KEY_LENGTH];
    key[..2].copy_from_slice(&[controller, switch]);
    key
}

/// A refused record's line.
fn without_figure(question: Question) -> Line {
    (question.number(), 0)
}
