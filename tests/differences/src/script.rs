//! A script of `drive` as it is being written: every call is made on the Rust side at once, so that the next can be
//! aimed, and its line is kept for the comparison.

use crate::body::hex;
use crate::program;
use crate::random::Random;
use crate::tally::Tally;
use reference::controller::Controller;
use reference::drive::{Field, World, BOOK, CONTROLLER, SWITCH, UNWRITTEN};
use reference::flow::Action;
use reference::message::{Fields, SHARE_LENGTH};
use reference::switch::Switch;

/// The longest script that `drive` reads.
pub const LONGEST: usize = 1_048_576;

/// One call of the script and the line the Rust side has for it.
pub struct Call {
    letter: u8,
    end: u8,
    at: usize,
    line: String,
}

pub struct Script {
    world: World,
    pub bytes: Vec<u8>,
    pub calls: Vec<Call>,
    pub tally: Tally,
    /// What the Rust side itself did wrong, such as a refused call that altered a state; the first is kept.
    pub complaint: Option<String>,
    /// A call no longer fitted: nothing more is written down.
    full: bool,
}

/// What a call gave, taken from its line.
pub struct Reply {
    pub call: &'static str,
    pub answer: String,
    pub line: String,
}

impl Reply {
    pub fn is(&self, answer: &str) -> bool {
        self.answer == answer
    }

    /// The frame at the end of the line of a write.
    pub fn frame(&self) -> Vec<u8> {
        let digits = self.line.rsplit(' ').next().unwrap_or("");
        (0..digits.len() / 2)
            .filter_map(|place| u8::from_str_radix(&digits[2 * place..2 * place + 2], 16).ok())
            .collect()
    }
}

/// The name of a call in the tables, and the place of its answer among the words of its line.
fn named(letter: u8) -> Option<(&'static str, usize)> {
    Some(match letter {
        b'S' => ("switch setup", 3),
        b'K' => ("switch keys", 2),
        b'M' => ("switch receive", 3),
        b'R' => ("raise", 3),
        b'I' => ("raise in place", 5),
        b'E' => ("write event", 3),
        b'A' => ("write acknowledgement", 3),
        b'F' => ("write FLOW_MOD", 1),
        b'L' => ("lookup", 4),
        b'T' => ("forward", 3),
        b'Q' => ("quorum", 3),
        b'X' => ("alter switch", 2),
        b'b' => ("read", 3),
        b'f' => ("read first", 4),
        b's' => ("controller setup", 3),
        b'k' => ("controller keys", 2),
        b'm' => ("controller receive", 3),
        b'd' => ("decide", 3),
        b'w' => ("write share", 3),
        b'p' => ("playbook", 2),
        b'x' => ("alter controller", 2),
        _ => return None,
    })
}

fn reply(letter: u8, line: String) -> Reply {
    let words: Vec<&str> = line.split(' ').collect();
    let Some((call, place)) = named(letter).filter(|_| !line.starts_with("unknown")) else {
        return Reply { call: "no call", answer: line.clone(), line };
    };
    let mut answer = words.get(place).unwrap_or(&"").to_string();
    match words.get(place + 1) {
        Some(number) if answer == "refused" => answer = format!("refused {number}"),
        Some(&"offered") => answer = "0 offered".to_string(),
        Some(_) if letter == b'm' && answer == "0" => answer = "0 acknowledged".to_string(),
        _ => {}
    }
    Reply { call, answer, line }
}

/// An end's state, to see what a call made of it.
#[derive(PartialEq)]
enum State {
    Switch(Box<Switch>),
    Controller(Box<Controller>),
}

/// The name of an edge that a call is at, so that the tables tell whether each was met: the last places of tables and
/// of undone changes, the last numbers.
fn edge(before: &State, letter: u8, body: &[u8]) -> Option<String> {
    match (before, letter) {
        (State::Controller(state), b'd') => {
            let [switch, a, b, c, d, cause] = *body.first_chunk::<6>()?;
            let plan = state.playbook.planned_for(switch, cause).len();
            let count = state.undone.count;
            if switch < 16 && u32::from_be_bytes([a, b, c, d]) == u32::MAX {
                return Some("the last serial decided".to_string());
            }
            if u64::from(state.last) + plan as u64 == u64::from(u32::MAX) && plan > 0 {
                return Some("the last numbers given".to_string());
            }
            let told = matches!((count, plan), (32 | 33, 32) | (63 | 64, 1) | (64, 0));
            told.then(|| format!("{count} undone and a plan of {plan}"))
        }
        (State::Switch(state), b'R') => {
            (state.raised.serial == u32::MAX - 1).then(|| "the last serial raised".to_string())
        }
        (State::Switch(state), b'M') => {
            let mut fields = Fields::new(body.get(3..).filter(|_| body.len() == SHARE_LENGTH)?);
            let (number, rule) = (fields.long(), fields.rule());
            if number == u32::MAX {
                return Some("a share with the last number".to_string());
            }
            let count = state.table.count;
            let used = state.table.entries.get(..count)?;
            let there = used.iter().any(|entry| entry.prefix == rule.prefix && entry.length == rule.length);
            let kind = match (rule.action == Action::Remove, there) {
                (true, true) => "a removal",
                (true, false) => "a removal of none",
                (false, true) => "one of them",
                (false, false) => "a new one",
            };
            matches!(count, 63 | 64).then(|| format!("{count} entries and {kind}"))
        }
        _ => None,
    }
}

impl Script {
    pub fn new() -> Script {
        Script {
            world: World::new(),
            bytes: Vec::new(),
            calls: Vec::new(),
            tally: Tally::default(),
            complaint: None,
            full: false,
        }
    }

    pub fn switch(&self, id: u8) -> &Switch {
        &self.world.switches[id as usize]
    }

    pub fn controller(&self, id: u8) -> &Controller {
        &self.world.controllers[id as usize]
    }

    pub fn switch_store(&self, id: u8) -> &[u8] {
        &self.world.switch_keys[id as usize]
    }

    pub fn controller_store(&self, id: u8) -> &[u8] {
        &self.world.controller_keys[id as usize]
    }

    pub fn complain(&mut self, what: String) {
        if self.complaint.is_none() {
            self.complaint = Some(format!("call {}: {what}", self.calls.len()));
        }
    }

    /// Makes one call on the Rust side and writes it down. Once a call doesn't fit, calls are made and not written
    /// down: the script stays a true beginning.
    pub fn call(&mut self, letter: u8, end: u8, body: &[u8]) -> Reply {
        let before = self.state(letter, end);
        let line = self.world.call(letter, end, body);
        self.full |= self.bytes.len() + 4 + body.len() > LONGEST;
        if !self.full {
            self.calls.push(Call { letter, end, at: self.bytes.len(), line: line.clone() });
            self.bytes.extend([letter, end]);
            self.bytes.extend((body.len() as u16).to_be_bytes());
            self.bytes.extend(body);
        }
        let reply = reply(letter, line);
        if let Some(name) = before.as_ref().and_then(|before| edge(before, letter, body)) {
            self.tally.count(&name, &reply.answer);
        }
        if letter == b'M' && reply.is("1") {
            let n = self.switch(end).n;
            self.tally.count("applied with n", &n.to_string());
        }
        self.look_at(letter, end, &reply, before);
        let number = if letter == b'X' {
            Field::altered(SWITCH, body).map(|field| field.number)
        } else {
            let field = Field::altered(CONTROLLER, body).map(|field| field.number);
            field.or(Field::altered(BOOK, body).map(|field| field.number))
        };
        let field = number.map_or("no field".to_string(), |number| format!("field {number}"));
        let counted = match letter {
            b'K' | b'k' | b'p' if end < 16 => "made",
            b'X' | b'x' if end < 16 => &field,
            b'Q' if end < 16 && body.first() > Some(&16) => "beyond",
            _ => &reply.answer,
        };
        self.tally.count(reply.call, counted);
        reply
    }

    fn state(&self, letter: u8, end: u8) -> Option<State> {
        let end = (end < 16).then_some(end)?;
        named(letter)?;
        Some(if letter.is_ascii_uppercase() {
            State::Switch(Box::new(self.switch(end).clone()))
        } else {
            State::Controller(Box::new(self.controller(end).clone()))
        })
    }

    /// Document 01 of every call: refused or a repeat, the state is as it went in; a refused write leaves the frame.
    /// Writing and looking alter no state.
    fn look_at(&mut self, letter: u8, end: u8, reply: &Reply, before: Option<State>) {
        let Some(before) = before else { return };
        let answered = reply.answer.split(' ').next().unwrap_or("");
        let stays = match letter {
            b'M' | b'R' | b'I' | b'd' => answered != "0" && answered != "1",
            b'm' => answered != "0" || reply.answer == "0 offered",
            b'E' | b'A' | b'w' | b'F' | b'L' | b'T' | b'Q' | b'p' | b'K' | b'k' | b'b' | b'f' => true,
            _ => false,
        };
        if stays && self.state(letter, end) != Some(before) {
            self.complain(format!("{} answered {} and altered the state", reply.call, reply.answer));
        }
        let writes = matches!(letter, b'E' | b'A' | b'w' | b'F');
        if writes && answered != "0" && reply.frame().iter().any(|byte| *byte != UNWRITTEN) {
            self.complain(format!("{} answered {} and altered the frame", reply.call, reply.answer));
        }
    }

    /// Cuts the last call somewhere.
    pub fn cut(&mut self, random: &mut Random) {
        if let Some(call) = self.calls.pop() {
            let length = self.bytes.len() - call.at;
            self.bytes.truncate(call.at + random.between(1, length - 1));
        }
    }

    /// A call in words, with its body in hexadecimal.
    fn words(&self, call: &Call) -> String {
        let length = u16::from_be_bytes([self.bytes[call.at + 2], self.bytes[call.at + 3]]) as usize;
        let body = hex(&self.bytes[call.at + 4..call.at + 4 + length]);
        let name = named(call.letter).map_or("unknown letter", |(name, _)| name);
        format!("{} ({}) at {}, body {body}", name, call.letter.escape_ascii(), call.end)
    }

    /// The lines of the Rust side for the script as it stands.
    pub fn lines(&self) -> String {
        self.calls.iter().map(|call| call.line.clone() + "\n").collect()
    }

    /// What the program prints for the script, held against the Rust side's lines; `ending` is what a script that was
    /// cut or is too long has after them.
    pub fn compare(&self, drive: &str, ending: &str, show: bool) -> Result<(), String> {
        let printed = program::printed(drive, &self.bytes)?;
        let expected = self.lines() + ending;
        if show {
            self.show(&String::from_utf8_lossy(&printed));
        }
        if printed == expected.as_bytes() {
            return Ok(());
        }
        let printed = String::from_utf8_lossy(&printed);
        Err(first_difference(&expected, &printed, |place| {
            self.calls.get(place).map_or("the end of the script".to_string(), |call| self.words(call))
        }))
    }

    /// Every call in words with both sides' lines.
    pub fn show(&self, printed: &str) {
        let mut printed = printed.lines();
        for (place, call) in self.calls.iter().enumerate() {
            println!("{place}: {}\n  rust  {}", self.words(call), call.line);
            if let Some(line) = printed.next() {
                println!("  drive {line}");
            }
        }
        for line in printed {
            println!("  drive {line}");
        }
    }
}

/// The first line in which two outputs differ, with the call that it belongs to.
pub fn first_difference(expected: &str, printed: &str, call: impl Fn(usize) -> String) -> String {
    let mut rust = expected.lines();
    let mut other = printed.lines();
    for place in 0.. {
        match (rust.next(), other.next()) {
            (None, None) => break,
            (left, right) if left == right => {}
            (left, right) => {
                let (left, right) = (left.unwrap_or("(no line)"), right.unwrap_or("(no line)"));
                return format!("call {place}: {}\n    rust:    {left}\n    program: {right}", call(place));
            }
        }
    }
    "the same lines, otherwise ended".to_string()
}
