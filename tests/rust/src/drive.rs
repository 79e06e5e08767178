//! The program `drive`, whose script tests/DRIVE.md lays out: single calls at any end, and the line each prints.

use crate::controller::{Controller, Undone};
use crate::flow::{Action, Entry, Rule};
use crate::message::Fields;
use crate::openflow::write_flow_mod;
use crate::playbook::{self, Change, Plan, Playbook};
use crate::switch::{quorum, Looked, Raised, Slot, Switch};
use crate::ENDS;
use std::fmt::{self, Display, Formatter};

/// How many bytes a script has at most.
pub const SCRIPT: usize = 1_048_576;
/// How many bytes of a body become a key store at most.
pub const STORE: usize = 544;
/// How many bytes a frame has at most; one for a FLOW_MOD has as many as its call says.
pub const FRAME: usize = 64;
/// What each byte of a frame is before a call.
pub const UNWRITTEN: u8 = 0xEE;

/// The letters of the calls at a switch and at a controller, and the one of a call at no end.
const SWITCH_LETTERS: &[u8] = b"SKMRIEALTQX";
const CONTROLLER_LETTERS: &[u8] = b"bfskmdwpx";
const FLOW_MOD_LETTER: u8 = b'F';

/// The ends, their key stores, and the playbook for the setups that follow.
#[derive(Clone, Debug, PartialEq, Eq)]
pub struct World {
    pub switches: Vec<Switch>,
    pub controllers: Vec<Controller>,
    pub switch_keys: Vec<Vec<u8>>,
    pub controller_keys: Vec<Vec<u8>>,
    pub playbook: Playbook,
}

/// What the program prints for a whole script.
pub fn run(script: &[u8]) -> String {
    if script.len() > SCRIPT {
        return "script too long\n".to_string();
    }
    let mut world = World::new();
    let mut printed = String::new();
    let mut left = script;
    while !left.is_empty() {
        let Some((letter, end, body)) = take_call(&mut left) else {
            printed.push_str("cut call\n");
            break;
        };
        printed.push_str(&world.call(letter, end, body));
        printed.push('\n');
    }
    printed
}

/// Takes the first call off a script: letter, end and body; nothing where it is cut.
fn take_call<'a>(left: &mut &'a [u8]) -> Option<(u8, u8, &'a [u8])> {
    let (&[letter, end, high, low], rest) = left.split_first_chunk::<4>()?;
    let (body, rest) = rest.split_at_checked(u16::from_be_bytes([high, low]) as usize)?;
    *left = rest;
    Some((letter, end, body))
}

impl World {
    /// All ends zero, all stores empty.
    pub fn new() -> World {
        World {
            switches: vec![Switch::ZERO; ENDS],
            controllers: vec![Controller::ZERO; ENDS],
            switch_keys: vec![Vec::new(); ENDS],
            controller_keys: vec![Vec::new(); ENDS],
            playbook: Playbook::EMPTY,
        }
    }

    /// Makes one call and gives its line, without the line feed.
    pub fn call(&mut self, letter: u8, end: u8, body: &[u8]) -> String {
        let (at_switch, at_controller) = (SWITCH_LETTERS.contains(&letter), CONTROLLER_LETTERS.contains(&letter));
        if !at_switch && !at_controller && letter != FLOW_MOD_LETTER {
            return "unknown call".to_string();
        }
        if end as usize >= ENDS {
            return "unknown end".to_string();
        }
        if at_switch {
            format!("switch {end} {}", self.call_switch(letter, end as usize, body))
        } else if at_controller {
            format!("controller {end} {}", self.call_controller(letter, end as usize, body))
        } else {
            flow_mod(Fields::new(body))
        }
    }

    /// The line of a call at a switch, after its number.
    fn call_switch(&mut self, letter: u8, end: usize, body: &[u8]) -> String {
        let (switch, keys) = (&mut self.switches[end], &mut self.switch_keys[end]);
        let mut fields = Fields::new(body);
        match letter {
            b'S' => {
                let (answer, state) = Switch::setup(fields.byte(), fields.byte());
                *switch = state;
                format!("setup {answer} {switch}")
            }
            b'K' => take_keys(keys, body),
            b'M' => format!("received {} {switch}", switch.receive(keys, body)),
            b'R' => format!("raised {} {switch}", switch.raise(fields.byte())),
            b'I' => format!("raised in place {} {switch}", switch.raised.raise(fields.byte())),
            b'E' => written(fields, switch, |to, frame, at| switch.write_event(keys, to, frame, at)),
            b'A' => written(fields, switch, |to, frame, at| switch.write_acknowledgement(keys, to, frame, at)),
            b'L' => looked_up(switch.lookup(fields.long())),
            b'T' => forwarded(switch.table.lookup(fields.long())),
            b'Q' => format!("quorum {}", quorum(fields.byte())),
            _ => {
                alter(SWITCH, switch, body);
                "altered".to_string()
            }
        }
    }

    /// The line of a call at a controller, after its number.
    fn call_controller(&mut self, letter: u8, end: usize, body: &[u8]) -> String {
        let (controller, keys) = (&mut self.controllers[end], &mut self.controller_keys[end]);
        let mut fields = Fields::new(body);
        match letter {
            b'b' => {
                let (answer, book) = playbook::read(body);
                self.playbook = book;
                format!("read {answer} {}", self.playbook)
            }
            b'f' => {
                let (answer, used, book) = playbook::read_first(body);
                self.playbook = book;
                format!("read first {answer} {used} {}", self.playbook)
            }
            b's' => {
                let (answer, state) = Controller::setup(fields.byte(), fields.byte(), self.playbook.clone());
                *controller = state;
                format!("setup {answer} {controller}")
            }
            b'k' => take_keys(keys, body),
            b'm' => received(controller, keys, body),
            b'd' => {
                let (switch, serial, cause) = (fields.byte(), fields.long(), fields.byte());
                format!("decided {} {controller}", controller.decide(switch, serial, cause))
            }
            b'w' => written(fields, controller, |to, frame, at| controller.write_share(keys, to, frame, at)),
            b'p' => format!("holds {}", controller.playbook),
            _ => {
                alter(CONTROLLER, controller, body);
                alter(BOOK, &mut controller.playbook, body);
                "altered".to_string()
            }
        }
    }
}

impl Default for World {
    fn default() -> World {
        World::new()
    }
}

/// Takes the first bytes of a body as a key store.
fn take_keys(keys: &mut Vec<u8>, body: &[u8]) -> String {
    *keys = body[..body.len().min(STORE)].to_vec();
    format!("keys {}", keys.len())
}

/// Makes a writing call with a frame as the body says, and gives its line.
fn written(mut fields: Fields, state: &impl Display, write: impl Fn(u8, &mut [u8], usize) -> u8) -> String {
    let length = FRAME.min(fields.byte() as usize);
    let (to, at) = (fields.byte(), offset(&mut fields));
    let mut frame = [UNWRITTEN; FRAME];
    let answer = write(to, &mut frame[..length], at);
    format!("written {answer} {state} frame {}", hex(&frame))
}

/// Writes a FLOW_MOD into a frame as the body says, and gives its line.
fn flow_mod(mut fields: Fields) -> String {
    let mut frame = vec![UNWRITTEN; fields.byte() as usize];
    let (at, number) = (offset(&mut fields), fields.long());
    let rule = Rule { prefix: fields.long(), length: fields.byte(), action: action_of(fields.number(3)) };
    let (answer, _) = write_flow_mod(number, &rule, &mut frame, at);
    format!("flowmod {answer} {}", hex(&frame))
}

fn offset(fields: &mut Fields) -> usize {
    usize::try_from(fields.wide()).unwrap_or(usize::MAX)
}

/// The bytes of a frame; one without bytes has a dash.
fn hex(frame: &[u8]) -> String {
    if frame.is_empty() {
        return "-".to_string();
    }
    frame.iter().map(|byte| format!("{byte:02x}")).collect()
}

fn looked_up(looked: Looked) -> String {
    match looked {
        Looked::Refused(answer) => format!("looked up refused {answer}"),
        Looked::Nothing => "looked up nothing".to_string(),
        Looked::Port(port) => format!("looked up port {port}"),
    }
}

fn forwarded(port: Option<u16>) -> String {
    match port {
        None => "forwarded nothing".to_string(),
        Some(port) => format!("forwarded port {port}"),
    }
}

fn received(controller: &mut Controller, keys: &[u8], body: &[u8]) -> String {
    match controller.receive(keys, body) {
        (answer, None) => format!("received {answer} {controller}"),
        (answer, Some(event)) => {
            format!("received {answer} offered {} {} {} {controller}", event.switch, event.serial, event.cause)
        }
    }
}

// The fields of a state, as tests/DRIVE.md lays them out: altering, printing and giving back follow from these lists.

/// The numbers of a part of a state, as many as it has.
pub type Values = [u32; 7];

/// What is altered as a whole.
pub trait Part {
    fn values(&self) -> Values;
    fn of(values: &Values) -> Self;
}

/// A field: its name and number, what is printed before it, how many bytes tell its place (none where it stands once),
/// the widths of its numbers in bytes, and how it is got and set. A number of 3 bytes is an action and its port.
pub struct Field<S: 'static> {
    pub name: &'static str,
    pub number: u8,
    shown: &'static str,
    place: usize,
    widths: &'static [usize],
    get: fn(&S, usize) -> Option<Values>,
    set: fn(&mut S, usize, &Values),
}

/// A field that stands once, or at places that so many bytes tell.
macro_rules! field {
    ($name:literal, $number:literal, $shown:literal, $widths:expr, $($part:ident).+) => {
        Field {
            name: $name,
            number: $number,
            shown: $shown,
            place: 0,
            widths: &$widths,
            get: |state, _| Some(state.$($part).+.values()),
            set: |state, _, values| state.$($part).+ = Part::of(values),
        }
    };
    ($name:literal, $number:literal, $shown:literal, $widths:expr, $($part:ident).+, $place:literal) => {
        Field {
            name: $name,
            number: $number,
            shown: $shown,
            place: $place,
            widths: &$widths,
            get: |state, place| state.$($part).+.get(place).map(Part::values),
            set: |state, place, values| {
                if let Some(part) = state.$($part).+.get_mut(place) {
                    *part = Part::of(values);
                }
            },
        }
    };
}

/// The fields of a switch, in the order of the line.
pub const SWITCH: &[Field<Switch>] = &[
    field!("id", 0, "state", [1], id),
    field!("n", 1, "", [1], n),
    field!("last", 2, "", [4], last),
    field!("raised", 3, "", [4, 1], raised),
    field!("count", 6, " count", [1], table.count),
    field!("entry", 5, " entry", [4, 1, 2], table.entries, 1),
    field!("slot", 4, " slot", [4, 4, 1, 3], slots, 1),
];

/// The fields of a controller, in the order of the line, where the playbook's counts stand after the last number.
pub const CONTROLLER: &[Field<Controller>] = &[
    field!("id", 0, "state", [1], id),
    field!("n", 1, "", [1], n),
    field!("last", 2, "", [4], last),
    field!("acknowledged", 3, " acknowledged", [4], acknowledged, 1),
    field!("serial", 4, " serial", [4], serials, 1),
    field!("count", 6, " count", [1], undone.count),
    field!("undone", 5, " undone", [4, 4, 1, 1, 4, 1, 3], undone.changes, 1),
];
/// How many of them stand before the playbook's counts.
const HEAD: usize = 3;

/// The fields of a controller's playbook.
pub const BOOK: &[Field<Playbook>] = &[
    Field {
        name: "counts",
        number: 7,
        shown: "book",
        place: 0,
        widths: &[1, 2],
        get: |book, _| Some(values([book.planned as u32, book.listed as u32])),
        set: |book, _, values| (book.planned, book.listed) = (values[0] as usize, values[1] as usize),
    },
    field!("plan", 8, " plan", [1, 1, 2, 1], plans, 1),
    field!("change", 9, " change", [1, 1, 4, 1, 3], changes, 2),
];

impl<S> Field<S> {
    /// The field that a body alters, by its first byte.
    pub fn altered<'a>(fields: &'a [Field<S>], body: &[u8]) -> Option<&'a Field<S>> {
        let number = Fields::new(body).byte();
        fields.iter().find(|field| field.number == number)
    }

    /// The field of this name.
    pub fn named<'a>(fields: &'a [Field<S>], name: &str) -> Option<&'a Field<S>> {
        fields.iter().find(|field| field.name == name)
    }

    /// The body that gives the field these values, at a place where it has places.
    pub fn body(&self, place: usize, values: Values) -> Vec<u8> {
        let mut body = vec![self.number];
        put_number(&mut body, place as u32, self.place);
        self.widths.iter().zip(values).for_each(|(&width, value)| put_number(&mut body, value, width));
        body
    }

    /// The body that gives the field back what it has now, where another body alters it.
    pub fn restoring(&self, state: &S, body: &[u8]) -> Option<Vec<u8>> {
        let (place, _) = self.place_in(body);
        Some(self.body(place, (self.get)(state, place)?))
    }

    /// The place that a body tells, and the bytes behind it.
    fn place_in<'a>(&self, body: &'a [u8]) -> (usize, Fields<'a>) {
        let mut fields = Fields::new(body);
        fields.byte();
        (fields.number(self.place) as usize, fields)
    }

    fn alter(&self, state: &mut S, body: &[u8]) {
        let (place, mut fields) = self.place_in(body);
        let mut values = Values::default();
        self.widths.iter().zip(&mut values).for_each(|(&width, value)| *value = fields.number(width));
        (self.set)(state, place, &values);
    }

    /// The field as it is printed: always where it stands once, and at each place that is not all zero.
    fn show(&self, state: &S, line: &mut Formatter) -> fmt::Result {
        for (place, values) in (0..).map_while(|place| Some((place, (self.get)(state, place)?))) {
            if self.place == 0 {
                write!(line, "{}", self.shown)?;
                return self.show_values(&values, line);
            }
            if values.iter().any(|value| *value != 0) {
                write!(line, "{} {place}", self.shown)?;
                self.show_values(&values, line)?;
            }
        }
        Ok(())
    }

    fn show_values(&self, values: &Values, line: &mut Formatter) -> fmt::Result {
        for (&width, &value) in self.widths.iter().zip(values) {
            match (width, action_of(value)) {
                (3, Action::Remove) => write!(line, " remove")?,
                (3, Action::Set(port)) => write!(line, " set {port}")?,
                _ => write!(line, " {value}")?,
            }
        }
        Ok(())
    }
}

/// Alters the field that a body names, if there is such a field.
fn alter<S>(fields: &[Field<S>], state: &mut S, body: &[u8]) {
    if let Some(field) = Field::altered(fields, body) {
        field.alter(state, body);
    }
}

fn show<S>(fields: &[Field<S>], state: &S, line: &mut Formatter) -> fmt::Result {
    fields.iter().try_for_each(|field| field.show(state, line))
}

/// Puts a number behind some bytes, in so many.
fn put_number(bytes: &mut Vec<u8>, number: u32, width: usize) {
    bytes.extend(&number.to_be_bytes()[4 - width..]);
}

/// These numbers, and zeros after them.
pub fn values(numbers: impl IntoIterator<Item = u32>) -> Values {
    let mut values = Values::default();
    values.iter_mut().zip(numbers).for_each(|(value, number)| *value = number);
    values
}

/// An action with its port as a number of 3 bytes, of which the first is 0 where it removes.
fn action_of(value: u32) -> Action {
    if value >> 16 == 0 {
        Action::Remove
    } else {
        Action::Set(value as u16)
    }
}

fn rule_values(rule: Rule) -> [u32; 3] {
    let action = match rule.action {
        Action::Remove => 0,
        Action::Set(port) => 1 << 16 | u32::from(port),
    };
    [rule.prefix, rule.length.into(), action]
}

fn rule_of(values: &mut impl Iterator<Item = u32>) -> Rule {
    Rule { prefix: next(values), length: next(values) as u8, action: action_of(next(values)) }
}

fn next(values: &mut impl Iterator<Item = u32>) -> u32 {
    values.next().unwrap_or(0)
}

/// Numbers are parts.
macro_rules! numbers {
    ($($number:ident),+) => {
        $(impl Part for $number {
            fn values(&self) -> Values {
                values([*self as u32])
            }

            fn of(values: &Values) -> $number {
                values[0] as $number
            }
        })+
    };
}

/// A part of numbers, with a rule behind them or none.
macro_rules! part {
    ($part:ident: $($number:ident),+ $(; $rule:ident)?) => {
        impl Part for $part {
            fn values(&self) -> Values {
                values([$(self.$number as u32),+].into_iter()$(.chain(rule_values(self.$rule)))?)
            }

            fn of(values: &Values) -> $part {
                let mut values = values.iter().copied();
                $part { $($number: next(&mut values) as _,)+ $($rule: rule_of(&mut values))? }
            }
        }
    };
}

numbers!(u8, u32, usize);
part!(Raised: serial, cause);
part!(Entry: prefix, length, port);
part!(Slot: number; rule);
part!(Undone: number, first, flow, switch; rule);
part!(Plan: switch, cause, first, count);
part!(Change: flow, switch; rule);

impl Display for Switch {
    fn fmt(&self, line: &mut Formatter) -> fmt::Result {
        show(SWITCH, self, line)
    }
}

impl Display for Controller {
    fn fmt(&self, line: &mut Formatter) -> fmt::Result {
        show(&CONTROLLER[..HEAD], self, line)?;
        write!(line, " ")?;
        show(&BOOK[..1], &self.playbook, line)?;
        show(&CONTROLLER[HEAD..], self, line)
    }
}

impl Display for Playbook {
    fn fmt(&self, line: &mut Formatter) -> fmt::Result {
        show(BOOK, self, line)
    }
}
