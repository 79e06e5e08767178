//! `isolation`: random small networks and evenings. `isolated` is asked whether a packet can cross at rest, cross under
//! way, or be lost. Its answers are compared with trying everything, and what it shows for an answer is played on the
//! Rust side.

use crate::body::{hex, Body};
use crate::networks::{drawn, Drawn};
use crate::program;
use crate::random::Random;
use crate::tally::Tally;
use crate::Options;
use reference::isolation::{
    asked_at, at_rest, bit, has, lost, packets, under_way, Behind, End, Moving, Packet, Resting, Set, Step, Traffic,
    Way,
};
use std::iter::Peekable;
use std::str::Lines;

/// What must be met, and nothing else under these names. The last two are counted where no packet crosses at rest.
pub const PAIRS: &str = "
resting: 0, 1
moving: 0, 1
losing: 0, 1
";

/// What must be met besides.
pub const EDGES: &str = "
crosses at rest: another client's link, a port without a link
crosses under way: another client's link, a port without a link
crosses at rest at switch: 1, 2, 3, 16
crosses under way at switch: 2, 3
lost at switch: 2, 3
settled: none, some, all
closed sets: 1, to 20, to 200, more
crosses under way, closed sets: to 20, to 200
address: its prefix's first, its prefix's last, between
at last a packet: arrives, is lost, crosses, circles
";

/// The first bytes of the network's records.
const LINK: u8 = 0x31;
const TRAFFIC: u8 = 0x32;
/// The number that stands for the outside.
const OUTSIDE: u8 = 16;

/// A budget that is large enough for every evening that is drawn. With less, the answer 2 is allowed.
const ENOUGH: u32 = 1_000_000;
const TOO_SMALL: u64 = 2;

/// What trying everything found.
struct Found {
    resting: Option<Resting>,
    moving: Option<Moving>,
    losing: Option<Resting>,
}

fn network_bytes(drawn: &Drawn) -> Vec<u8> {
    let mut bytes = Body::new();
    for link in &drawn.network.links {
        let behind = match link.behind {
            Behind::Switch(switch) => switch,
            Behind::Outside => OUTSIDE,
        };
        bytes = bytes.byte(LINK).byte(link.switch).short(link.port).byte(behind).byte(link.owner.unwrap_or(0));
    }
    for line in &drawn.network.traffic {
        bytes = bytes.byte(TRAFFIC).byte(line.client).long(line.prefix).byte(line.length).byte(line.switch);
    }
    bytes.0
}

/// The input of `isolated`.
fn input(drawn: &Drawn, budget: u32) -> Vec<u8> {
    let network = network_bytes(drawn);
    let mut decisions = Body::new();
    for decision in &drawn.decisions {
        decisions = decisions.byte(decision.switch).long(decision.serial).byte(decision.cause);
    }
    let bytes = Body::new().byte(0).long(drawn.evening.settled).long(budget);
    let bytes = bytes.short(network.len() as u16).short(decisions.0.len() as u16);
    bytes.bytes(&network).bytes(&decisions.0).bytes(&drawn.book).0
}

/// What the program printed, line by line.
struct Told<'a>(Peekable<Lines<'a>>);

impl Told<'_> {
    /// The numbers of the next line, if it has this word and so many of them.
    fn next(&mut self, word: &str, count: usize) -> Option<Vec<u64>> {
        let mut words = self.0.peek()?.split(' ');
        if words.next() != Some(word) {
            return None;
        }
        let numbers: Vec<u64> = words.map(|word| word.parse().ok()).collect::<Option<_>>()?;
        if numbers.len() != count {
            return None;
        }
        self.0.next();
        Some(numbers)
    }

    fn line(&mut self, word: &str, count: usize) -> Result<Vec<u64>, String> {
        let numbers = self.next(word, count);
        numbers.ok_or_else(|| format!("no line `{word}` in place of {:?}", self.0.peek()))
    }

    /// All lines with this word that come next.
    fn lines(&mut self, word: &str, count: usize) -> Vec<Vec<u64>> {
        std::iter::from_fn(|| self.next(word, count)).collect()
    }
}

/// What the program printed, held against the Rust side.
struct Checked<'a> {
    drawn: &'a Drawn,
    found: &'a Found,
    budget: u32,
    told: Told<'a>,
    tally: &'a mut Tally,
}

impl Checked<'_> {
    fn check(&mut self) -> Result<(), String> {
        let changes = self.told.line("changes", 1)?[0];
        if changes != self.drawn.evening.agreed.len() as u64 {
            return Err(format!("{changes} changes, on the Rust side {}", self.drawn.evening.agreed.len()));
        }
        let resting = self.answer("resting", self.found.resting.is_some())?;
        match resting {
            Some((client, address)) => self.resting(client, address)?,
            None => {
                // Where a packet crosses at rest, it crosses under way.
                let crosses = self.found.resting.is_some() || self.found.moving.is_some();
                if let Some((client, address)) = self.answer("moving", crosses)? {
                    self.moving(client, address)?;
                }
                if let Some((client, address)) = self.answer("losing", self.found.losing.is_some())? {
                    self.losing(client, address)?;
                }
            }
        }
        match self.told.0.next() {
            Some(line) => Err(format!("a line too many: {line}")),
            None => Ok(()),
        }
    }

    /// A question's answer, compared; the client and the address where it is 1.
    fn answer(&mut self, question: &str, expected: bool) -> Result<Option<(u64, u64)>, String> {
        let line = self.told.line(question, 4)?;
        let (answer, client, address) = (line[0], line[2], line[3]);
        if self.budget < ENOUGH {
            self.tally.count("with a small budget", &format!("{question} {answer}"));
        }
        if answer != u64::from(expected) && !(answer == TOO_SMALL && self.budget < ENOUGH) {
            return Err(format!("{question}: {answer}, on the Rust side {}", u64::from(expected)));
        }
        Ok((answer == 1).then_some((client, address)))
    }

    /// The traffic lines that such a packet belongs to.
    fn traffic(&self, client: u64, address: u64) -> Vec<(&Traffic, u32)> {
        let Ok(address) = u32::try_from(address) else { return Vec::new() };
        let fits = |line: &&Traffic| u64::from(line.client) == client && line.has(address);
        self.drawn.network.traffic.iter().filter(fits).map(|line| (line, address)).collect()
    }

    /// The set of the changes that come next, which must be closed and hold the settled ones.
    fn set(&mut self, word: &str) -> Result<Set, String> {
        let evening = &self.drawn.evening;
        let mut set = 0;
        for line in self.told.lines(word, 3) {
            let change = evening.agreed.iter().find(|change| {
                [u64::from(change.number), u64::from(change.switch), u64::from(change.first)] == line[..]
            });
            let number = change.ok_or(format!("{word} {line:?}: no agreed change is so"))?.number;
            if has(set, number) {
                return Err(format!("{word} {number}: told twice"));
            }
            set |= bit(number);
        }
        if !evening.is_closed(set) || !evening.is_settled(set) {
            return Err(format!("{word}: the set is not closed, or has not all that is settled"));
        }
        Ok(set)
    }

    /// The way and the set that come next: the packet that enters at the way's first switch, the set, and the way that
    /// this packet takes with it. They must be the same way; port 0 stands where it is lost.
    fn way(&mut self, client: u64, address: u64, set: &str) -> Result<(Packet, Set, Way), String> {
        let lines = self.told.lines("way", 2);
        let set = self.set(set)?;
        let entry = lines.first().ok_or("no line `way`")?[0];
        let traffic = self.traffic(client, address);
        let (line, address) =
            *traffic.iter().find(|(line, _)| u64::from(line.switch) == entry).ok_or("no traffic line is so")?;
        let packet = Packet { client: line.client, switch: line.switch, address };
        let way = self.drawn.network.way(&self.drawn.evening.tables(set), packet);
        let told = |step: &Step| vec![u64::from(step.switch), u64::from(step.port.unwrap_or(0))];
        if way.steps.iter().map(told).ne(lines) {
            return Err(format!("the way on the Rust side is {:?}, it {:?}", way.steps, way.end));
        }
        Ok((packet, set, way))
    }

    /// A packet crosses at rest, and with nothing less made.
    fn resting(&mut self, client: u64, address: u64) -> Result<(), String> {
        let (packet, set, way) = self.way(client, address, "made")?;
        if way.end != End::Crosses {
            return Err(format!("on the Rust side the packet {:?}", way.end));
        }
        let evening = &self.drawn.evening;
        let made = (evening.settled + 1..=evening.agreed.len() as u32).filter(|number| has(set, *number));
        for number in made {
            let less = evening.tables(evening.without(set, number));
            if self.drawn.network.way(&less, packet).end == End::Crosses {
                return Err(format!("the packet crosses without change {number} and what waits for it, too"));
            }
        }
        Ok(())
    }

    /// A packet may be asked for at a switch whose table sends it across.
    fn moving(&mut self, client: u64, address: u64) -> Result<(), String> {
        let foreign = self.told.lines("foreign", 2);
        let set = self.set("known")?;
        let (network, evening) = (&self.drawn.network, &self.drawn.evening);
        let tables = evening.tables(set);
        for (line, address) in self.traffic(client, address) {
            let packet = Packet { client: line.client, switch: line.switch, address };
            for switch in asked_at(network, evening, packet, set) {
                let port = tables[switch as usize].lookup(address);
                let crosses = port.filter(|port| network.behind(line.client, switch, *port).is_none());
                if crosses.is_some_and(|port| foreign.contains(&vec![switch.into(), port.into()])) {
                    return Ok(());
                }
            }
        }
        Err("on the Rust side the packet crosses at none of these switches".to_string())
    }

    /// A packet is lost behind the switch where it enters.
    fn losing(&mut self, client: u64, address: u64) -> Result<(), String> {
        self.told.line("then", 0)?;
        let (packet, _, way) = self.way(client, address, "before")?;
        let elsewhere = way.steps.last().is_some_and(|step| step.switch != packet.switch);
        if way.end != End::Lost || !elsewhere {
            return Err(format!("on the Rust side the packet {:?}", way.end));
        }
        Ok(())
    }
}

/// What was met.
fn counted(drawn: &Drawn, found: &Found) -> Tally {
    let mut tally = Tally::default();
    let (network, evening) = (&drawn.network, &drawn.evening);
    let answer = |found: bool| if found { "1" } else { "0" };
    let across = |step: &Step| {
        let linked = |port: u16| network.links.iter().any(|link| link.switch == step.switch && link.port == port);
        if step.port.is_some_and(linked) {
            "another client's link"
        } else {
            "a port without a link"
        }
    };
    tally.count("resting", answer(found.resting.is_some()));
    let mut shown = Vec::new();
    if let Some(Resting { packet, way, .. }) = &found.resting {
        way.steps.last().iter().for_each(|step| tally.count("crosses at rest", across(step)));
        tally.count("crosses at rest at switch", &way.steps.len().to_string());
        shown.push(packet);
    } else {
        tally.count("moving", answer(found.moving.is_some()));
        tally.count("losing", answer(found.losing.is_some()));
    }
    if let Some(Moving { packet, chain }) = &found.moving {
        chain.last().iter().for_each(|(_, step)| tally.count("crosses under way", across(step)));
        tally.count("crosses under way at switch", &chain.len().to_string());
        shown.push(packet);
    }
    if let Some(Resting { packet, way, .. }) = &found.losing {
        tally.count("lost at switch", &way.steps.len().to_string());
        shown.push(packet);
    }
    for packet in shown {
        tally.count("address", place(drawn, packet));
    }
    let settled = match evening.settled as usize {
        0 => "none",
        settled if settled == evening.agreed.len() => "all",
        _ => "some",
    };
    tally.count("settled", settled);
    let sets = match evening.moments.len() {
        1 => "1",
        2..=20 => "to 20",
        21..=200 => "to 200",
        _ => "more",
    };
    tally.count("closed sets", sets);
    if found.moving.is_some() {
        tally.count("crosses under way, closed sets", sets);
    }
    let tables = evening.moments.last().map_or(Vec::new(), |last| last.tables.clone());
    for packet in packets(network, evening) {
        let end = match network.way(&tables, packet).end {
            End::Arrives => "arrives",
            End::Lost => "is lost",
            End::Crosses => "crosses",
            End::Circles => "circles",
        };
        tally.count("at last a packet", end);
    }
    tally
}

/// Where a packet's address lies in the prefix of its traffic line.
fn place(drawn: &Drawn, packet: &Packet) -> &'static str {
    let of_packet = |line: &&Traffic| line.client == packet.client && line.switch == packet.switch;
    let lines: Vec<&Traffic> = drawn.network.traffic.iter().filter(of_packet).collect();
    let next = packet.address.wrapping_add(1);
    if lines.iter().any(|line| line.prefix == packet.address) {
        "its prefix's first"
    } else if lines.iter().any(|line| line.has(packet.address) && (next == 0 || !line.has(next))) {
        "its prefix's last"
    } else {
        "between"
    }
}

/// What the Rust side found, in words.
fn shown(drawn: &Drawn, found: &Found) -> String {
    let Found { resting, moving, losing } = found;
    let changes: Vec<String> = drawn.evening.agreed.iter().map(|change| format!("{change:?}")).collect();
    let links: Vec<String> = drawn.network.links.iter().map(|link| format!("{link:?}")).collect();
    let traffic: Vec<String> = drawn.network.traffic.iter().map(|line| format!("{line:?}")).collect();
    let answers = [format!("{resting:?}"), format!("{moving:?}"), format!("{losing:?}")];
    [links, traffic, changes, answers.to_vec()].concat().join("\n")
}

/// One network and evening, compared where there is a program to compare with.
pub fn script(options: &Options, number: u64) -> (Tally, u64, Result<(), String>) {
    let drawn = drawn(Random::new(options.seed, 9, number), number);
    let mut random = Random::new(options.seed, 10, number);
    let budget = match random.below(12) {
        0 => random.pick(&[0, 1, 2, 5, 20, 100, 500]),
        1 => u32::MAX,
        _ => ENOUGH,
    };
    let resting = at_rest(&drawn.network, &drawn.evening);
    let moving = if resting.is_none() { under_way(&drawn.network, &drawn.evening) } else { None };
    let found = Found { resting, moving, losing: lost(&drawn.network, &drawn.evening) };
    let mut tally = counted(&drawn, &found);
    let input = input(&drawn, budget);
    let printed = options.program.as_ref().map(|path| program::printed(path, &input)).transpose();
    let result = printed.and_then(|printed| {
        let printed = printed.map(|bytes| String::from_utf8_lossy(&bytes).to_string());
        if options.show {
            println!("input {}\nrust\n{}", hex(&input), shown(&drawn, &found));
            println!("program\n{}", printed.as_deref().unwrap_or_default());
        }
        let Some(printed) = printed else { return Ok(()) };
        let told = Told(printed.lines().peekable());
        let checked = Checked { drawn: &drawn, found: &found, budget, told, tally: &mut tally }.check();
        checked.map_err(|what| format!("{what}\n    input {}\n{printed}", hex(&input)))
    });
    (tally, if found.resting.is_some() { 1 } else { 3 }, result)
}
