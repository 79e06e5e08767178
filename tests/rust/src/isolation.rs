//! Isolation: whether a client's packet can be sent to a link that the client may not use, or be lost, while the agreed
//! changes are made. Everything is tried: every closed set of changes with its whole tables, every traffic line, every
//! address where a prefix begins or ends, and under way every chain of closed sets.

use crate::flow::Table;
use crate::ideal::Agreed;
use crate::ENDS;
use std::collections::{BTreeSet, HashSet};
use std::ops::Range;

/// How many switches a packet is followed through at most.
pub const HOPS: usize = 16;

/// What lies behind a link.
#[derive(Clone, Copy, Debug, PartialEq, Eq)]
pub enum Behind {
    Switch(u8),
    Outside,
}

/// A link: the switch and the port where it is, what lies behind it, and the client that owns it. One without an owner
/// is shared by all. A port has one link at most.
#[derive(Clone, Copy, Debug, PartialEq, Eq)]
pub struct Link {
    pub switch: u8,
    pub port: u16,
    pub behind: Behind,
    pub owner: Option<u8>,
}

/// A traffic line: a client's packets to the addresses of a prefix, and the switch where they enter.
#[derive(Clone, Copy, Debug, PartialEq, Eq)]
pub struct Traffic {
    pub client: u8,
    pub prefix: u32,
    pub length: u8,
    pub switch: u8,
}

/// A network.
#[derive(Clone, Debug, Default, PartialEq, Eq)]
pub struct Network {
    pub links: Vec<Link>,
    pub traffic: Vec<Traffic>,
}

/// A packet of a traffic line: its client, the switch where it enters, and the address that it is for.
#[derive(Clone, Copy, Debug, PartialEq, Eq)]
pub struct Packet {
    pub client: u8,
    pub switch: u8,
    pub address: u32,
}

/// A set of agreed changes: the change of number 1 is the lowest bit. Numbers above 64 have no place in it.
pub type Set = u64;

/// A closed set, and the sixteen tables once its changes are made.
#[derive(Clone, Debug, PartialEq, Eq)]
pub struct Moment {
    pub set: Set,
    pub tables: Vec<Table>,
}

/// The agreed changes, how many of them are settled, and every closed set that holds the settled ones.
#[derive(Clone, Debug, PartialEq, Eq)]
pub struct Evening {
    pub agreed: Vec<Agreed>,
    pub settled: u32,
    pub moments: Vec<Moment>,
}

/// How a packet's way ends.
#[derive(Clone, Copy, Debug, PartialEq, Eq)]
pub enum End {
    /// It leaves to the outside.
    Arrives,
    /// A switch has no entry for it.
    Lost,
    /// It is sent to a port that its client may not use.
    Crosses,
    /// It is still in the domain after 16 switches.
    Circles,
}

/// A switch that was asked, and the port that its table gave.
#[derive(Clone, Copy, Debug, PartialEq, Eq)]
pub struct Step {
    pub switch: u8,
    pub port: Option<u16>,
}

/// A packet's way with the tables of one moment.
#[derive(Clone, Debug, PartialEq, Eq)]
pub struct Way {
    pub steps: Vec<Step>,
    pub end: End,
}

/// A packet that crosses, or is lost, with the changes of one set made.
#[derive(Clone, Debug, PartialEq, Eq)]
pub struct Resting {
    pub packet: Packet,
    pub set: Set,
    pub way: Way,
}

/// A packet that crosses under way: each step with the set that was made when its switch was asked.
#[derive(Clone, Debug, PartialEq, Eq)]
pub struct Moving {
    pub packet: Packet,
    pub chain: Vec<(Set, Step)>,
}

/// Is there a closed set with which a packet crosses?
pub fn at_rest(network: &Network, evening: &Evening) -> Option<Resting> {
    ended(network, evening, |_, way| way.end == End::Crosses)
}

/// Is there a closed set with which a packet is lost at another switch than the one where it enters?
pub fn lost(network: &Network, evening: &Evening) -> Option<Resting> {
    let elsewhere = |packet: &Packet, way: &Way| way.steps.last().is_some_and(|step| step.switch != packet.switch);
    ended(network, evening, |packet, way| way.end == End::Lost && elsewhere(packet, way))
}

/// Is there a chain of closed sets, each within the next, so that a packet crosses whose switches are asked along it?
pub fn under_way(network: &Network, evening: &Evening) -> Option<Moving> {
    packets(network, evening).into_iter().find_map(|packet| {
        let mut journey = Journey { network, evening, packet, tried: HashSet::new() };
        let chain = journey.crossing(packet.switch, 0, HOPS)?;
        Some(Moving { packet, chain })
    })
}

/// The switches that may be asked for a packet at the moment of a set, whatever the earlier ones were asked at.
pub fn asked_at(network: &Network, evening: &Evening, packet: Packet, set: Set) -> BTreeSet<u8> {
    let mut asked = BTreeSet::from([(packet.switch, 0)]);
    for _ in 1..HOPS {
        let mut further = BTreeSet::new();
        for &(switch, since) in &asked {
            for moment in evening.since(since).filter(|moment| holds(set, moment.set)) {
                let port = moment.lookup(switch, packet.address);
                if let Some(Behind::Switch(next)) = port.and_then(|port| network.behind(packet.client, switch, port)) {
                    further.insert((next, moment.set));
                }
            }
        }
        asked.extend(further);
    }
    asked.into_iter().map(|(switch, _)| switch).collect()
}

/// The packets worth trying.
pub fn packets(network: &Network, evening: &Evening) -> Vec<Packet> {
    let mut packets = Vec::new();
    for line in &network.traffic {
        let of_line = |address| Packet { client: line.client, switch: line.switch, address };
        packets.extend(addresses(line, evening).into_iter().map(of_line));
    }
    packets
}

/// A packet and a closed set so that its way is such a one.
fn ended(network: &Network, evening: &Evening, such: impl Fn(&Packet, &Way) -> bool) -> Option<Resting> {
    for packet in packets(network, evening) {
        for moment in &evening.moments {
            let way = network.way(&moment.tables, packet);
            if such(&packet, &way) {
                return Some(Resting { packet, set: moment.set, way });
            }
        }
    }
    None
}

/// The addresses of a line next to which a prefix begins or ends, its own or a change's.
fn addresses(line: &Traffic, evening: &Evening) -> Vec<u32> {
    let mut prefixes = vec![addressed(line.prefix, line.length)];
    prefixes.extend(evening.agreed.iter().map(|change| addressed(change.rule.prefix, change.rule.length)));
    let edges = prefixes.iter().flat_map(|prefix| [prefix.start, prefix.end]);
    let beside: BTreeSet<u64> = edges.flat_map(|edge| [edge.saturating_sub(1), edge]).collect();
    beside.into_iter().filter_map(|address| u32::try_from(address).ok()).filter(|address| line.has(*address)).collect()
}

/// The addresses of a prefix.
fn addressed(prefix: u32, length: u8) -> Range<u64> {
    let first = u64::from(prefix);
    first..first + (1 << 32u8.saturating_sub(length))
}

impl Network {
    /// What lies behind a port, for a client that may use it. A port without a link may not be used.
    pub fn behind(&self, client: u8, switch: u8, port: u16) -> Option<Behind> {
        let link = self.links.iter().find(|link| link.switch == switch && link.port == port)?;
        let may_use = link.owner.is_none_or(|owner| owner == client);
        may_use.then_some(link.behind)
    }

    /// The way of a packet with these tables.
    pub fn way(&self, tables: &[Table], packet: Packet) -> Way {
        let mut steps = Vec::new();
        let mut switch = packet.switch;
        for _ in 0..HOPS {
            let port = tables.get(switch as usize).and_then(|table| table.lookup(packet.address));
            steps.push(Step { switch, port });
            let Some(port) = port else { return Way { steps, end: End::Lost } };
            match self.behind(packet.client, switch, port) {
                None => return Way { steps, end: End::Crosses },
                Some(Behind::Outside) => return Way { steps, end: End::Arrives },
                Some(Behind::Switch(next)) => switch = next,
            }
        }
        Way { steps, end: End::Circles }
    }
}

impl Traffic {
    /// Is the address one of the line's?
    pub fn has(&self, address: u32) -> bool {
        addressed(self.prefix, self.length).contains(&u64::from(address))
    }
}

impl Evening {
    /// The agreed changes with all of their closed sets, of which those count that hold the changes 1 to `settled`.
    pub fn new(agreed: Vec<Agreed>, settled: u32) -> Evening {
        let mut evening = Evening { agreed, settled, moments: Vec::new() };
        let mut sets = Vec::new();
        evening.choose(0, 0, &mut sets);
        evening.moments = sets.into_iter().map(|set| Moment { set, tables: evening.tables(set) }).collect();
        evening
    }

    /// Does the set hold, with each of its changes, all those that the change waits for?
    pub fn is_closed(&self, set: Set) -> bool {
        self.agreed.iter().all(|change| !has(set, change.number) || self.may_follow(change, set))
    }

    /// Does the set hold the settled changes?
    pub fn is_settled(&self, set: Set) -> bool {
        self.agreed.iter().all(|change| change.number > self.settled || has(set, change.number))
    }

    /// The set without a change and all that wait for it, whether straight away or for one that does.
    pub fn without(&self, set: Set, number: u32) -> Set {
        let mut dropped = bit(number);
        for change in &self.agreed {
            let waits = self.agreed.iter().any(|lower| has(dropped, lower.number) && waits_for(change, lower));
            if waits {
                dropped |= bit(change.number);
            }
        }
        set & !dropped
    }

    /// The sixteen tables once the set's changes are made, by rising number.
    pub fn tables(&self, set: Set) -> Vec<Table> {
        let mut tables = vec![Table::EMPTY; ENDS];
        for change in self.agreed.iter().filter(|change| has(set, change.number)) {
            if let Some(table) = tables.get_mut(change.switch as usize) {
                table.apply(&change.rule);
            }
        }
        tables
    }

    /// The moments whose sets hold a set.
    pub fn since(&self, set: Set) -> impl Iterator<Item = &Moment> {
        self.moments.iter().filter(move |moment| holds(moment.set, set))
    }

    /// Goes through the changes by rising number: each is left out, or taken where the set holds all it waits for.
    fn choose(&self, place: usize, set: Set, sets: &mut Vec<Set>) {
        let Some(change) = self.agreed.get(place) else {
            sets.push(set);
            return;
        };
        if change.number > self.settled {
            self.choose(place + 1, set, sets);
        }
        if self.may_follow(change, set) {
            self.choose(place + 1, set | bit(change.number), sets);
        }
    }

    /// Does the set hold all that the change waits for?
    fn may_follow(&self, change: &Agreed, set: Set) -> bool {
        self.agreed.iter().all(|lower| !waits_for(change, lower) || has(set, lower.number))
    }
}

impl Moment {
    /// The port that a switch's table has for an address.
    pub fn lookup(&self, switch: u8, address: u32) -> Option<u16> {
        self.tables.get(switch as usize)?.lookup(address)
    }
}

/// A packet under way, and from where it was tried without crossing: the switch, the set, and how many switches were
/// left.
struct Journey<'a> {
    network: &'a Network,
    evening: &'a Evening,
    packet: Packet,
    tried: HashSet<(u8, Set, usize)>,
}

impl Journey<'_> {
    /// A chain along which the packet, now at this switch, crosses within so many switches. The set is what was made
    /// when the switch before was asked.
    fn crossing(&mut self, switch: u8, since: Set, left: usize) -> Option<Vec<(Set, Step)>> {
        if left == 0 || !self.tried.insert((switch, since, left)) {
            return None;
        }
        for moment in self.evening.since(since) {
            let Some(port) = moment.lookup(switch, self.packet.address) else { continue };
            let step = (moment.set, Step { switch, port: Some(port) });
            let further = match self.network.behind(self.packet.client, switch, port) {
                None => return Some(vec![step]),
                Some(Behind::Outside) => None,
                Some(Behind::Switch(next)) => self.crossing(next, moment.set, left - 1),
            };
            if let Some(further) = further {
                return Some([vec![step], further].concat());
            }
        }
        None
    }
}

/// Does a change wait for a lower one: on the same switch, or in the same decision and flow?
fn waits_for(change: &Agreed, lower: &Agreed) -> bool {
    let same_switch = lower.switch == change.switch;
    let same_flow = lower.first == change.first && lower.flow == change.flow;
    lower.number < change.number && (same_switch || same_flow)
}

/// The set of one change.
pub fn bit(number: u32) -> Set {
    number.checked_sub(1).and_then(|place| 1u64.checked_shl(place)).unwrap_or(0)
}

/// Is the change of a number in the set?
pub fn has(set: Set, number: u32) -> bool {
    set & bit(number) != 0
}

/// Does a set hold all of another?
pub fn holds(set: Set, other: Set) -> bool {
    set & other == other
}
