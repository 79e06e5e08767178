//! Random small networks, and evenings on them: plans that set up, move, hand over and remove routes, the far switch
//! first or the near one, with prefixes that lie within one another, and with changes that fit nothing.

use crate::body::{kept, rule};
use crate::books::{encoded, Record};
use crate::random::Random;
use reference::flow::Rule;
use reference::ideal::{agreed, Decision};
use reference::isolation::{Behind, Evening, Link, Network, Traffic};
use reference::playbook::{read, Playbook};

/// How many changes an evening has at most, one with a long row of switches, and how many closed sets: all of them are
/// tried.
const CHANGES: usize = 13;
const ROW_CHANGES: usize = 18;
const SETS: usize = 1000;
/// A port that no link is drawn for.
const UNLINKED: u16 = 50;

/// A network and an evening.
pub struct Drawn {
    pub network: Network,
    pub book: Vec<u8>,
    pub decisions: Vec<Decision>,
    pub evening: Evening,
}

/// A way through the network: the switches, and the port that leads on from each.
type Path = Vec<(u8, u16)>;

/// Changes in the order in which a plan lists them: the switch and the rule.
type Changes = Vec<(u8, Rule)>;

/// A client's route.
#[derive(Clone)]
struct Route {
    client: u8,
    prefix: (u32, u8),
    path: Path,
}

/// What is drawn so far. `routes` are the routes as the plans leave them; the plans have no triggers yet.
struct Drawing {
    random: Random,
    switches: Vec<u8>,
    clients: Vec<u8>,
    prefixes: Vec<(u32, u8)>,
    network: Network,
    routes: Vec<Route>,
    plans: Vec<Vec<Record>>,
}

impl Drawing {
    fn new(mut random: Random) -> Drawing {
        let mut switches: Vec<u8> = (0..16).collect();
        random.shuffle(&mut switches);
        switches.truncate(random.between(2, 5));
        let mut clients = random.pick(&[[1, 2, 3], [1, 7, 255], [254, 2, 16]]).to_vec();
        clients.truncate(random.pick(&[1, 2, 2, 3, 3]));
        let prefixes = nested(&mut random);
        Drawing {
            random,
            switches,
            clients,
            prefixes,
            network: Network::default(),
            routes: Vec::new(),
            plans: Vec::new(),
        }
    }

    fn switch(&mut self) -> u8 {
        self.random.pick(&self.switches)
    }

    fn client(&mut self) -> u8 {
        self.random.pick(&self.clients)
    }

    /// The widest prefix most often, so that routes meet.
    fn prefix(&mut self) -> (u32, u8) {
        if self.random.once_in(2) {
            return self.prefixes[0];
        }
        self.random.pick(&self.prefixes)
    }

    fn is_free(&self, switch: u8, port: u16) -> bool {
        !self.network.links.iter().any(|link| link.switch == switch && link.port == port)
    }

    /// A link on a port that has none yet.
    fn link(&mut self, switch: u8, behind: Behind, owner: Option<u8>) -> u16 {
        let mut port = self.random.pick(&[1, 2, 3, 4, 5, 6, 65_535]);
        while !self.is_free(switch, port) {
            port = self.random.between(1, 40) as u16;
        }
        self.network.links.push(Link { switch, port, behind, owner });
        port
    }

    /// A port that leads there and that the client may use: one of those there are, or a new one.
    fn port(&mut self, switch: u8, behind: Behind, client: u8) -> u16 {
        let usable = |link: &&Link| link.owner.is_none_or(|owner| owner == client);
        let there = self.network.links.iter().filter(|link| link.switch == switch && link.behind == behind);
        match there.filter(usable).map(|link| link.port).next() {
            Some(port) if !self.random.once_in(3) => port,
            _ => {
                let owner = self.random.pick(&[None, Some(client)]);
                self.link(switch, behind, owner)
            }
        }
    }

    /// A way from a switch to the outside through links that the client may use: over `least` to `most` switches, or as
    /// many as there are.
    fn path(&mut self, client: u8, from: u8, least: usize, most: usize) -> Path {
        let mut others: Vec<u8> = self.switches.iter().copied().filter(|switch| *switch != from).collect();
        self.random.shuffle(&mut others);
        others.truncate(self.random.between(least, most) - 1);
        self.through(client, &[vec![from], others].concat())
    }

    /// The way over these switches.
    fn through(&mut self, client: u8, switches: &[u8]) -> Path {
        let mut path = Vec::new();
        for (place, &switch) in switches.iter().enumerate() {
            let behind = switches.get(place + 1).map_or(Behind::Outside, |next| Behind::Switch(*next));
            path.push((switch, self.port(switch, behind, client)));
        }
        path
    }

    /// A traffic line, most often with the whole prefix.
    fn traffic(&mut self, client: u8, prefix: (u32, u8), switch: u8) {
        let (prefix, length) = if self.random.once_in(5) { self.prefix() } else { prefix };
        let line = Traffic { client, prefix, length, switch };
        if !self.network.traffic.contains(&line) {
            self.network.traffic.push(line);
        }
    }

    /// The far switch first three times out of four.
    fn ordered(&mut self, mut far_first: Changes) -> Changes {
        if self.random.once_in(4) {
            far_first.reverse();
        }
        far_first
    }

    /// Sets up a route, over at least so many switches if there are.
    fn set_up(&mut self, least: usize) -> Changes {
        let (client, prefix) = (self.client(), self.prefix());
        self.route(client, prefix, least)
    }

    fn route(&mut self, client: u8, prefix: (u32, u8), least: usize) -> Changes {
        let from = self.switch();
        let path = self.path(client, from, least, 4);
        self.traffic(client, prefix, from);
        let changes = path.iter().rev().map(|&(switch, port)| (switch, set(prefix, port))).collect();
        self.routes.push(Route { client, prefix, path });
        self.ordered(changes)
    }

    /// What becomes of a switch that a route has left: its entry stays, goes, or is handed over to another client.
    fn left_behind(&mut self, route: &Route, switch: u8) -> Changes {
        let prefix = if self.random.once_in(3) { self.prefix() } else { route.prefix };
        match self.random.below(8) {
            0..3 => Vec::new(),
            3 => vec![(switch, set(prefix, 0))],
            4 => vec![(switch, set(prefix, UNLINKED))],
            _ => {
                let other = if self.random.once_in(4) { self.client() } else { self.clients[self.clients.len() - 1] };
                let port = self.port(switch, Behind::Outside, other);
                if self.random.once_in(4) {
                    self.traffic(other, route.prefix, switch);
                }
                vec![(switch, set(prefix, port))]
            }
        }
    }

    /// Moves a route to another way from the same switch.
    fn moved(&mut self) -> Changes {
        let place = self.random.below(self.routes.len());
        let route = self.routes[place].clone();
        let path = self.path(route.client, route.path[0].0, 1, 3);
        let mut changes: Changes = path.iter().rev().map(|&(switch, port)| (switch, set(route.prefix, port))).collect();
        for &(switch, _) in &route.path {
            if path.iter().all(|step| step.0 != switch) {
                changes.extend(self.left_behind(&route, switch));
            }
        }
        self.routes[place].path = path;
        self.ordered(changes)
    }

    fn removed(&mut self) -> Changes {
        let place = self.random.below(self.routes.len());
        let Route { prefix, path, .. } = self.routes.remove(place);
        let near_first = path.iter().map(|&(switch, _)| (switch, set(prefix, 0))).collect();
        self.ordered(near_first)
    }

    /// A change that fits nothing: any port, with a link or without.
    fn stray(&mut self) -> Changes {
        let (switch, prefix) = (self.switch(), self.prefix());
        vec![(switch, set(prefix, self.random.pick(&[0, 1, 2, 3, 4, UNLINKED])))]
    }

    fn altered(&mut self) -> Changes {
        match self.random.below(8) {
            0 => self.stray(),
            1 => self.set_up(1),
            2 if !self.routes.is_empty() => self.removed(),
            _ if !self.routes.is_empty() => self.moved(),
            _ => self.set_up(1),
        }
    }

    /// A plan of such parts: all in one flow, each part in its own, or each change.
    fn plan(&mut self, parts: Vec<Changes>) {
        let way = self.random.below(6);
        let mut changes = Vec::new();
        for (part, listed) in parts.into_iter().enumerate() {
            for (switch, rule) in listed {
                let flow = match way {
                    0 => changes.len() as u8,
                    1 | 2 => 255 - part as u8,
                    _ => 3,
                };
                changes.push(Record::Change { flow, switch, rule });
            }
        }
        self.plans.push(changes);
    }

    /// A plan with each change in a flow of its own.
    fn apart(&mut self, changes: Changes) {
        let listed = changes.into_iter().zip(0..).map(|((switch, rule), flow)| Record::Change { flow, switch, rule });
        self.plans.push(listed.collect());
    }

    /// A plan with all changes in one flow.
    fn in_one_flow(&mut self, changes: Changes) {
        let listed = changes.into_iter().map(|(switch, rule)| Record::Change { flow: 0, switch, rule });
        self.plans.push(listed.collect());
    }

    /// Routes are set up, then moved and removed.
    fn routes(&mut self) {
        let many = self.random.pick(&[1, 1, 2, 2, 3]);
        let parts: Vec<Changes> = (0..many).map(|_| self.set_up(1)).collect();
        self.plan(parts);
        for _ in 0..self.random.between(1, 3) {
            let many = self.random.pick(&[1, 1, 1, 2]);
            let parts: Vec<Changes> = (0..many).map(|_| self.altered()).collect();
            self.plan(parts);
        }
    }

    /// A route over two switches or more is set up, and moved in one flow with what it leaves behind. Another one of
    /// its client may be set up before or after, each change on its own.
    fn handed_over(&mut self) {
        let (client, prefix, least) = (self.clients[0], self.prefix(), self.random.between(2, 4));
        let first = self.route(client, prefix, least);
        let moved = self.moved();
        let beside = (self.prefixes[0].0 ^ 0x1_0000, 16);
        let prefix = if self.random.once_in(2) { beside } else { self.prefix() };
        let other = self.route(client, prefix, 2);
        match self.random.below(4) {
            0 => self.apart(other.clone()),
            1 => self.plan(vec![other.clone()]),
            _ => {}
        }
        self.plan(vec![first]);
        self.in_one_flow(moved);
        match self.random.below(4) {
            0 => self.apart(other),
            1 => {
                let part = self.altered();
                self.plan(vec![part]);
            }
            _ => {}
        }
    }

    /// Each switch of a row sends packets on to the next one only after the one before it has ceased to, so that just
    /// the packets under way get to the last one; that one sends them anywhere.
    fn relayed(&mut self) {
        let (client, prefix) = (self.client(), self.prefix());
        let row: Vec<u8> = self.switches.iter().copied().take(self.random.between(2, 4)).collect();
        let on = self.through(client, &row);
        let out: Vec<u16> = row.iter().map(|switch| self.port(*switch, Behind::Outside, client)).collect();
        self.traffic(client, prefix, row[0]);
        let mut changes: Changes = row.iter().zip(&out).map(|(switch, port)| (*switch, set(prefix, *port))).collect();
        changes.push((row[0], set(prefix, on[0].1)));
        for place in 1..row.len() {
            changes.push((row[place - 1], set(prefix, out[place - 1])));
            let within = if self.random.once_in(4) { self.prefix() } else { prefix };
            let port = if place + 1 < row.len() { on[place].1 } else { self.random.pick(&[0, UNLINKED, on[place].1]) };
            changes.push((row[place], set(within, port)));
        }
        if self.random.once_in(3) {
            let place = self.random.below(changes.len() - 1);
            changes.swap(place, place + 1);
        }
        if self.random.once_in(2) {
            let beside = (self.prefixes[0].0 ^ 0x1_0000, 16);
            let other = self.route(client, beside, 2);
            self.apart(other);
        }
        self.in_one_flow(changes);
        self.random.shuffle(&mut self.plans);
    }

    /// Switches that have entries of any kind are taken over for a route in one flow.
    fn taken_over(&mut self) {
        let parts: Vec<Changes> = (0..self.random.between(1, 3)).map(|_| self.stray()).collect();
        self.plan(parts);
        let part = self.set_up(2);
        self.in_one_flow(part);
        if self.random.once_in(2) {
            let part = self.altered();
            self.plan(vec![part]);
        }
    }

    /// Sixteen switches in a row in one flow. One of them may send packets elsewhere, back or across, at once or after
    /// the first one has ceased to send any.
    fn row(&mut self) {
        let mut switches: Vec<u8> = (0..16).collect();
        self.random.shuffle(&mut switches);
        let (client, prefix) = (self.client(), self.prefix());
        let mut path = self.through(client, &switches);
        self.traffic(client, prefix, switches[0]);
        let place = if self.random.once_in(2) { 15 } else { self.random.between(1, 15) };
        let elsewhere = match self.random.below(4) {
            0 => self.port(switches[place], Behind::Switch(switches[0]), client),
            1 => self.link(switches[place], Behind::Outside, Some(if client == 9 { 8 } else { 9 })),
            2 => UNLINKED,
            _ => path[place].1,
        };
        let at_once = self.random.once_in(2);
        if at_once {
            path[place].1 = elsewhere;
        }
        let mut changes: Changes = path.iter().rev().map(|&(switch, port)| (switch, set(prefix, port))).collect();
        if self.random.once_in(3) {
            changes.reverse();
        }
        self.in_one_flow(changes);
        if !at_once {
            let out = self.port(switches[0], Behind::Outside, client);
            self.in_one_flow(vec![(switches[0], set(prefix, out)), (switches[place], set(prefix, elsewhere))]);
        }
    }

    /// Routes among more switches, each change in a flow of its own: many closed sets.
    fn wide(&mut self) {
        self.switches = (0..self.random.between(5, 9) as u8).collect();
        let parts: Vec<Changes> = (0..self.random.between(2, 3)).map(|_| self.set_up(2)).collect();
        self.apart(parts.concat());
        let part = self.altered();
        self.apart(part);
    }

    /// Changes that fit nothing, and lines to go with them.
    fn strays(&mut self) {
        for _ in 0..self.random.between(1, 2) {
            let many = self.random.between(0, 4);
            let parts: Vec<Changes> = (0..many).map(|_| self.stray()).collect();
            self.plan(parts);
        }
    }

    /// Links and lines that belong to no route.
    fn beside(&mut self) {
        for _ in 0..self.random.below(5) {
            let (switch, next, client) = (self.switch(), self.switch(), self.client());
            let behind = self.random.pick(&[Behind::Outside, Behind::Switch(next)]);
            let owner = self.random.pick(&[None, Some(client)]);
            self.link(switch, behind, owner);
        }
        for _ in 0..self.random.pick(&[0, 0, 0, 1, 2]) {
            let (client, prefix, switch) = (self.client(), self.prefix(), self.switch());
            self.traffic(client, prefix, switch);
        }
    }

    /// The triggers of the plans, and an agreed list: the plans in turn, some again, and decisions that every
    /// controller refuses or that have no plan.
    fn decided(&mut self) -> (Vec<(u8, u8)>, Vec<Decision>) {
        let mut serials = [0; 16];
        let mut list = Vec::new();
        let mut triggers = Vec::new();
        for place in 0..self.plans.len() {
            let (switch, cause) = (self.random.pick(&[0, 5, 15]), 3 * place as u8);
            triggers.push((switch, cause));
            let mut decide = |switch: u8, cause, by| {
                let serial: &mut u32 = &mut serials[switch as usize];
                *serial += by;
                list.push(Decision { switch, serial: *serial, cause });
            };
            match self.random.below(24) {
                0 => decide(switch, 250, 1),
                1 => decide(switch, cause, 0),
                2 => decide(switch, cause, 2),
                _ => {}
            }
            decide(switch, cause, self.random.pick(&[1, 1, 7, 70_000]));
            if self.random.once_in(16) {
                let unknown = self.random.pick(&[16, 255]);
                list.push(Decision { switch: unknown, serial: 900, cause });
            }
        }
        (triggers, list)
    }

    /// The playbook: the plans in any order, and now and then one that nobody decides.
    fn book(&mut self, triggers: &[(u8, u8)]) -> Vec<u8> {
        let mut plans: Vec<(u8, u8, Vec<Record>)> =
            triggers.iter().zip(&self.plans).map(|(&(switch, cause), plan)| (switch, cause, plan.clone())).collect();
        if self.random.once_in(6) {
            let (switch, rule) = self.stray()[0];
            plans.push((9, 255, vec![Record::Change { flow: 3, switch, rule }]));
        }
        self.random.shuffle(&mut plans);
        let mut records = Vec::new();
        for (switch, cause, changes) in plans {
            records.push(Record::Plan { switch, cause });
            records.extend(changes);
        }
        records.push(Record::End);
        encoded(&records)
    }

    /// The evening, shortened until there are not too many changes and closed sets.
    fn evening(&mut self, most: usize, book: &Playbook, decisions: &mut Vec<Decision>) -> Evening {
        loop {
            let changes = agreed(book, decisions);
            let settled = if self.random.once_in(4) { self.random.below(changes.len() + 1) as u32 } else { 0 };
            if changes.len() <= most {
                let evening = Evening::new(changes, settled);
                if evening.moments.len() <= SETS {
                    return evening;
                }
            }
            decisions.pop();
        }
    }
}

/// The rule that sets a prefix to a port; port 0 removes.
fn set((prefix, length): (u32, u8), port: u16) -> Rule {
    rule(prefix, length, port)
}

/// A prefix of 16 bits, and some others within it, around it and beside it.
fn nested(random: &mut Random) -> Vec<(u32, u8)> {
    let base = random.pick(&[0x0A01_0000, 0x0A01_0000, 0, 0xFFFF_0000]);
    let (half, last) = (base | 0x8000, base | 0xFFFF);
    let mut others = vec![
        (base, 17),
        (half, 17),
        (kept(base, 8), 8),
        (0, 0),
        (0, 1),
        (0x8000_0000, 1),
        (half, 18),
        (base, 32),
        (half - 1, 32),
        (half, 32),
        (last, 32),
        (last - 1, 31),
        (base ^ 0x1_0000, 16),
    ];
    random.shuffle(&mut others);
    others.truncate(random.between(1, 4));
    [vec![(base, 16)], others].concat()
}

/// The network and the evening of a script.
pub fn drawn(random: Random, number: u64) -> Drawn {
    let mut d = Drawing::new(random);
    let row = number % 16 == 15;
    match number % 16 {
        15 => d.row(),
        14 => {
            d.strays();
            d.beside();
        }
        13 => d.wide(),
        0..3 => d.handed_over(),
        3 | 4 => d.taken_over(),
        5 | 6 => d.relayed(),
        _ => d.routes(),
    }
    if !row && d.random.once_in(2) {
        d.beside();
    }
    let (triggers, mut decisions) = d.decided();
    let book = d.book(&triggers);
    let (_, read) = read(&book);
    let most = if row { ROW_CHANGES } else { CHANGES };
    let evening = d.evening(most, &read, &mut decisions);
    let mut network = d.network;
    d.random.shuffle(&mut network.links);
    d.random.shuffle(&mut network.traffic);
    Drawn { network, book, decisions, evening }
}
