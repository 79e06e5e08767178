//! Isolation on small networks by hand: closed sets, ways, crossings at rest and under way, losses. On random evenings,
//! closed sets are compared with what the ideal controller can be fed, and chains with the switches they lead to.

mod support;

use reference::flow::Rule;
use reference::ideal::{agreed, Agreed, Decision, Ideal};
use reference::isolation::*;
use std::collections::BTreeSet;
use support::*;

/// 10.1.0.0/16 and its upper half.
const WHOLE: (u32, u8) = (0x0A01_0000, 16);
const UPPER: (u32, u8) = (0x0A01_8000, 17);

/// Ports: out by a link of client 1, of client 2, of all; on to a switch; a port without a link.
const OUT_1: u16 = 1;
const OUT_2: u16 = 2;
const OUT: u16 = 3;
const NOWHERE: u16 = 9;
fn to(switch: u8) -> u16 {
    100 + switch as u16
}

/// Every switch has the three links to the outside, and shared links to all others.
fn network(traffic: &[(u8, (u32, u8), u8)]) -> Network {
    let mut network = Network::default();
    for switch in 0..16 {
        let link = |port, behind, owner| Link { switch, port, behind, owner };
        network.links.push(link(OUT_1, Behind::Outside, Some(1)));
        network.links.push(link(OUT_2, Behind::Outside, Some(2)));
        network.links.push(link(OUT, Behind::Outside, None));
        network.links.extend((0..16).map(|next| link(to(next), Behind::Switch(next), None)));
    }
    for &(client, (prefix, length), switch) in traffic {
        network.traffic.push(Traffic { client, prefix, length, switch });
    }
    network
}

fn route((prefix, length): (u32, u8), port: u16) -> Rule {
    if port == 0 {
        remove(prefix, length)
    } else {
        set(prefix, length, port)
    }
}

/// An evening of decisions, each with its changes: flow, switch and rule.
fn evening(decisions: &[&[(u8, u8, Rule)]], settled: u32) -> Evening {
    let plans: Vec<Planned> = decisions.iter().zip(1..).map(|(changes, cause)| (0, cause, changes.to_vec())).collect();
    let list: Vec<Decision> = plans
        .iter()
        .map(|(switch, cause, _)| Decision { switch: *switch, serial: u32::from(*cause), cause: *cause })
        .collect();
    Evening::new(agreed(&book(&plans), &list), settled)
}

fn sets(evening: &Evening) -> BTreeSet<Set> {
    evening.moments.iter().map(|moment| moment.set).collect()
}

fn step(switch: u8, port: u16) -> Step {
    Step { switch, port: Some(port) }
}

#[test]
fn closed_sets() {
    let rule = route(WHOLE, OUT);
    // 2 waits for 1 by flow, 4 for 2 by switch and for nothing by flow: its decision is another one.
    let two = evening(&[&[(7, 0, rule), (7, 1, rule), (8, 2, rule)], &[(7, 1, rule)]], 0);
    let expected = [0b0000, 0b0001, 0b0011, 0b0100, 0b0101, 0b0111, 0b1011, 0b1111];
    assert_eq!(sets(&two), BTreeSet::from(expected));
    assert!(expected.iter().all(|set| two.is_closed(*set)));
    for set in [0b0010, 0b1000, 0b1001, 0b0110, 0b1110] {
        assert!(!two.is_closed(set));
    }
    assert_eq!(two.without(0b1111, 1), 0b0100, "4 waits for 2, which waits for 1");
    assert_eq!(two.without(0b1111, 3), 0b1011);
    assert_eq!(two.without(0b1011, 4), 0b0011);
    let settled = evening(&[&[(7, 0, rule), (7, 1, rule), (8, 2, rule)], &[(7, 1, rule)]], 2);
    assert_eq!(sets(&settled), BTreeSet::from([0b0011, 0b0111, 0b1011, 0b1111]));
    assert_eq!(sets(&evening(&[], 0)), BTreeSet::from([0]));
}

/// All sets that the ideal controller can have made, fed in every order that it takes.
fn fed(ideal: &Ideal, made: Set, all: &mut BTreeSet<Set>) {
    if !all.insert(made) {
        return;
    }
    for number in 1..=ideal.agreed.len() as u32 {
        let mut further = ideal.clone();
        if further.feed(number).is_ok() {
            fed(&further, made | bit(number), all);
        }
    }
}

/// A random evening of so many changes, on a few switches and with a few ports.
fn random_evening(random: &mut Random, most: u64) -> Evening {
    let mut changes = Vec::new();
    for number in 1..=random.below(most + 1) as u32 {
        let first = changes.last().map_or(1, |before: &Agreed| if random.chance(3) { number } else { before.first });
        let ports = [0, OUT_1, OUT, OUT, to(0), to(1), to(2), to(3), NOWHERE];
        let rule = route(*random.pick(&[WHOLE, WHOLE, UPPER]), *random.pick(&ports));
        changes.push(Agreed { number, first, flow: random.below(2) as u8, switch: random.below(4) as u8, rule });
    }
    Evening::new(changes, 0)
}

#[test]
fn closed_sets_are_what_runs_make() {
    let mut random = Random::new(1);
    for _ in 0..60 {
        let evening = random_evening(&mut random, 9);
        let mut all = BTreeSet::new();
        fed(&Ideal::new(evening.agreed.clone()), 0, &mut all);
        assert_eq!(sets(&evening), all);
        assert_eq!(evening.moments.len(), all.len(), "each set once");
        for moment in &evening.moments {
            let mut ideal = Ideal::new(evening.agreed.clone());
            let numbers = (1..=64).filter(|number| has(moment.set, *number));
            numbers.for_each(|number| ideal.feed(number).unwrap());
            assert!((0..16).all(|switch| ideal.table_equals(switch, &moment.tables[switch as usize])));
        }
    }
}

#[test]
fn how_ways_end() {
    let network = network(&[]);
    let evening = evening(
        &[&[
            (0, 0, route(WHOLE, to(1))),
            (0, 1, route(WHOLE, OUT_1)),
            (0, 2, route(WHOLE, NOWHERE)),
            (0, 3, route(WHOLE, to(4))),
            (0, 4, route(WHOLE, to(3))),
            (0, 5, route(WHOLE, to(6))),
            (0, 7, route(WHOLE, OUT)),
        ]],
        7,
    );
    assert_eq!(evening.moments.len(), 1);
    let tables = &evening.moments[0].tables;
    let way = |client, switch, address| network.way(tables, Packet { client, switch, address });
    let address = 0x0A01_0203;
    let over = vec![step(0, to(1)), step(1, OUT_1)];
    assert_eq!(way(1, 0, address), Way { steps: over.clone(), end: End::Arrives });
    assert_eq!(way(2, 0, address), Way { steps: over, end: End::Crosses });
    assert_eq!(way(1, 2, address), Way { steps: vec![step(2, NOWHERE)], end: End::Crosses });
    assert_eq!(way(2, 7, address).end, End::Arrives);
    let circle = way(1, 3, address);
    assert_eq!((circle.steps.len(), circle.end), (16, End::Circles));
    let gone = vec![step(5, to(6)), Step { switch: 6, port: None }];
    assert_eq!(way(1, 5, address), Way { steps: gone, end: End::Lost });
    assert_eq!(way(1, 0, 0x0A02_0000).end, End::Lost);
}

#[test]
fn crossing_at_rest() {
    let found = |traffic: &[(u8, (u32, u8), u8)], evening: &Evening| {
        at_rest(&network(traffic), evening).map(|found| (found.packet.address, found.set))
    };
    let alone = evening(&[&[(0, 0, route(WHOLE, OUT_1))]], 0);
    assert_eq!(found(&[(1, WHOLE, 0)], &alone), None);
    assert_eq!(found(&[(2, WHOLE, 1)], &alone), None, "it enters elsewhere");
    assert_eq!(found(&[(2, WHOLE, 0)], &alone), Some((0x0A01_0000, 0b1)));
    assert_eq!(found(&[], &alone), None);
    // The upper half only, and only until change 2 is made.
    let half = evening(&[&[(0, 0, route(UPPER, OUT_2)), (1, 0, route(UPPER, 0)), (2, 0, route(WHOLE, OUT))]], 0);
    assert_eq!(found(&[(1, WHOLE, 0)], &half), Some((0x0A01_8000, 0b1)));
    assert_eq!(found(&[(1, (0x0A01_0000, 17), 0)], &half), None);
    // A line of one address, and the last address of all.
    assert_eq!(found(&[(1, (0x0A01_FFFF, 32), 0)], &half), Some((0x0A01_FFFF, 0b1)));
    let last = evening(&[&[(0, 0, set(0xFFFF_FFFF, 32, OUT_2))]], 0);
    assert_eq!(found(&[(1, (0, 0), 0)], &last), Some((0xFFFF_FFFF, 0b1)));
    let hole = evening(&[&[(0, 0, set(0x0A01_8000, 32, OUT)), (0, 0, route(UPPER, OUT_2))]], 0);
    assert_eq!(found(&[(1, UPPER, 0)], &hole), Some((0x0A01_8001, 0b11)));
    // Settled, the set that crosses counts no more.
    let changes: &[(u8, u8, Rule)] = &[(0, 0, route(WHOLE, OUT_2)), (0, 0, route(WHOLE, OUT_1))];
    assert_eq!(found(&[(1, WHOLE, 0)], &evening(&[changes], 1)), Some((0x0A01_0000, 0b01)));
    assert_eq!(found(&[(1, WHOLE, 0)], &evening(&[changes], 2)), None);
}

/// Client 1's route leads over switch 0 and 1; it moves to switch 2, and switch 1 is handed over to client 2.
fn handed_over(settled: u32) -> Evening {
    let set_up = [(0, 1, route(WHOLE, OUT)), (0, 0, route(WHOLE, to(1)))];
    let moved = [(0, 2, route(WHOLE, OUT_1)), (0, 0, route(WHOLE, to(2))), (0, 1, route(WHOLE, OUT_2))];
    evening(&[&set_up, &moved], settled)
}

#[test]
fn crossing_under_way() {
    let network = network(&[(1, WHOLE, 0), (2, WHOLE, 1)]);
    for settled in 0..=3 {
        let evening = handed_over(settled);
        assert_eq!(at_rest(&network, &evening), None);
        let found = under_way(&network, &evening).unwrap();
        assert_eq!(found.packet, Packet { client: 1, switch: 0, address: 0x0A01_0000 });
        let steps: Vec<Step> = found.chain.iter().map(|(_, step)| *step).collect();
        assert_eq!(steps, [step(0, to(1)), step(1, OUT_2)]);
        assert!(found.chain.iter().all(|(set, _)| evening.is_closed(*set) && evening.is_settled(*set)));
        assert!(found.chain.windows(2).all(|pair| holds(pair[1].0, pair[0].0)));
        assert_eq!(found.chain[1].0, 0b11111, "5 waits for all others");
        assert!(!has(found.chain[0].0, 4), "with 4 made it goes to switch 2");
        let asked = |set| asked_at(&network, &evening, found.packet, set).into_iter().collect::<Vec<u8>>();
        assert_eq!(asked(0b11111), [0, 1, 2]);
    }
    // Once 4 is made, no packet is sent to switch 1 any more.
    assert_eq!(under_way(&network, &handed_over(4)), None);
}

/// Handing back is not crossing: the later switch is not asked at an earlier moment.
#[test]
fn moments_do_not_run_backwards() {
    let network = network(&[(1, WHOLE, 0)]);
    let changes = [(0, 1, route(WHOLE, OUT_2)), (0, 1, route(WHOLE, OUT_1)), (0, 0, route(WHOLE, to(1)))];
    assert_eq!(under_way(&network, &evening(&[&changes], 0)), None);
    // By another flow, 3 doesn't wait for 2.
    let changes = [(0, 1, route(WHOLE, OUT_2)), (0, 1, route(WHOLE, OUT_1)), (1, 0, route(WHOLE, to(1)))];
    assert!(at_rest(&network, &evening(&[&changes], 0)).is_some());
}

#[test]
fn losing() {
    let far_first = [(0, 1, route(WHOLE, OUT_1)), (0, 0, route(WHOLE, to(1)))];
    let near_first = [(0, 0, route(WHOLE, to(1))), (0, 1, route(WHOLE, OUT_1))];
    let network = network(&[(1, WHOLE, 0)]);
    assert_eq!(lost(&network, &evening(&[&far_first], 0)), None, "lost where it enters doesn't count");
    let found = lost(&network, &evening(&[&near_first], 0)).unwrap();
    assert_eq!((found.set, found.packet.address), (0b01, 0x0A01_0000));
    assert_eq!(found.way.steps, [step(0, to(1)), Step { switch: 1, port: None }]);
    assert_eq!(lost(&network, &evening(&[&near_first], 2)), None);
    // A removal, far switch first.
    let gone = [(0, 1, route(WHOLE, 0)), (0, 0, route(WHOLE, 0))];
    assert_eq!(lost(&network, &evening(&[&far_first, &gone], 0)).unwrap().set, 0b0111);
    let gone = [(0, 0, route(WHOLE, 0)), (0, 1, route(WHOLE, 0))];
    assert_eq!(lost(&network, &evening(&[&far_first, &gone], 0)), None);
}

/// Sixteen switches in a row: the last one is asked too.
#[test]
fn the_longest_way() {
    let row = |last: u16| -> Vec<(u8, u8, Rule)> {
        let on = |switch: u8| if switch == 15 { last } else { to(switch + 1) };
        (0..16).rev().map(|switch| (0, switch, route(WHOLE, on(switch)))).collect()
    };
    let network = network(&[(1, WHOLE, 0)]);
    assert_eq!(at_rest(&network, &evening(&[&row(OUT_1)], 0)), None);
    let found = at_rest(&network, &evening(&[&row(OUT_2)], 0)).unwrap();
    assert_eq!((found.set, found.way.steps.len()), (0xFFFF, 16));
    assert_eq!(under_way(&network, &evening(&[&row(OUT_2)], 0)).unwrap().chain.len(), 16);
    assert_eq!(under_way(&network, &evening(&[&row(to(0))], 0)), None);
}

/// The evening of the hand-over with one change altered.
fn altered(random: &mut Random) -> Evening {
    let mut changes = handed_over(0).agreed;
    let place = random.below(changes.len() as u64) as usize;
    match random.below(4) {
        0 => changes[place].flow = 1,
        1 => changes[place].switch = random.below(3) as u8,
        2 => changes[place].rule = route(UPPER, changes[place].rule.action.port()),
        _ => changes[place].rule = route(WHOLE, *random.pick(&[0, OUT, to(1), to(2), NOWHERE])),
    }
    Evening::new(changes, 0)
}

/// A packet crosses under way exactly if it may be asked for at a switch whose table then sends it across.
#[test]
fn chains_lead_where_packets_are_asked_for() {
    let mut random = Random::new(2);
    let network = network(&[(1, WHOLE, 0), (2, UPPER, 1)]);
    let (mut crossed, mut moving) = (0, 0);
    for _ in 0..150 {
        let evening = if random.chance(2) { random_evening(&mut random, 6) } else { altered(&mut random) };
        let across = |packet: Packet, moment: &Moment| {
            let asked = asked_at(&network, &evening, packet, moment.set);
            asked.into_iter().any(|switch| {
                let port = moment.lookup(switch, packet.address);
                port.is_some_and(|port| network.behind(packet.client, switch, port).is_none())
            })
        };
        let packets = packets(&network, &evening);
        let found = packets.iter().any(|packet| evening.moments.iter().any(|moment| across(*packet, moment)));
        assert_eq!(under_way(&network, &evening).is_some(), found);
        let resting = at_rest(&network, &evening).is_some();
        assert!(found || !resting, "a packet that crosses at rest crosses under way");
        crossed += u32::from(resting);
        moving += u32::from(found && !resting);
    }
    assert!(crossed > 20 && moving > 2, "{crossed} and {moving}");
}
