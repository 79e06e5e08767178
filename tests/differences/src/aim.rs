//! The steps of a script, each a call or a few that belong together: messages with good tags from states as they are,
//! damage, decisions, writing into frames, lookups, odd key stores, odd setups, playbooks, and calls that are none.

use crate::body::{frame, kept, rule, rule_body, tag_again, whole_frame, Body, RULE};
use crate::books::{at_a_limit, encoded, faulty, ill_formed, pair, Record};
use crate::domain::{Domain, Sent};
use crate::random::Random;
use crate::script::Reply;
use reference::drive::FRAME;
use reference::flow::{Action, Rule};
use reference::message::{ACKNOWLEDGEMENT_LENGTH as ACKNOWLEDGEMENT, EVENT_LENGTH as EVENT, SHARE_LENGTH as SHARE};
use reference::openflow::flow_mod_length;
use reference::tag::TAG_LENGTH as TAG;

const TOP: u32 = u32::MAX;

/// A number beside another, without leaving the range.
fn beside(d: &mut Domain, number: u32) -> u32 {
    match d.random.below(5) {
        0 => number.saturating_sub(1),
        1 | 2 => number,
        _ => number.saturating_add(1),
    }
}

/// A message out of a frame that was written, if it was.
fn written(reply: &Reply, offset: u64, length: usize) -> Option<Vec<u8>> {
    let at = usize::try_from(offset).ok()?;
    let frame = reply.frame();
    reply.is("0").then(|| frame.get(at..at + length).map(<[u8]>::to_vec))?
}

// Messages

/// Spoils a message in one way. Some ways give it a good tag again, so that the questions after the tag are put too.
fn damaged(d: &mut Domain, sent: &Sent) -> Sent {
    let mut sent = sent.clone();
    let bytes = &mut sent.bytes;
    let random = &mut d.random;
    if bytes.is_empty() {
        return sent;
    }
    let last = bytes.len() - 1;
    let mut again = false;
    match random.below(14) {
        0 => bytes[random.below(last + 1)] ^= 1 << random.below(8),
        1 => bytes.truncate(random.below(last + 1)),
        2 => bytes.truncate(last),
        3 => {
            let more = random.pick(&[1, 1, 2, 6, 7, 225]);
            bytes.extend(random.bytes(more));
        }
        4 => bytes[0] = random.pick(&[0, 1, 2, 3, 4, 0x12, 255]),
        5 => bytes[last] ^= 1 << random.below(8),
        6 => bytes[last - (TAG - 1).min(last)] ^= 1 << random.below(8),
        7 => {
            // Another sender, known or not, under the key of the first.
            bytes[1.min(last)] = random.pick(&[0, 1, d.n.wrapping_sub(1), d.n, 15, 16, 255]);
            again = random.once_in(2);
        }
        8 => {
            bytes[2.min(last)] = random.pick(&[0, 1, 15, 16, 255]);
            again = random.once_in(2);
        }
        9 => {
            let (controller, switch) = (random.byte(), random.byte());
            let key = d.key(controller, switch).to_vec();
            tag_again(&mut sent.bytes, &key);
            return sent;
        }
        10 => {
            sent.end = random.below(16) as u8;
            return sent;
        }
        11 => {
            sent.to_switch = !sent.to_switch;
            sent.end = random.below(16) as u8;
            return sent;
        }
        12 => {
            // Two bytes of the tag exchanged, or two differences that cancel.
            let flip = 1 << random.below(8);
            let (one, other) = (random.below(TAG).min(last), random.below(TAG).min(last));
            bytes[last - one] ^= flip;
            bytes[last - other] ^= flip;
        }
        _ => {
            // A share's rule, kept under a good tag.
            if bytes.len() == SHARE {
                let bad = Body::new().carried(ill_formed(random)).0;
                bytes[RULE].copy_from_slice(&bad);
                again = true;
            }
        }
    }
    if again {
        let bytes = &sent.bytes;
        let (controller, switch) = if bytes[0] == 2 { (bytes[1], bytes[2]) } else { (bytes[2], bytes[1]) };
        let key = d.key(controller, switch).to_vec();
        tag_again(&mut sent.bytes, &key);
    }
    sent
}

/// Delivers a message: as it is, after a damaged copy, damaged only, twice, or later.
fn send(d: &mut Domain, to_switch: bool, end: u8, bytes: Vec<u8>) {
    let sent = Sent { to_switch, end, bytes };
    match d.random.below(16) {
        0 | 1 => {
            let spoiled = damaged(d, &sent);
            d.deliver(&spoiled);
        }
        2 => {
            let spoiled = damaged(d, &sent);
            d.deliver(&spoiled);
            d.deliver(&sent);
        }
        3 => {
            d.deliver(&sent);
            d.deliver(&sent);
        }
        _ => {
            d.deliver(&sent);
        }
    }
    if d.random.once_in(3) {
        d.pool.push(sent);
        if d.pool.len() > 24 {
            d.pool.remove(0);
        }
    }
}

/// A share with a number and a rule near what the switch holds.
pub fn share(d: &mut Domain) {
    let (switch, controller) = (d.some_switch(), d.some_controller());
    let other = d.some_controller();
    let state = d.script.switch(switch).clone();
    let (own, slot) = (state.slots[controller as usize], state.slots[other as usize]);
    let number = match d.random.below(40) {
        0 => d.random.pick(&[0, 1, TOP, TOP - 1]),
        1..=4 => beside(d, state.last),
        5..=10 => beside(d, own.number),
        11..=16 => beside(d, slot.number),
        _ => state.last.saturating_add(d.random.pick(&[1, 1, 1, 2, 3])),
    };
    let rule = match d.random.below(8) {
        0 | 1 => own.rule,
        2 => slot.rule,
        3 if state.table.count > 0 && state.table.count <= 64 => {
            let entry = state.table.entries[d.random.below(state.table.count)];
            let port = d.random.pick(&[0, entry.port, entry.port ^ 1]);
            rule(entry.prefix, entry.length, port)
        }
        4 if d.random.once_in(4) => ill_formed(&mut d.random),
        _ => d.some_rule(),
    };
    let bytes = d.share(controller, switch, number, rule);
    send(d, true, switch, bytes);
}

/// A share that agrees with one held from another controller, so that quorums come about.
pub fn agreement(d: &mut Domain) {
    let switch = d.some_switch();
    let state = d.script.switch(switch);
    let held: Vec<_> = state.slots.iter().copied().filter(|slot| slot.number > state.last).collect();
    if held.is_empty() {
        return share(d);
    }
    let slot = d.random.pick(&held);
    let same = |d: &Domain, c: u8| d.script.switch(switch).slots[c as usize] == slot;
    let mut controller = d.some_controller();
    for _ in 0..4 {
        if same(d, controller) {
            controller = d.some_controller();
        }
    }
    // Now and then another rule under the number: counting numbers, or shares, shows here.
    let rule = if d.random.once_in(6) { d.some_rule() } else { slot.rule };
    let bytes = d.share(controller, switch, slot.number, rule);
    send(d, true, switch, bytes);
}

/// A repeat that the table has no room for any more: its share was held while there was.
pub fn repeat_without_room(d: &mut Domain) {
    let switch = d.some_switch();
    let last = d.script.switch(switch).last;
    if last > TOP - 200 {
        return;
    }
    fill_table(d, switch, 63);
    let late = rule(0xFE00_0000, 8, 9);
    let controller = d.some_controller();
    let held = d.share(controller, switch, last + 150, late);
    d.call(b'M', switch, &held);
    fill_table(d, switch, 64);
    d.call(b'M', switch, &held);
    let new = d.share(controller, switch, last + 151, rule(0xFD00_0000, 8, 9));
    d.call(b'M', switch, &new);
    let gone = d.share(controller, switch, last + 151, rule(0xFD00_0000, 8, 0));
    d.call(b'M', switch, &gone);
    d.call(b'M', switch, &gone);
}

/// Puts entries into a table until it has so many: as quorums of shares do, or as an altered state, which is quicker.
pub fn fill_table(d: &mut Domain, switch: u8, count: usize) {
    let by_shares = d.n <= 3 && d.script.switch(switch).last < TOP - 200;
    let mut tried = 0;
    while d.script.switch(switch).table.count < count && tried < 200 && d.is_good_switch(switch) {
        let (prefix, length) = pair(64 + tried);
        let state = d.script.switch(switch);
        tried += 1;
        if state.table.entries[..state.table.count].iter().any(|e| e.prefix == prefix && e.length == length) {
            continue;
        }
        if by_shares {
            let number = state.last + 1;
            let controller = d.some_controller();
            let bytes = d.share(controller, switch, number, rule(prefix, length, 7));
            d.call(b'M', switch, &bytes);
            let agreed = d.script.switch(switch).last == number;
            if !agreed {
                d.set_up_switch(switch);
            }
        } else {
            let place = state.table.count as u8;
            let before = state.table.entries[..place as usize].last();
            if before.is_some_and(|e| (e.prefix, e.length) >= (prefix, length)) {
                continue;
            }
            d.call(b'X', switch, &Body::new().byte(5).byte(place).long(prefix).byte(length).short(7).0);
            d.call(b'X', switch, &[6, place + 1]);
        }
    }
}

/// A table of about 63 or 64 entries, and shares at its edge.
pub fn full_table(d: &mut Domain) {
    let switch = d.some_switch();
    let count = d.random.pick(&[62, 63, 64, 64]);
    fill_table(d, switch, count);
    for _ in 0..d.random.between(2, 8) {
        let state = d.script.switch(switch);
        let (last, count) = (state.last, state.table.count);
        if last > TOP - 10 || count == 0 || count > 64 {
            return;
        }
        let place = d.random.below(count);
        let entry = d.script.switch(switch).table.entries[place];
        let port = d.random.pick(&[0, 1, 9]);
        let (prefix, length) = match d.random.below(4) {
            0 => (entry.prefix, entry.length),
            // The prefix is there with another length: that is not its entry.
            1 => (kept(entry.prefix, 15), 15),
            2 => (entry.prefix, 32),
            _ => pair(d.random.between(300, 330)),
        };
        let ahead = d.random.pick(&[1, 1, 2]);
        let bytes = d.share(0, switch, last + ahead, rule(prefix, length, port));
        send(d, true, switch, bytes);
        for controller in 1..d.n.min(7) {
            let bytes = d.share(controller, switch, last + ahead, rule(prefix, length, port));
            d.call(b'M', switch, &bytes);
        }
    }
    lookup(d);
}

/// A share the controller writes, delivered.
pub fn written_share(d: &mut Domain) {
    let controller = d.some_controller();
    let state = d.script.controller(controller);
    let undone: Vec<u8> = state.undone.changes[..state.undone.count.min(64)].iter().map(|u| u.switch).collect();
    let switch = if undone.is_empty() || d.random.once_in(6) { d.some_switch() } else { d.random.pick(&undone) };
    let offset = d.random.pick(&[0, 0, 0, 5, (FRAME - SHARE) as u64]);
    let reply = d.call(b'w', controller, &whole_frame(switch, offset));
    if let Some(bytes) = written(&reply, offset, SHARE) {
        if switch < 16 && d.few.switches.contains(&switch) {
            send(d, true, switch, bytes);
        }
    }
}

/// An acknowledgement the switch writes, delivered.
pub fn written_acknowledgement(d: &mut Domain) {
    let (switch, controller) = (d.some_switch(), d.some_controller());
    let offset = d.random.pick(&[0, 0, 1, (FRAME - ACKNOWLEDGEMENT) as u64]);
    let reply = d.call(b'A', switch, &whole_frame(controller, offset));
    if let Some(bytes) = written(&reply, offset, ACKNOWLEDGEMENT) {
        send(d, false, controller, bytes);
    }
}

/// An event raised, written, delivered, and sometimes decided.
pub fn written_event(d: &mut Domain) {
    let (switch, controller) = (d.some_switch(), d.some_controller());
    let cause = d.random.pick(&d.few.causes.clone());
    let letter = d.random.pick(b"RRRI");
    if !d.random.once_in(4) {
        d.call(letter, switch, &[cause]);
    }
    let offset = d.random.pick(&[0, 0, 2, (FRAME - EVENT) as u64]);
    let reply = d.call(b'E', switch, &whole_frame(controller, offset));
    if let Some(bytes) = written(&reply, offset, EVENT) {
        send(d, false, controller, bytes);
    }
    let raised = d.script.switch(switch).raised;
    if d.random.once_in(3) {
        for controller in 0..d.n {
            d.call(b'd', controller, &decision(switch, raised.serial, raised.cause));
        }
    }
}

/// An acknowledgement made up, near what the controller knows of the switch.
pub fn acknowledgement(d: &mut Domain) {
    let (switch, controller) = (d.some_switch(), d.some_controller());
    let state = d.script.controller(controller).clone();
    let known = state.acknowledged[switch as usize];
    let undone = &state.undone.changes[..state.undone.count.min(64)];
    let number = match d.random.below(24) {
        0 => d.random.pick(&[0, 1, TOP]),
        1..=8 => beside(d, known),
        9..=11 => known.saturating_sub(d.random.between(1, 4) as u32),
        12 => beside(d, state.last),
        13 => state.last.saturating_add(d.random.between(1, 40) as u32),
        _ if !undone.is_empty() => d.random.pick(undone).number,
        _ => known,
    };
    let bytes = d.acknowledgement(switch, controller, number);
    send(d, false, controller, bytes);
}

/// An event made up, with a serial near the last decided one.
pub fn event(d: &mut Domain) {
    let (switch, controller) = (d.some_switch(), d.some_controller());
    let decided = d.script.controller(controller).serials[switch as usize];
    let serial = if d.random.once_in(12) { d.random.pick(&[0, 1, TOP]) } else { beside(d, decided) };
    let cause = d.random.byte();
    let bytes = d.event(switch, controller, serial, cause);
    send(d, false, controller, bytes);
}

/// A message of before, late or repeated.
pub fn from_pool(d: &mut Domain) {
    if d.pool.is_empty() {
        return share(d);
    }
    let place = d.random.below(d.pool.len());
    let sent = d.pool[place].clone();
    let sent = if d.random.once_in(4) { damaged(d, &sent) } else { sent };
    d.deliver(&sent);
}

/// Bytes of odd lengths, with a kind or without.
pub fn odd_bytes(d: &mut Domain) {
    let around = [TAG - 1, TAG, TAG + 1, ACKNOWLEDGEMENT - 1, ACKNOWLEDGEMENT, EVENT, EVENT + 1];
    let beyond = [SHARE - 1, SHARE, SHARE + 1, SHARE + 2, SHARE + 3, 255, 300];
    let length = d.random.pick(&[&[0, 1], &around[..], &beyond].concat());
    let mut bytes = d.random.bytes(length);
    if let Some(kind) = bytes.first_mut().filter(|_| length > 0) {
        *kind = d.random.pick(&[1, 2, 3, 3, 0x82]);
    }
    let (letter, end) = (d.random.pick(b"Mm"), d.random.below(16) as u8);
    d.call(letter, end, &bytes);
}

// Decisions

fn decision(switch: u8, serial: u32, cause: u8) -> Vec<u8> {
    Body::new().byte(switch).long(serial).byte(cause).0
}

/// A decision whose trigger is in the playbook most of the time, with the next serial most of the time.
pub fn decide(d: &mut Domain) {
    let controller = d.some_controller();
    let book = &d.script.controller(controller).playbook;
    let plans = book.planned.min(64);
    let (mut switch, mut cause) = (d.some_switch(), 99);
    if plans > 0 && !d.random.once_in(8) {
        let place = d.random.below(plans);
        let plan = d.script.controller(controller).playbook.plans[place];
        (switch, cause) = (plan.switch, plan.cause);
    }
    if d.random.once_in(12) {
        switch = d.random.pick(&[15, 16, 17, 255]);
    }
    let decided = if switch < 16 { d.script.controller(controller).serials[switch as usize] } else { 0 };
    let serial = match d.random.below(16) {
        0 => d.random.pick(&[0, 1, TOP]),
        1 | 2 => decided,
        3 => decided.saturating_sub(1),
        4 => decided.saturating_add(d.random.between(1, 5) as u32),
        _ => decided.saturating_add(1),
    };
    let body = decision(switch, serial, cause);
    // The others take it too, so that their shares agree.
    if d.random.once_in(2) {
        for controller in 0..d.n {
            d.call(b'd', controller, &body);
        }
    } else {
        d.call(b'd', controller, &body);
    }
}

/// A decision whose changes just fit among the numbers, or just don't.
pub fn last_numbers(d: &mut Domain) {
    let controller = d.some_controller();
    let state = d.script.controller(controller);
    let plans: Vec<_> = state.playbook.plans[..state.playbook.planned.min(64)].to_vec();
    if plans.is_empty() {
        return;
    }
    let plan = d.random.pick(&plans);
    let serial = state.serials[plan.switch as usize % 16].saturating_add(1);
    let lacking = d.random.pick(&[0, 0, 0, 1, 1]);
    let last = (TOP - plan.count as u32).saturating_add(lacking);
    d.call(b'x', controller, &Body::new().byte(2).long(last).0);
    d.call(b'd', controller, &decision(plan.switch, serial, plan.cause));
    d.call(b'd', controller, &decision(plan.switch, serial.saturating_add(1), plan.cause));
    for _ in 0..3 {
        written_share(d);
    }
}

/// Fills a controller's undone changes to about half or to the brim, then decides and acknowledges at the edge.
pub fn full_undone(d: &mut Domain) {
    let controller = d.some_controller();
    let before = d.book.clone();
    let (one, many) = (d.random.pick(&[0, 1, 2, 30, 31]), d.random.pick(&[31, 32, 32]));
    let switches: Vec<u8> = (0..3).map(|_| d.some_switch()).collect();
    let mut book = Vec::new();
    for (cause, count) in [(1, 1), (2, one), (3, many)] {
        book.push(Record::Plan { switch: switches[0], cause });
        for _ in 0..count {
            let (switch, rule) = (d.random.pick(&switches), d.some_rule());
            book.push(Record::Change { flow: d.random.byte() % 3, switch, rule });
        }
    }
    book.push(Record::End);
    d.book = encoded(&book);
    d.read_book();
    d.set_up_controller(controller);
    for _ in 0..d.random.between(4, 20) {
        let state = d.script.controller(controller);
        let serial = state.serials[switches[0] as usize].saturating_add(1);
        let (count, undone) = (state.undone.count, state.undone.changes);
        if count > 0 && d.random.once_in(3) {
            let change = undone[d.random.below(count.min(64)).min(if d.random.once_in(3) { 63 } else { 3 })];
            let bytes = d.acknowledgement(change.switch, controller, change.number);
            d.call(b'm', controller, &bytes);
        } else {
            let cause = d.random.pick(&[1, 1, 2, 3, 3, 3, 4]);
            d.call(b'd', controller, &decision(switches[0], serial, cause));
        }
        if d.random.once_in(3) {
            let switch = d.random.pick(&switches);
            d.call(b'w', controller, &whole_frame(switch, 0));
        }
    }
    // A lagging controller: changes that are done as they are decided take no place.
    let ahead = d.script.controller(controller).last.saturating_add(d.random.between(1, 40) as u32);
    let bytes = d.acknowledgement(switches[1], controller, ahead);
    d.call(b'm', controller, &bytes);
    let serial = d.script.controller(controller).serials[switches[0] as usize].saturating_add(1);
    d.call(b'd', controller, &decision(switches[0], serial, 3));
    for &switch in &switches {
        d.call(b'w', controller, &whole_frame(switch, 0));
    }
    d.book = before;
}

// Frames, lookups, stores, setups

/// An offset for a message of a size in a frame of so many bytes: the last that fits, those beside it, and far ones.
fn some_offset(random: &mut Random, room: u64, size: u64) -> u64 {
    match random.below(10) {
        0 => room,
        1 => room + 1,
        2 => random.pick(&[FRAME as u64, FRAME as u64 + 1, 1 << 31, 1 << 32, (1 << 32) - size, 1 << 63]),
        3 => random.pick(&[u64::MAX, u64::MAX - 1, u64::MAX - size, u64::MAX - size + 1, u64::MAX - size + 2]),
        4 => random.next(),
        5 => 0,
        6 => (room + 1).saturating_sub(size),
        7 => room.saturating_sub(size + 1),
        _ => room.saturating_sub(size),
    }
}

/// Any of the three writes, at offsets and with frames around the edges.
pub fn odd_frame(d: &mut Domain) {
    let (letter, size) = d.random.pick(&[(b'E', EVENT), (b'A', ACKNOWLEDGEMENT), (b'w', SHARE)]);
    let length = match d.random.below(4) {
        0 => {
            let around = [ACKNOWLEDGEMENT - 1, ACKNOWLEDGEMENT, EVENT, SHARE - 1, SHARE, SHARE + 1];
            d.random.pick(&[&[0, 1], &around[..], &[FRAME - 1, FRAME, FRAME + 1, 255]].concat())
        }
        1 => size,
        _ => d.random.below(FRAME + 1),
    };
    let offset = some_offset(&mut d.random, length.min(FRAME) as u64, size as u64);
    let ends = d.n;
    let (end, mut receiver) =
        if letter == b'w' { (d.some_controller(), d.some_switch()) } else { (d.some_switch(), d.some_controller()) };
    if d.random.once_in(5) {
        receiver = d.random.pick(&[ends - 1, ends, 15, 16, 255]);
    }
    let mut body = frame(length, receiver, offset);
    match d.random.below(12) {
        0 => body.truncate(d.random.below(10)),
        1 => body.extend(d.random.bytes(3)),
        _ => {}
    }
    d.call(letter, end, &body);
}

/// A rule for a FLOW_MOD: of any length, of the script's own, or malformed.
fn some_rule(d: &mut Domain) -> Rule {
    let port = d.random.pick(&[0, 0, 0, 1, 256, 65_280, 65_535]);
    match d.random.below(12) {
        0 => ill_formed(&mut d.random),
        1 => Rule { action: Action::Set(0), ..d.some_rule() },
        2..=4 => d.some_rule(),
        5 | 6 => rule(0, 0, port),
        _ => {
            let length = d.random.between(0, 32) as u8;
            rule(kept(d.random.long(), length), length, port)
        }
    }
}

/// A FLOW_MOD of a rule, at offsets and with frames around the edges.
pub fn flow_mod(d: &mut Domain) {
    let rule = some_rule(d);
    let size = flow_mod_length(&rule);
    let length = match d.random.below(4) {
        0 => d.random.pick(&[0, 1, 63, 64, 65, 71, 72, 73, 87, 88, 89, 95, 96, 97, 254, 255]),
        1 => size,
        2 => d.random.between(size - 2, 255),
        _ => d.random.below(256),
    };
    let offset = match length.checked_sub(size) {
        Some(last) if d.random.once_in(2) => d.random.between(0, last) as u64,
        _ => some_offset(&mut d.random, length as u64, size as u64),
    };
    let number = match d.random.below(4) {
        0 => d.random.pick(&[0, 1, TOP - 1, TOP]),
        _ => d.random.long(),
    };
    let mut body = Body::new().byte(length as u8).wide(offset).long(number).bytes(&rule_body(&mut d.random, rule)).0;
    let whole = match d.random.below(16) {
        0 => {
            body.truncate(d.random.below(body.len()));
            false
        }
        1 => {
            body.extend(d.random.bytes(3));
            true
        }
        _ => true,
    };
    let end = d.random.below(16) as u8;
    let reply = d.call(b'F', end, &body);
    if whole {
        count_flow_mod(d, &rule, length as u64, offset, &reply);
    }
}

/// Which edge a FLOW_MOD was at, so that the tables tell whether each was met.
fn count_flow_mod(d: &mut Domain, rule: &Rule, length: u64, offset: u64, reply: &Reply) {
    if reply.is("0") {
        d.script.tally.count("FLOW_MOD of length", &rule.length.to_string());
    }
    let size = flow_mod_length(rule) as u64;
    let name = match offset.checked_add(size) {
        Some(end) if !rule.well_formed() && end > length => "a malformed rule and no room for it".to_string(),
        _ if !rule.well_formed() => return,
        None => "a FLOW_MOD whose end is past the largest number".to_string(),
        Some(_) if offset > length => "a FLOW_MOD past the frame".to_string(),
        Some(end) if end == length => format!("a FLOW_MOD of {size} bytes at the end of its frame"),
        Some(end) if end == length + 1 => format!("a FLOW_MOD of {size} bytes with one too few"),
        Some(_) => return,
    };
    d.script.tally.count(&name, &reply.answer);
}

/// Addresses within and beside the entries.
pub fn lookup(d: &mut Domain) {
    let switch = if d.random.once_in(10) { d.random.below(16) as u8 } else { d.some_switch() };
    let state = d.script.switch(switch);
    let (table, count) = (state.table.clone(), state.table.count.min(64));
    for _ in 0..d.random.between(1, 3) {
        let near = if count > 0 { table.entries[d.random.below(count)].prefix } else { d.some_rule().prefix };
        let address = match d.random.below(5) {
            0 => near,
            1 => near.wrapping_sub(1),
            2 => near | (d.random.long() >> d.random.below(32)),
            3 => near.wrapping_add(1),
            _ if d.random.once_in(2) => d.random.long(),
            _ => d.random.pick(&[0, TOP]),
        };
        let letter = d.random.pick(b"LLT");
        d.call(letter, switch, &address.to_be_bytes());
    }
}

/// The quorum of every n that document 01 has, and beyond.
pub fn quorum(d: &mut Domain) {
    let n = if d.random.once_in(4) { d.random.between(1, 255) } else { d.random.between(1, 16) };
    let end = d.random.below(16) as u8;
    d.call(b'Q', end, &[n as u8]);
}

/// A key store of another length, some calls over it, and the right one again.
pub fn odd_store(d: &mut Domain) {
    let right = 32 * d.n as usize;
    let length = d.random.pick(&[0, 31, 32, right - 1, right, right + 1, 511, 512, 513, 544, 545, 700]);
    let mut store = d.random.bytes(length);
    if d.random.once_in(2) {
        let (switch, controller) = (d.some_switch(), d.some_controller());
        let good = d.switch_store(switch);
        for (place, byte) in good.iter().enumerate().take(length) {
            store[place] = *byte;
        }
        d.call(b'K', switch, &store);
        let last = d.script.switch(switch).last;
        let rule = d.some_rule();
        let bytes = d.share(controller, switch, last.saturating_add(1), rule);
        d.call(b'M', switch, &bytes);
        d.call(b'M', switch, &bytes[..SHARE - 1]);
        let letter = d.random.pick(b"EA");
        d.call(letter, switch, &whole_frame(controller, 0));
        d.call(b'R', switch, &[1]);
        d.call(b'K', switch, &good);
    } else {
        let (switch, controller) = (d.some_switch(), d.some_controller());
        let good = d.controller_store(controller);
        for (place, byte) in good.iter().enumerate().take(length) {
            store[place] = *byte;
        }
        d.call(b'k', controller, &store);
        let bytes = d.acknowledgement(switch, controller, 1);
        d.call(b'm', controller, &bytes);
        d.call(b'm', controller, &bytes[1..]);
        d.call(b'w', controller, &whole_frame(switch, 0));
        decide(d);
        d.call(b'k', controller, &good);
    }
}

/// Setups with ids and n in and out of range, and calls over what they gave.
pub fn odd_setup(d: &mut Domain) {
    let n = d.random.pick(&[0, 1, 4, d.n, 15, 16, 17, 255]);
    let id = d.random.pick(&[0, n.wrapping_sub(1), n, 15, 16, 255]);
    let mut body = vec![id, n];
    match d.random.below(8) {
        0 => body.truncate(1),
        1 => body.push(7),
        _ => {}
    }
    if d.random.once_in(2) {
        let switch = d.some_switch();
        d.call(b'S', switch, &body);
        d.call(b'R', switch, &[3]);
        lookup(d);
    } else {
        let controller = d.some_controller();
        d.call(b's', controller, &body);
        d.call(b'd', controller, &decision(0, 1, 1));
        let bytes = d.acknowledgement(0, controller, 1);
        d.call(b'm', controller, &bytes);
    }
    if d.random.once_in(2) {
        d.mend();
    }
}

/// A playbook, good, faulty or at its limits, read whole or up to its end record; sometimes a controller gets it.
pub fn playbook(d: &mut Domain) {
    let sizes = [0, 1, 2, 3, 5, 8, 32];
    let mut limit = None;
    let bytes = match d.random.below(8) {
        0 => {
            let few = d.few.clone();
            let (name, records) = at_a_limit(&mut d.random, &few);
            if d.random.once_in(6) {
                faulty(&mut d.random, &few, records)
            } else {
                limit = Some(name);
                encoded(&records)
            }
        }
        1 => {
            let length = d.random.below(40);
            d.random.bytes(length)
        }
        2 => d.random.pick(&[&[][..], &[0x13], &[0x13, 0x13], &[0x11], &[0x12], &[0x11, 3, 3, 0x13]]).to_vec(),
        3 => encoded(&d.few.book(&mut d.random, &sizes)),
        _ => {
            let few = d.few.clone();
            let records = few.book(&mut d.random, &sizes);
            faulty(&mut d.random, &few, records)
        }
    };
    let (letter, end) = (d.random.pick(b"bf"), d.random.below(16) as u8);
    let reply = d.call(letter, end, &bytes);
    if let Some(name) = limit {
        d.script.tally.count(name, &reply.answer);
    }
    if d.random.once_in(4) {
        let controller = d.some_controller();
        d.set_up_controller(controller);
        d.call(b'p', controller, &[]);
        for _ in 0..4 {
            decide(d);
        }
    }
}

/// Any letter at any end with any body. Quorum of 0 is left out: document 01 has none.
pub fn noise(d: &mut Domain) {
    let letter = match d.random.below(4) {
        0 => d.random.byte(),
        _ => d.random.pick(b"SKMRIEALTXbfskmdwpxFZaz"),
    };
    let end = if d.random.once_in(6) { d.random.pick(&[16, 17, 128, 255]) } else { d.random.below(16) as u8 };
    let length = d.random.pick(&[0, 1, 2, 3, 5, 9, 14, 31, 32, 33]);
    let body = d.random.bytes(length);
    if letter != b'Q' {
        d.call(letter, end, &body);
    }
    if d.random.once_in(8) {
        d.mend();
    }
}

/// The rule with other values in the fields that a removal doesn't use.
pub fn other_action(rule: Rule) -> Rule {
    let action = if rule.action == Action::Remove { Action::Set(1) } else { Action::Remove };
    Rule { action, ..rule }
}
