//! Altered states. Each alteration has a name and says whether the state still obeys its limits; calls are made over
//! it, and the field is put back. Alterations that need something to alter, such as an undone change, wait for it.

use crate::aim;
use crate::body::{rule, whole_frame, Body};
use crate::books::{self, encoded, ill_formed};
use crate::domain::Domain;
use reference::controller::{Controller, Undone};
use reference::drive::{values, Field, Part, Values, BOOK, CONTROLLER, SWITCH};
use reference::flow::{Action, Entry, Rule};
use reference::playbook::{Change, Plan};
use reference::switch::{Raised, Slot, Switch};

const TOP: u32 = u32::MAX;

/// An alteration: its name, whether question 20 is still answered yes, and the bodies of the calls that make it.
struct Altered {
    name: &'static str,
    good: bool,
    bodies: Vec<Vec<u8>>,
}

fn good(name: &'static str, bodies: Vec<Vec<u8>>) -> Option<Altered> {
    Some(Altered { name, good: true, bodies })
}

fn bad(name: &'static str, bodies: Vec<Vec<u8>>) -> Option<Altered> {
    Some(Altered { name, good: false, bodies })
}

// Bodies of the calls that alter

/// A field by its name, its place where it has places, and what it becomes.
fn alter<S>(fields: &[Field<S>], name: &str, place: usize, values: Values) -> Vec<u8> {
    let field = Field::named(fields, name).unwrap_or_else(|| panic!("drive has no field {name}"));
    field.body(place, values)
}

fn byte<S>(fields: &[Field<S>], name: &str, value: u8) -> Vec<u8> {
    alter(fields, name, 0, value.values())
}

fn last<S>(fields: &[Field<S>], number: u32) -> Vec<u8> {
    alter(fields, "last", 0, number.values())
}

fn slot(place: usize, slot: Slot) -> Vec<u8> {
    alter(SWITCH, "slot", place, slot.values())
}

fn entry(place: usize, entry: Entry) -> Vec<u8> {
    alter(SWITCH, "entry", place, entry.values())
}

fn acknowledged(switch: usize, number: u32) -> Vec<u8> {
    alter(CONTROLLER, "acknowledged", switch, number.values())
}

fn serial(switch: usize, serial: u32) -> Vec<u8> {
    alter(CONTROLLER, "serial", switch, serial.values())
}

fn undone(place: usize, change: Undone) -> Vec<u8> {
    alter(CONTROLLER, "undone", place, change.values())
}

fn counts(plans: usize, changes: usize) -> Vec<u8> {
    alter(BOOK, "counts", 0, values([plans as u32, changes as u32]))
}

fn plan(place: usize, plan: Plan) -> Vec<u8> {
    alter(BOOK, "plan", place, plan.values())
}

fn change(place: usize, change: Change) -> Vec<u8> {
    alter(BOOK, "change", place, change.values())
}

/// Does a body alter one of these fields?
fn is_of<S>(fields: &[Field<S>], names: &[&str], body: &[u8]) -> bool {
    Field::altered(fields, body).is_some_and(|field| names.contains(&field.name))
}

/// The body that gives a field back the value it has now.
fn restoring<S>(fields: &[Field<S>], state: &S, body: &[u8]) -> Option<Vec<u8>> {
    Field::altered(fields, body)?.restoring(state, body)
}

/// Some rule that is not all zero, well formed or not.
fn any_rule(d: &mut Domain) -> Rule {
    match d.random.below(4) {
        0 => ill_formed(&mut d.random),
        1 => Rule { prefix: 0, length: 0, action: Action::Set(0) },
        _ => rule(0x0A00_0000, 8, d.random.pick(&[0, 5])),
    }
}

/// A rule that is not well formed, `Set(0)` among them.
fn bad_rule(d: &mut Domain) -> Rule {
    match d.random.below(3) {
        0 => Rule { prefix: 0x0A00_0000, length: 8, action: Action::Set(0) },
        1 => Rule { prefix: 0, length: 0, action: Action::Set(0) },
        _ => ill_formed(&mut d.random),
    }
}

// What can be altered at a switch

fn switch_numbers(d: &mut Domain, s: &Switch) -> Option<Altered> {
    let lowest = s.slots.iter().map(|slot| slot.number).filter(|&number| number > 0).min();
    match d.random.below(9) {
        0 => good("switch id in range", vec![byte(SWITCH, "id", d.random.below(16) as u8)]),
        1 => bad("switch id out of range", vec![byte(SWITCH, "id", d.random.pick(&[16, 17, 255]))]),
        2 => bad("switch n out of range", vec![byte(SWITCH, "n", d.random.pick(&[0, 17, 18, 255]))]),
        3 => good("switch n larger", vec![byte(SWITCH, "n", d.random.between(s.n as usize, 16) as u8)]),
        4 => {
            let held = s.slots.iter().rposition(|slot| slot.number > 0)?;
            bad("switch n below a held share", vec![byte(SWITCH, "n", held as u8)]).filter(|_| held > 0)
        }
        5 => bad("last applied at a held share", vec![last(SWITCH, lowest?)]),
        6 => good("last applied below the held shares", vec![last(SWITCH, lowest? - 1)]),
        7 => bad("last applied above a held share", vec![last(SWITCH, lowest?.checked_add(1)?)]),
        _ => {
            let raised = Raised { serial: d.random.pick(&[0, 1, TOP - 1, TOP]), cause: d.random.byte() };
            good("raised event", vec![alter(SWITCH, "raised", 0, raised.values())])
        }
    }
}

fn switch_slots(d: &mut Domain, s: &Switch) -> Option<Altered> {
    let below = d.random.below(s.n.min(16) as usize);
    let above = s.last.checked_add(d.random.pick(&[1, 1, 2, 3]));
    let rule = any_rule(d);
    match d.random.below(8) {
        0 if s.n < 16 => {
            let place = d.random.pick(&[s.n as usize, 15]);
            bad("slot at n or above", vec![slot(place, Slot { number: above?, rule })])
        }
        1 if s.n < 16 => {
            bad("slot at n or above, number 0", vec![slot(15, Slot { number: 0, rule: rule_not_zero(rule) })])
        }
        2 => bad("empty slot not zero", vec![slot(below, Slot { number: 0, rule: rule_not_zero(rule) })]),
        3 if s.last > 0 => {
            let number = d.random.pick(&[1, s.last]);
            bad("slot not above the last applied", vec![slot(below, Slot { number, rule })])
        }
        4 => good("slot with any rule", vec![slot(below, Slot { number: above?, rule })]),
        5 => good("slot emptied", vec![slot(below, Slot { number: 0, rule: Rule::ZERO })]),
        6 => {
            // A quorum that lies in the slots already: nothing looks for it.
            let rule = d.some_rule();
            let all = (0..s.n.min(16) as usize).map(|place| slot(place, Slot { number: above.unwrap_or(TOP), rule }));
            above?;
            good("slots that all agree", all.collect())
        }
        7 => good("slot out of range", vec![slot(d.random.pick(&[16, 17, 255]), Slot { number: 9, rule })]),
        _ => None,
    }
}

fn rule_not_zero(rule: Rule) -> Rule {
    if rule == Rule::ZERO {
        Rule { length: 1, ..rule }
    } else {
        rule
    }
}

fn switch_table(d: &mut Domain, s: &Switch) -> Option<Altered> {
    let count = s.table.count;
    let some = if count > 0 { d.random.below(count) } else { 0 };
    let here = s.table.entries[some];
    let used = (count > 0).then_some(());
    let other = Entry { prefix: 0x0A00_0000, length: 8, port: 3 };
    match d.random.below(14) {
        0 if count < 64 => bad("entry past the count", vec![entry(d.random.pick(&[count, 63]), other)]),
        1 => used.and(bad("entry with port 0", vec![entry(some, Entry { port: 0, ..here })])),
        2 => {
            used.and(bad("entry of length 33", vec![entry(some, Entry { length: d.random.pick(&[33, 255]), ..here })]))
        }
        3 => {
            let rule = ill_formed(&mut d.random);
            used.and(bad(
                "entry not well formed",
                vec![entry(some, Entry { prefix: rule.prefix, length: rule.length, port: 1 })],
            ))
        }
        4 if count > 1 => {
            let next = s.table.entries[some.min(count - 2) + 1];
            bad("entry twice", vec![entry(some.min(count - 2), Entry { port: d.random.pick(&[1, next.port]), ..next })])
        }
        5 if count > 1 => {
            let first = some.min(count - 2);
            let (one, two) = (s.table.entries[first], s.table.entries[first + 1]);
            bad("entries not rising", vec![entry(first, two), entry(first + 1, one)])
        }
        6 => used.and(good("entry with another port", vec![entry(some, Entry { port: 77, ..here })])),
        7 => good("entry out of range", vec![entry(d.random.pick(&[64, 65, 255]), other)]),
        8 if count < 64 => bad("count one more", vec![byte(SWITCH, "count", count as u8 + 1)]),
        9 => bad("count one less", vec![byte(SWITCH, "count", count.checked_sub(1)? as u8)]),
        10 => bad("count above 64", vec![byte(SWITCH, "count", d.random.pick(&[65, 66, 128, 255]))]),
        11 if count < 64 => bad("count of 64 in a smaller table", vec![byte(SWITCH, "count", 64)]),
        12 if count < 64 => {
            // An entry past all others, and the count with it: a larger table, well made.
            let last = s.table.entries[..count].last().map_or((0, 0), |e| (e.prefix, e.length));
            let new = Entry { prefix: TOP, length: 32, port: d.random.pick(&[1, 65_535]) };
            let bodies = vec![entry(count, new), byte(SWITCH, "count", count as u8 + 1)];
            good("entry and count", bodies).filter(|_| last < (TOP, 32))
        }
        _ => used.and(bad("table emptied in its count only", vec![byte(SWITCH, "count", 0)])),
    }
}

// What can be altered at a controller

fn controller_numbers(d: &mut Domain, c: &Controller) -> Option<Altered> {
    let used = &c.undone.changes[..c.undone.count.min(64)];
    let switch = d.random.below(16);
    let there: Vec<u32> = used.iter().filter(|u| u.switch as usize == switch).map(|u| u.number).collect();
    match d.random.below(14) {
        0 => good("controller id below n", vec![byte(CONTROLLER, "id", d.random.below(c.n as usize) as u8)]),
        1 => bad("controller id at n or above", vec![byte(CONTROLLER, "id", d.random.pick(&[c.n, 16, 255]))]),
        2 => bad("controller n out of range", vec![byte(CONTROLLER, "n", d.random.pick(&[0, 17, 18, 255]))]),
        3 => bad("controller n at its id", vec![byte(CONTROLLER, "n", c.id)]).filter(|_| c.id > 0),
        4 => good(
            "controller n above its id",
            vec![byte(CONTROLLER, "n", d.random.between(c.id as usize + 1, 16) as u8)],
        ),
        5 => bad("last given below an undone change", vec![last(CONTROLLER, used.last()?.number - 1)]),
        6 => good("last given at the last undone change", vec![last(CONTROLLER, used.last()?.number)]),
        7 => good("last given high", vec![last(CONTROLLER, d.random.pick(&[TOP, TOP - 1, TOP - 32, TOP - 33]))])
            .filter(|_| c.last < TOP - 33),
        8 => {
            let at = d.random.pick(&[*there.first()?, *there.last()?, TOP]);
            bad("acknowledged at an undone change", vec![acknowledged(switch, at)])
        }
        9 => good("acknowledged below the undone changes", vec![acknowledged(switch, there.first()? - 1)]),
        10 if there.is_empty() => {
            good("acknowledged without undone changes", vec![acknowledged(switch, d.random.pick(&[0, 1, c.last, TOP]))])
        }
        11 => good("last decided serial", vec![serial(switch, d.random.pick(&[0, 1, TOP - 1, TOP]))]),
        12 => good("acknowledged of no switch", vec![acknowledged(d.random.pick(&[16, 255]), TOP)]),
        13 => good("serial of no switch", vec![serial(d.random.pick(&[16, 255]), TOP)]),
        _ => None,
    }
}

fn controller_undone(d: &mut Domain, c: &Controller) -> Option<Altered> {
    let count = c.undone.count;
    let used = (0 < count && count <= 64).then_some(count)?;
    let some = d.random.below(used);
    let here = c.undone.changes[some];
    match d.random.below(19) {
        0 => bad("undone number 0", vec![undone(some, Undone { number: 0, ..here })]),
        1 => bad(
            "undone above the last given",
            vec![undone(used - 1, Undone { number: c.last.checked_add(1)?, ..here })],
        ),
        2 if some + 1 < used => {
            let next = c.undone.changes[some + 1];
            bad("undone number twice", vec![undone(some, Undone { number: next.number, first: 1, ..here })])
        }
        3 if some + 1 < used => {
            let next = c.undone.changes[some + 1];
            bad("undone not rising", vec![undone(some, next), undone(some + 1, here)])
        }
        4 => bad("undone first number 0", vec![undone(some, Undone { first: 0, ..here })]),
        5 => bad(
            "undone first number above its own",
            vec![undone(some, Undone { first: here.number.checked_add(1)?, ..here })],
        ),
        6 => good("undone first number its own", vec![undone(some, Undone { first: here.number, ..here })]),
        7 => good("undone first number 1", vec![undone(some, Undone { first: 1, ..here })]),
        8 => good("undone flow", vec![undone(some, Undone { flow: d.random.byte() % 3, ..here })]),
        9 => bad("undone of no switch", vec![undone(some, Undone { switch: d.random.pick(&[16, 17, 255]), ..here })]),
        10 => {
            let rule = bad_rule(d);
            bad("undone rule not well formed", vec![undone(some, Undone { rule, ..here })])
        }
        11 => {
            let rule = aim::other_action(here.rule);
            good("undone rule", vec![undone(some, Undone { rule, ..here })])
        }
        12 if used < 64 => {
            let place = d.random.pick(&[used, 63]);
            let kept = if d.random.once_in(2) { here } else { Undone { flow: 1, ..Undone::ZERO } };
            bad("undone past the count", vec![undone(place, kept)])
        }
        13 => good("undone out of range", vec![undone(d.random.pick(&[64, 65, 255]), here)]),
        14 if used < 64 => bad("undone count one more", vec![byte(CONTROLLER, "count", used as u8 + 1)]),
        15 => bad("undone count one less", vec![byte(CONTROLLER, "count", used as u8 - 1)]),
        16 => bad("undone count above 64", vec![byte(CONTROLLER, "count", d.random.pick(&[65, 128, 255]))]),
        17 => bad("undone count 0 only", vec![byte(CONTROLLER, "count", 0)]),
        18 => {
            let switch = d.random.below(16) as u8;
            let fits = c.acknowledged[switch as usize] < here.number;
            good("undone of another switch", vec![undone(some, Undone { switch, ..here })]).filter(|_| fits)
        }
        _ => None,
    }
}

fn controller_plans(d: &mut Domain, c: &Controller) -> Option<Altered> {
    let book = &c.playbook;
    let (planned, listed) = (book.planned, book.listed);
    let used = (0 < planned && planned <= 64 && listed <= 512).then_some(planned)?;
    let some = d.random.below(used);
    let here = book.plans[some];
    let spare = Plan { switch: 1, cause: 1, first: listed, count: 0 };
    match d.random.below(17) {
        0 => bad("plan of no switch", vec![plan(some, Plan { switch: d.random.pick(&[16, 255]), ..here })]),
        1 if used > 1 => {
            let other = book.plans[(some + 1) % used];
            bad("plan's trigger twice", vec![plan(some, Plan { switch: other.switch, cause: other.cause, ..here })])
        }
        2 => good("plan's cause", vec![plan(some, Plan { cause: 222, ..here })])
            .filter(|_| book.plans[..used].iter().all(|p| p.cause != 222)),
        3 => bad("plan begins later", vec![plan(some, Plan { first: here.first + 1, ..here })]),
        4 => bad("plan begins earlier", vec![plan(some, Plan { first: here.first.checked_sub(1)?, ..here })]),
        5 => bad("plan one longer", vec![plan(some, Plan { count: here.count + 1, ..here })]),
        6 => bad("plan one shorter", vec![plan(some, Plan { count: here.count.checked_sub(1)?, ..here })]),
        7 if used < 64 => bad("plan past the count", vec![plan(d.random.pick(&[used, 63]), spare)]),
        8 => good("plan out of range", vec![plan(d.random.pick(&[64, 255]), spare)]),
        9 if used < 64 => bad("plans one more", vec![counts(used + 1, listed)])
            // An all-zero plan, trigger new, that begins where the changes end: a reader stores it from an empty book
            // only.
            .filter(|_| listed > 0),
        // A plan that is all zero leaves no trace.
        10 => bad("plans one less", vec![counts(used - 1, listed)]).filter(|_| book.plans[used - 1] != Plan::ZERO),
        11 => bad("plans above 64", vec![counts(d.random.pick(&[65, 128, 255]), listed)]),
        12 if used < 64 => {
            let new = Plan { cause: 223, ..spare };
            good("an empty plan more", vec![plan(used, new), counts(used + 1, listed)])
                .filter(|_| book.plans[..used].iter().all(|p| p.cause != 223))
        }
        13 if some + 1 < used => {
            // A change moved to the plan before: the sums stay right.
            let next = book.plans[some + 1];
            let shorter = Plan { first: next.first + 1, count: next.count.checked_sub(1)?, ..next };
            let bodies = vec![plan(some, Plan { count: here.count + 1, ..here }), plan(some + 1, shorter)];
            if here.count < 32 {
                good("a change moved to the plan before", bodies)
            } else {
                bad("a change moved to a plan of 32", bodies)
            }
        }
        14 if some + 1 < used => {
            // Two plans exchanged whole: each is right, their places are not, unless both are empty.
            let next = book.plans[some + 1];
            bad("plans exchanged", vec![plan(some, next), plan(some + 1, here)])
                .filter(|_| here.count > 0 || next.count > 0)
        }
        15 => bad("all counts 0 only", vec![counts(0, 0)]).filter(|_| listed > 0),
        _ => bad("plan of many changes", vec![plan(some, Plan { count: d.random.pick(&[33, 64, 255]), ..here })])
            .filter(|_| here.count < 33),
    }
}

fn controller_changes(d: &mut Domain, c: &Controller) -> Option<Altered> {
    let book = &c.playbook;
    let (planned, listed) = (book.planned, book.listed);
    let used = (0 < listed && listed <= 512).then_some(listed)?;
    let some = d.random.below(used);
    let here = book.changes[some];
    match d.random.below(10) {
        0 => bad("change of no switch", vec![change(some, Change { switch: d.random.pick(&[16, 255]), ..here })]),
        1 => {
            let rule = bad_rule(d);
            bad("change's rule not well formed", vec![change(some, Change { rule, ..here })])
        }
        2 => good("change's flow", vec![change(some, Change { flow: d.random.byte(), ..here })]),
        3 => {
            let rule = aim::other_action(here.rule);
            good("change's action", vec![change(some, Change { rule, ..here })])
        }
        4 if used < 512 => bad("change past the count", vec![change(d.random.pick(&[used, 511]), here)])
            .filter(|_| here != Change::ZERO),
        5 => good("change out of range", vec![change(d.random.pick(&[512, 513, 65_535]), here)]),
        6 if used < 512 => bad("changes one more", vec![counts(planned, used + 1)]),
        7 => bad("changes one less", vec![counts(planned, used - 1)]),
        8 => bad("changes above 512", vec![counts(planned, d.random.pick(&[513, 1024, 65_535]))]),
        9 if used < 512 => {
            let last = book.plans[planned.checked_sub(1)?];
            let bodies = vec![
                change(used, Change { rule: rule(0x0A00_0000, 8, 1), ..here }),
                plan(planned - 1, Plan { count: last.count + 1, ..last }),
                counts(planned, used + 1),
            ];
            good("a change more", bodies).filter(|_| last.count < 32 && used < 64)
        }
        _ => None,
    }
}

// Altering, calling, putting back

/// Says what question 20 was answered over an altered state; the name says what it should have been.
fn judge(d: &mut Domain, altered: &Altered, refused: bool) {
    d.script.tally.count(altered.name, if refused { "20" } else { "good" });
    if refused == altered.good {
        d.script.complain(format!("{}: 20 is answered {}", altered.name, if refused { "no" } else { "yes" }));
    }
}

pub fn switch(d: &mut Domain) {
    let end = d.some_switch();
    if !d.is_good_switch(end) {
        d.set_up_switch(end);
    }
    let state = d.script.switch(end).clone();
    let altered = match d.random.below(3) {
        0 => switch_numbers(d, &state),
        1 => switch_slots(d, &state),
        _ => switch_table(d, &state),
    };
    let Some(altered) = altered else { return aim::share(d) };
    for body in &altered.bodies {
        d.call(b'X', end, body);
    }
    // Looking asks 20 and alters nothing.
    let looked = d.call(b'L', end, &state.table.entries[0].prefix.to_be_bytes());
    judge(d, &altered, looked.is("refused 20"));
    // Forwarding goes on whatever the table is.
    for body in altered.bodies.iter().filter(|body| is_of(SWITCH, &["entry", "count"], body)) {
        let prefix = body.get(2..6).map_or(0, |b| u32::from_be_bytes([b[0], b[1], b[2], b[3]]));
        let near = d.random.long() >> d.random.pick(&[0, 1, 8, 16, 24, 31]);
        for address in [prefix, prefix ^ 1, prefix ^ near, d.random.pick(&state.table.entries).prefix] {
            d.call(b'T', end, &address.to_be_bytes());
        }
    }
    calls_at_switch(d, end, &state);
    if !d.random.once_in(4) {
        for body in &altered.bodies {
            if let Some(back) = restoring(SWITCH, &state, body) {
                d.call(b'X', end, &back);
            }
        }
    }
    if !d.is_good_switch(end) && d.random.once_in(2) {
        d.set_up_switch(end);
    }
}

fn calls_at_switch(d: &mut Domain, end: u8, state: &Switch) {
    for _ in 0..d.random.between(1, 4) {
        let frame = whole_frame(d.random.byte() % 17, 3);
        match d.random.below(7) {
            0 => d.call(b'R', end, &[9]),
            1 => d.call(b'I', end, &[8]),
            2 => d.call(b'E', end, &frame),
            3 => d.call(b'A', end, &frame),
            4 => {
                let entry = d.random.pick(&state.table.entries);
                d.call(b'T', end, &entry.prefix.to_be_bytes())
            }
            _ => {
                let controller = d.some_controller();
                let held = d.script.switch(end).slots[controller as usize];
                let repeat = d.random.once_in(2) && held.number > 0;
                let last = d.script.switch(end).last;
                let number = if repeat { held.number } else { last.saturating_add(1) };
                let rule = if repeat { held.rule } else { d.some_rule() };
                let bytes = d.share(controller, end, number, rule);
                d.call(b'M', end, &bytes)
            }
        };
    }
}

pub fn controller(d: &mut Domain) {
    let end = d.some_controller();
    if !d.is_good_controller(end) || d.script.controller(end).playbook.planned == 0 {
        d.read_book();
        d.set_up_controller(end);
    }
    // Something undone makes more of the alterations possible.
    let plans = d.script.controller(end).playbook.planned;
    if plans > 0 && d.script.controller(end).undone.count < 3 {
        let place = d.random.below(plans);
        let plan = d.script.controller(end).playbook.plans[place];
        let serial = d.script.controller(end).serials[plan.switch as usize].saturating_add(1);
        d.call(b'd', end, &Body::new().byte(plan.switch).long(serial).byte(plan.cause).0);
    }
    let state = d.script.controller(end).clone();
    let altered = match d.random.below(4) {
        0 => controller_numbers(d, &state),
        1 => controller_undone(d, &state),
        2 => controller_plans(d, &state),
        _ => controller_changes(d, &state),
    };
    let Some(altered) = altered else { return aim::decide(d) };
    for body in &altered.bodies {
        d.call(b'x', end, body);
    }
    // Deciding for no switch asks 20 and is refused by 12 otherwise.
    let decided = d.call(b'd', end, &[16, 0, 0, 0, 1, 1]);
    judge(d, &altered, decided.is("20"));
    if altered.bodies.iter().any(|body| Field::altered(BOOK, body).is_some()) && d.random.once_in(2) {
        d.call(b'p', end, &[]);
    }
    calls_at_controller(d, end);
    if !d.random.once_in(4) {
        for body in &altered.bodies {
            let back = restoring(CONTROLLER, &state, body).or_else(|| restoring(BOOK, &state.playbook, body));
            if let Some(back) = back {
                d.call(b'x', end, &back);
            }
        }
    }
    if !d.is_good_controller(end) && d.random.once_in(2) {
        d.read_book();
        d.set_up_controller(end);
    }
}

/// A playbook with 64 pairs on a switch, and one of its changes made into pair 65, or into one of the 64.
pub fn crowded(d: &mut Domain) {
    let end = d.some_controller();
    let book = encoded(&books::crowded(&mut d.random, 64));
    d.call(b'b', end, &book);
    d.set_up_controller(end);
    let book = d.script.controller(end).playbook.clone();
    let (listed, switch) = (book.listed.min(512), book.changes[0].switch);
    let pair = |change: &Change| (change.rule.prefix, change.rule.length);
    let twice =
        (0..listed).find(|&place| (0..place).any(|other| pair(&book.changes[other]) == pair(&book.changes[place])));
    let Some(place) = twice else { return };
    let here = book.changes[place];
    let other = d.random.pick(&book.changes[..listed]).rule;
    for (name, good, rule) in [
        ("pair 64 on a switch again", true, rule(other.prefix, other.length, 9)),
        ("pair 65 on a switch", false, rule(0x0102_0304, 32, 9)),
        ("pair 65 on a switch", false, rule(0x0102_0300, 24, 0)),
    ] {
        let altered = Altered { name, good, bodies: vec![change(place, Change { rule, ..here })] };
        d.call(b'x', end, &altered.bodies[0]);
        let decided = d.call(b'd', end, &[16, 0, 0, 0, 1, 1]);
        judge(d, &altered, decided.is("20"));
    }
    d.call(b'd', end, &Body::new().byte(switch).long(1).byte(0).0);
    d.mend();
}

fn calls_at_controller(d: &mut Domain, end: u8) {
    for _ in 0..d.random.between(1, 4) {
        let switch = if d.random.once_in(2) { d.some_switch() } else { d.random.below(16) as u8 };
        match d.random.below(5) {
            0 => {
                let serial = d.script.controller(end).serials[switch as usize].saturating_add(1);
                let cause = d.random.pick(&d.few.causes.clone());
                d.call(b'd', end, &Body::new().byte(switch).long(serial).byte(cause).0)
            }
            1 => {
                let known = d.script.controller(end).acknowledged[switch as usize];
                let number = known.saturating_add(d.random.below(3) as u32);
                let bytes = d.acknowledgement(switch, end, number);
                d.call(b'm', end, &bytes)
            }
            2 => {
                let serial = d.script.controller(end).serials[switch as usize].saturating_add(1);
                let bytes = d.event(switch, end, serial, 1);
                d.call(b'm', end, &bytes)
            }
            _ => d.call(b'w', end, &whole_frame(switch, 0)),
        };
    }
}
