//! `calls`: random scripts of `drive`, compared line by line.

use crate::aim;
use crate::alter;
use crate::domain::Domain;
use crate::random::Random;
use crate::script::{Script, LONGEST};
use crate::tally::Tally;
use crate::Options;
use reference::drive::run;

/// The pairs of call and answer that the documents allow. `field` is the first byte of an altering body. The names
/// further down are the alterations, with what question 20 says of each.
pub const PAIRS: &str = "
switch setup: 0, 20
switch keys: made
switch receive: 0, 1, 2, 10, 11, 12, 13, 14, 15, 16, 17, 18, 19, 20, 21
raise: 0, 20, 27
raise in place: 0, 27
write event: 0, 12, 20, 21, 25, 26
write acknowledgement: 0, 12, 20, 21, 25
write FLOW_MOD: 0, 15, 25
lookup: refused 20, nothing, port
forward: nothing, port
alter switch: field 0, field 1, field 2, field 3, field 4, field 5, field 6, no field
read: 0, 12, 15, 30, 31, 34, 35, 36, 37, 38
read first: 0, 12, 15, 30, 31, 34, 35, 36, 37
controller setup: 0, 20
controller keys: made
controller receive: 0 offered, 0 acknowledged, 2, 10, 11, 12, 13, 14, 20, 21, 22
decide: 0, 12, 20, 22, 23, 24
write share: 0, 12, 20, 21, 25, 26
playbook: made
alter controller: field 0, field 1, field 2, field 3, field 4, field 5, field 6, field 7, field 8, field 9, no field
no call: unknown call, unknown end
script: whole, cut, longest, too long, empty
quorum: 1, 2, 3, 4, 5, 6, beyond
switch id in range: good
switch id out of range: 20
switch n out of range: 20
switch n larger: good
switch n below a held share: 20
last applied at a held share: 20
last applied below the held shares: good
last applied above a held share: 20
raised event: good
slot at n or above: 20
slot at n or above, number 0: 20
empty slot not zero: 20
slot not above the last applied: 20
slot with any rule: good
slot emptied: good
slots that all agree: good
slot out of range: good
entry past the count: 20
entry with port 0: 20
entry of length 33: 20
entry not well formed: 20
entry twice: 20
entries not rising: 20
entry with another port: good
entry out of range: good
count one more: 20
count one less: 20
count above 64: 20
count of 64 in a smaller table: 20
entry and count: good
table emptied in its count only: 20
controller id below n: good
controller id at n or above: 20
controller n out of range: 20
controller n at its id: 20
controller n above its id: good
last given below an undone change: 20
last given at the last undone change: good
last given high: good
acknowledged at an undone change: 20
acknowledged below the undone changes: good
acknowledged without undone changes: good
last decided serial: good
acknowledged of no switch: good
serial of no switch: good
undone number 0: 20
undone above the last given: 20
undone number twice: 20
undone not rising: 20
undone first number 0: 20
undone first number above its own: 20
undone first number its own: good
undone first number 1: good
undone flow: good
undone of no switch: 20
undone rule not well formed: 20
undone rule: good
undone past the count: 20
undone out of range: good
undone count one more: 20
undone count one less: 20
undone count above 64: 20
undone count 0 only: 20
undone of another switch: good
plan of no switch: 20
plan's trigger twice: 20
plan's cause: good
plan begins later: 20
plan begins earlier: 20
plan one longer: 20
plan one shorter: 20
plan past the count: 20
plan out of range: good
plans one more: 20
plans one less: 20
plans above 64: 20
an empty plan more: good
a change moved to the plan before: good
a change moved to a plan of 32: 20
plans exchanged: 20
all counts 0 only: 20
plan of many changes: 20
change of no switch: 20
change's rule not well formed: 20
change's flow: good
change's action: good
change past the count: 20
change out of range: good
changes one more: 20
changes one less: 20
changes above 512: 20
a change more: good
pair 65 on a switch: 20
pair 64 on a switch again: good
";

/// The edges, with the answers that each must have met; others are allowed. Where 0 and 1 stand, a quorum is awaited
/// or made.
pub const EDGES: &str = "
applied with n: 1, 2, 3, 4, 5, 6, 7, 8, 9, 10, 11, 12, 13, 14, 15, 16
32 undone and a plan of 32: 0
33 undone and a plan of 32: 24
63 undone and a plan of 1: 0
64 undone and a plan of 1: 24
64 undone and a plan of 0: 0
the last serial decided: 0, 22
the last numbers given: 0
the last serial raised: 0
a share with the last number: 0, 1, 2, 18
63 entries and a new one: 0, 1
64 entries and a new one: 19
64 entries and one of them: 0, 1
64 entries and a removal: 0, 1
64 entries and a removal of none: 0, 1
64 plans and 512 changes: 0
65 plans: 36
513 changes: 36
a plan of 32 changes: 0
a plan of 33 changes: 36
64 pairs: 0
65 pairs: 37
64 plans: 0
512 changes: 0
65 plans, the last one's trigger met: 35
33 changes and 65 pairs at once: 36
FLOW_MOD of length: 0, 1, 2, 3, 4, 5, 6, 7, 8, 9, 10, 11, 12, 13, 14, 15, 16, 17, 18, 19, 20, 21, 22, 23, 24, 25, 26, 27, 28, 29, 30, 31, 32
a FLOW_MOD of 64 bytes at the end of its frame: 0
a FLOW_MOD of 72 bytes at the end of its frame: 0
a FLOW_MOD of 88 bytes at the end of its frame: 0
a FLOW_MOD of 96 bytes at the end of its frame: 0
a FLOW_MOD of 64 bytes with one too few: 25
a FLOW_MOD of 72 bytes with one too few: 25
a FLOW_MOD of 88 bytes with one too few: 25
a FLOW_MOD of 96 bytes with one too few: 25
a FLOW_MOD past the frame: 25
a FLOW_MOD whose end is past the largest number: 25
a malformed rule and no room for it: 15
";

type Step = fn(&mut Domain);

/// The steps, with how often each profile takes them: shares, decisions, tables, playbooks, altered switches, altered
/// controllers, frames, and everything with noise.
const STEPS: [(Step, [usize; 8]); 24] = [
    (aim::share, [30, 8, 10, 0, 20, 0, 4, 6]),
    (aim::agreement, [40, 6, 10, 0, 20, 0, 2, 6]),
    (aim::written_share, [4, 30, 0, 4, 0, 12, 8, 6]),
    (aim::written_acknowledgement, [3, 14, 0, 0, 2, 6, 6, 4]),
    (aim::written_event, [2, 6, 0, 0, 4, 4, 10, 4]),
    (aim::acknowledgement, [1, 12, 0, 2, 0, 6, 2, 5]),
    (aim::event, [1, 4, 0, 0, 0, 4, 2, 5]),
    (aim::from_pool, [8, 8, 2, 0, 4, 4, 2, 5]),
    (aim::odd_bytes, [2, 2, 0, 0, 1, 1, 0, 5]),
    (aim::decide, [1, 20, 0, 4, 0, 10, 4, 5]),
    (aim::last_numbers, [0, 1, 0, 0, 0, 2, 0, 2]),
    (aim::full_undone, [0, 1, 0, 0, 0, 1, 0, 1]),
    (aim::repeat_without_room, [0, 0, 2, 0, 0, 0, 0, 0]),
    (aim::full_table, [0, 0, 20, 0, 1, 0, 0, 0]),
    (aim::odd_frame, [1, 2, 1, 0, 4, 4, 50, 5]),
    (aim::flow_mod, [2, 0, 2, 2, 2, 0, 20, 4]),
    (aim::lookup, [3, 0, 20, 0, 10, 0, 2, 4]),
    (aim::quorum, [1, 1, 0, 0, 1, 0, 1, 2]),
    (aim::odd_store, [1, 1, 0, 0, 1, 1, 4, 5]),
    (aim::odd_setup, [0, 0, 0, 2, 1, 1, 1, 5]),
    (aim::playbook, [0, 0, 0, 60, 0, 2, 0, 2]),
    (alter::switch, [1, 0, 2, 0, 60, 0, 1, 3]),
    (alter::controller, [0, 1, 0, 2, 0, 60, 1, 3]),
    (alter::crowded, [0, 0, 0, 1, 0, 1, 0, 0]),
];

/// How many steps a script of each profile has, about.
const LENGTHS: [usize; 8] = [900, 300, 120, 120, 300, 200, 500, 300];

/// The sizes of plans: small ones, and for deciding and altering at the limit large ones too.
const SIZES: [&[usize]; 2] = [&[0, 1, 1, 2, 2, 3, 5], &[0, 1, 2, 3, 8, 31, 32, 32]];

fn step(profile: usize, random: &mut Random) -> Step {
    let total: usize = STEPS.iter().map(|(_, weights)| weights[profile]).sum();
    let mut left = random.below(total);
    for (step, weights) in STEPS {
        if left < weights[profile] {
            return step;
        }
        left -= weights[profile];
    }
    aim::noise
}

/// Writes a script.
fn written(seed: u64, number: u64) -> Script {
    let mut random = Random::new(seed, 1, number);
    let profile = (number % 8) as usize;
    let sizes = SIZES[usize::from(matches!(profile, 1 | 5) && random.once_in(2))];
    let length = random.between(LENGTHS[profile] / 3, LENGTHS[profile]);
    let mut d = Domain::new(random, Script::new(), sizes);
    if d.random.once_in(6) {
        // Calls before anything is set up.
        for _ in 0..10 {
            aim::noise(&mut d);
        }
    }
    d.set_up();
    if d.random.once_in(6) {
        begin_high(&mut d);
    }
    for place in 0..length {
        let noisy = profile == 7 && d.random.once_in(3);
        let step = if noisy { aim::noise } else { step(profile, &mut d.random) };
        step(&mut d);
        if place % 25 == 24 {
            d.mend();
        }
        if d.script.bytes.len() > LONGEST - 70_000 {
            break;
        }
    }
    d.script
}

/// Ends that are near the top of their numbers.
fn begin_high(d: &mut Domain) {
    let top = u32::MAX - d.random.between(3, 12) as u32;
    for switch in d.few.switches.clone() {
        d.call(b'X', switch, &[&[2][..], &top.to_be_bytes()].concat());
        d.call(b'X', switch, &[&[3][..], &top.to_be_bytes(), &[1]].concat());
    }
}

/// A script filled up with calls that are none, to a length.
fn filled(script: &mut Script, length: usize) {
    while script.bytes.len() < length {
        let left = length - script.bytes.len();
        let body = match left {
            0..=3 => break,
            4..=65_539 => left - 4,
            _ => 65_000,
        };
        script.call(b'K', 3, &vec![7; body]);
    }
}

/// What a script is made into at last: most stay whole, some are cut in their last call, a few have a set length.
fn ended(script: &mut Script, seed: u64, number: u64) -> String {
    let mut random = Random::new(seed, 2, number);
    let (name, ending) = match number {
        8 => {
            filled(script, LONGEST);
            ("longest", "")
        }
        16 => {
            filled(script, LONGEST);
            script.bytes.push(b'Q');
            script.calls.clear();
            ("too long", "script too long\n")
        }
        24 => {
            script.bytes.clear();
            script.calls.clear();
            ("empty", "")
        }
        _ if random.once_in(3) && !script.calls.is_empty() => {
            script.cut(&mut random);
            ("cut", "cut call\n")
        }
        _ => ("whole", ""),
    };
    script.tally.count("script", name);
    ending.to_string()
}

/// One script: written, and compared where there is a program to compare with.
pub fn script(options: &Options, number: u64) -> (Tally, u64, Result<(), String>) {
    let mut script = written(options.seed, number);
    let ending = ended(&mut script, options.seed, number);
    if run(&script.bytes) != script.lines() + &ending {
        script.complain("the whole script has other lines than its calls".to_string());
    }
    let complaint = script.complaint.take();
    let calls = script.calls.len() as u64;
    let compared = match &options.program {
        Some(drive) => script.compare(drive, &ending, options.show),
        None if options.show => {
            script.show("");
            Ok(())
        }
        None => Ok(()),
    };
    let result = match complaint {
        Some(what) => compared.and(Err(format!("on the Rust side, {what}"))),
        None => compared,
    };
    (script.tally, calls, result)
}
