//! FLOW_MODs: their lengths, bytes worked out by hand from OpenFlow 1.3.5, refusals, and that no two pairs of number and
//! rule give the same bytes.

mod support;

use reference::flow::{Action, Rule};
use reference::openflow::{flow_mod_length, write_flow_mod};
use std::collections::HashMap;
use support::*;

/// How many bytes the longest FLOW_MOD has.
const LONGEST: usize = 96;

/// Writes into a frame of so many bytes; the length told must be the message's, or 0 where it is refused.
fn written_mod(number: u32, rule: Rule, length: usize, at: usize) -> (u8, Vec<u8>) {
    let due = flow_mod_length(&rule);
    written(length, at, due, |frame, at| {
        let (answer, told) = write_flow_mod(number, &rule, frame, at);
        assert_eq!(told, if answer == 0 { due } else { 0 });
        answer
    })
}

/// The bytes of a message, in a frame that it fills.
fn bytes_of(number: u32, rule: Rule) -> Vec<u8> {
    let (answer, bytes) = written_mod(number, rule, flow_mod_length(&rule), 0);
    assert_eq!(answer, 0, "{rule:?}");
    bytes
}

/// A well-formed rule: the prefix is cut to its length.
fn cut_rule(prefix: u32, length: u8, port: u16) -> Rule {
    let past = 32 - length;
    Rule { prefix: (u64::from(prefix) >> past << past) as u32, length, action: Action::of_port(port) }
}

fn random_rule(random: &mut Random) -> Rule {
    let port = if random.chance(3) { 0 } else { *random.pick(&[1, 2, 255, 256, 65_279, 65_280, 65_535]) };
    cut_rule(random.next() as u32, random.below(33) as u8, port)
}

#[test]
fn lengths() {
    for length in 0..=32 {
        let prefix = if length == 0 { 0 } else { 1 << 31 };
        let due = if length == 0 { [64, 88] } else { [72, 96] };
        for (rule, due) in [(remove(prefix, length), due[0]), (set(prefix, length, 9), due[1])] {
            assert_eq!(flow_mod_length(&rule), due);
            let bytes = bytes_of(1, rule);
            assert_eq!(u16::from_be_bytes([bytes[2], bytes[3]]) as usize, due, "the header's length");
            assert_eq!(due % 8, 0);
        }
    }
}

/// Version 4, type 14, length and xid; cookie and its mask; table, command, timeouts and priority; no buffer, any port,
/// any group, flags and padding; the match; the instruction with its action.
#[test]
fn bytes_by_hand() {
    let default_route = hex("04 0e 0058 00000007  0000000000000000 0000000000000000  00 00 0000 0000 0000
         ffffffff ffffffff ffffffff 0000 0000
         0001 000a 80000a02 0800 000000000000
         0004 0018 00000000 0000 0010 00000003 0000 000000000000");
    assert_eq!(bytes_of(7, set(0, 0, 3)), default_route);
    let route = hex("04 0e 0060 ffffffff  0000000000000000 0000000000000000  00 00 0000 0000 0008
         ffffffff ffffffff ffffffff 0000 0000
         0001 0016 80000a02 0800 80001908 0a000000 ff000000 0000
         0004 0018 00000000 0000 0010 0000ffff 0000 000000000000");
    assert_eq!(bytes_of(u32::MAX, set(0x0A00_0000, 8, 65_535)), route);
    let host_removed = hex("04 0e 0048 01020304  0000000000000000 0000000000000000  00 04 0000 0000 0020
         ffffffff ffffffff ffffffff 0000 0000
         0001 0012 80000a02 0800 80001804 c0a80001 000000000000");
    assert_eq!(bytes_of(0x0102_0304, remove(0xC0A8_0001, 32)), host_removed);
    let default_removed = hex("04 0e 0040 00000000  0000000000000000 0000000000000000  00 04 0000 0000 0000
         ffffffff ffffffff ffffffff 0000 0000
         0001 000a 80000a02 0800 000000000000");
    assert_eq!(bytes_of(0, remove(0, 0)), default_removed);
}

/// The message laid out once more, its structures from the inside out, each with the length of what it holds.
fn laid_out(number: u32, rule: Rule) -> Vec<u8> {
    let mask: Vec<u8> = (0..4).map(|byte| (0xFF00u32 >> rule.length.saturating_sub(8 * byte).min(8)) as u8).collect();
    let mut fields = hex("80000a020800");
    match rule.length {
        0 => {}
        32 => fields.extend([hex("80001804"), rule.prefix.to_be_bytes().to_vec()].concat()),
        _ => fields.extend([hex("80001908"), rule.prefix.to_be_bytes().to_vec(), mask].concat()),
    }
    let mut matched = [vec![0, 1, 0, fields.len() as u8 + 4], fields].concat();
    matched.resize(matched.len().next_multiple_of(8), 0);
    let instructions = match rule.action {
        Action::Remove => Vec::new(),
        Action::Set(port) => {
            let output = [hex("00000010 0000"), port.to_be_bytes().to_vec(), vec![0; 8]].concat();
            [vec![0, 4, 0, output.len() as u8 + 8, 0, 0, 0, 0], output].concat()
        }
    };
    let command = if instructions.is_empty() { 4 } else { 0 };
    let middle = [vec![0; 17], vec![command, 0, 0, 0, 0, 0, rule.length], vec![0xFF; 12], vec![0; 4]].concat();
    let length = 8 + middle.len() + matched.len() + instructions.len();
    let header = [vec![4, 14, 0, length as u8], number.to_be_bytes().to_vec()].concat();
    [header, middle, matched, instructions].concat()
}

#[test]
fn laid_out_once_more() {
    let mut random = Random::new(21);
    for _ in 0..20_000 {
        let (number, rule) = (random.next() as u32, random_rule(&mut random));
        assert_eq!(bytes_of(number, rule), laid_out(number, rule), "{rule:?}");
    }
}

#[test]
fn refusals() {
    let malformed = [set(0x0A00_0001, 8, 1), remove(1, 0), set(0, 33, 1), remove(u32::MAX, 255), set(0, 0, 0)];
    for rule in malformed {
        for (length, at) in [(LONGEST, 0), (0, 0), (10, 99), (LONGEST, usize::MAX)] {
            assert_eq!(written_mod(1, rule, length, at), (15, Vec::new()), "the rule is asked first");
        }
    }
    for rule in [remove(0, 0), remove(0, 1), set(0, 0, 1), set(0, 32, 1)] {
        let due = flow_mod_length(&rule);
        for at in [0, 1, 40] {
            assert_eq!(written_mod(1, rule, at + due, at).0, 0, "its own length is enough");
            assert_eq!(written_mod(1, rule, at + due + 1, at).0, 0);
            assert_eq!(written_mod(1, rule, at + due - 1, at).0, 25);
        }
        for at in [LONGEST, LONGEST + 1, usize::MAX - due, usize::MAX - due + 1, usize::MAX - due + 2, usize::MAX] {
            assert_eq!(written_mod(1, rule, LONGEST, at), (25, Vec::new()), "an offset of {at}");
        }
        assert_eq!(written_mod(1, rule, 0, 0), (25, Vec::new()));
    }
}

/// Numbers and rules that differ in little, and any others: each pair has bytes of its own.
#[test]
fn no_two_pairs_alike() {
    let mut random = Random::new(22);
    let mut met = HashMap::new();
    let mut meet = |number: u32, rule: Rule| {
        let before = met.insert(bytes_of(number, rule), (number, rule));
        assert!(before.is_none_or(|pair| pair == (number, rule)), "{before:?} and {number} {rule:?}");
    };
    for length in 0..=32 {
        for prefix in [0, 0x8000_0000, 0xFFFF_FFFF, 0x0A00_0000, 0xFFFF_FF00] {
            for port in [0, 1, 4, 255, 256, 65_535] {
                for number in [0, 1, 4, 256, u32::MAX] {
                    meet(number, cut_rule(prefix, length, port));
                }
            }
        }
    }
    for _ in 0..50_000 {
        let number = if random.chance(2) { random.below(8) as u32 } else { random.next() as u32 };
        meet(number, random_rule(&mut random));
    }
}
