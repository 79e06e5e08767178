//! The rehearsal program: faults before the script, each record's questions and figure, and where a script stops; the
//! FLOW_MODs of what a switch applied.

mod support;

use reference::openflow::write_flow_mod;
use reference::rehearsal::{flow_mods, flow_mods_of, rehearse};
use support::*;

/// Document 01's example playbook, with n before it.
fn beginning(n: u8) -> Vec<u8> {
    let mut bytes = vec![n];
    let route = |port| set(0x0A00_0000, 8, port);
    bytes.extend(book_bytes(&[(5, 1, vec![(0, 2, route(3)), (0, 5, route(2))])]));
    bytes
}

/// What a script of these records prints, with four controllers: pairs of answer and figure.
fn played(records: &[&[u8]]) -> Vec<(u8, u32)> {
    let mut input = beginning(4);
    input.extend(records.concat());
    let printed = rehearse(&input);
    let mut pairs = Vec::new();
    for (place, line) in printed.lines().enumerate() {
        let words: Vec<u32> = line.split(' ').map(|word| word.parse().unwrap()).collect();
        assert_eq!((words.len(), words[0]), (3, place as u32 + 1));
        pairs.push((words[1] as u8, words[2]));
    }
    pairs
}

const DECIDE_0: &[u8] = &[0x21, 0, 5, 0, 0, 0, 1, 1];
const DECIDE_1: &[u8] = &[0x21, 1, 5, 0, 0, 0, 1, 1];

#[test]
fn faults_before_the_script() {
    assert_eq!(rehearse(&[]), "0 30 0\n");
    for n in [0, 17, 255] {
        assert_eq!(rehearse(&[n]), "0 20 0\n");
        assert_eq!(rehearse(&beginning(n)), "0 20 0\n");
    }
    assert_eq!(rehearse(&[4]), "0 30 0\n");
    assert_eq!(rehearse(&[4, 0x14]), "0 31 0\n");
    assert_eq!(rehearse(&[4, 0x11, 16, 0]), "0 12 0\n");
    assert_eq!(rehearse(&[4, 0x11, 16]), "0 30 0\n");
    assert_eq!(rehearse(&[4, 0x13]), "");
    assert_eq!(rehearse(&[16, 0x13]), "");
    let mut long = vec![4, 0x14];
    long.resize(20_000, 0);
    assert_eq!(rehearse(&long), "0 31 0\n", "the playbook comes first");
}

#[test]
fn the_longest_script() {
    let mut input = beginning(4);
    input.extend([0x26, 64].repeat(4096));
    let printed = rehearse(&input);
    assert_eq!(printed.lines().count(), 4096);
    assert!(printed.ends_with("\n4096 29 0\n"));
    input.push(0x26);
    assert_eq!(rehearse(&input), "0 28 0\n");
    let mut stopped = vec![4, 0x13, 0x13];
    stopped.resize(2 + 8193, 0);
    assert_eq!(rehearse(&stopped), "0 28 0\n", "every byte after the end record counts");
    stopped.pop();
    assert_eq!(rehearse(&stopped), "1 31 0\n");
}

#[test]
fn ids_outside_the_domain() {
    let records: [&[u8]; 9] = [
        &[0x21, 4, 5, 0, 0, 0, 1, 1],
        &[0x21, 0, 16, 0, 0, 0, 1, 1],
        &[0x22, 4, 2],
        &[0x22, 0, 16],
        &[0x23, 16, 0],
        &[0x23, 2, 4],
        &[0x25, 4, 2, 99],
        &[0x25, 0, 16, 0],
        &[0x25, 0, 2, 64],
    ];
    let answers: Vec<u8> = played(&records).iter().map(|pair| pair.0).collect();
    assert_eq!(answers, [12, 12, 12, 12, 12, 12, 12, 12, 29]);
    assert!(played(&records).iter().all(|pair| pair.1 == 0));
    let mut raw = vec![0x24, 16];
    raw.extend([0; SHARE]);
    assert_eq!(played(&[&raw]), [(12, 0)]);
}

/// The figure of a refused record is that of its end, except for the record's own questions.
#[test]
fn figures_of_refusals() {
    let mut raw = vec![0x24, 2];
    raw.extend(share(4, 2, 9, set(0, 0, 1)));
    let records: [&[u8]; 12] = [
        DECIDE_0,
        DECIDE_0,
        DECIDE_1,
        &[0x22, 0, 2],
        &[0x22, 1, 2],
        &raw,
        &[0x22, 3, 2],
        &[0x25, 3, 2, 5],
        &[0x26, 5],
        &[0x22, 4, 2],
        &[0x23, 9, 0],
        &[0x22, 0, 2],
    ];
    let expected =
        [(0, 2), (22, 2), (0, 2), (0, 0), (1, 1), (12, 1), (26, 1), (26, 1), (26, 0), (12, 0), (2, 2), (16, 1)];
    assert_eq!(played(&records), expected);
}

#[test]
fn keeping_and_delivering() {
    let records: [&[u8]; 13] = [
        DECIDE_0,
        DECIDE_1,
        &[0x26, 0],
        &[0x25, 0, 2, 0],
        &[0x25, 1, 2, 63],
        &[0x25, 0, 5, 0],
        &[0x25, 0, 2, 64],
        &[0x26, 64],
        &[0x26, 255],
        &[0x26, 0],
        &[0x26, 0],
        &[0x26, 63],
        &[0x26, 63],
    ];
    let expected =
        [(0, 2), (0, 2), (26, 0), (0, 0), (0, 0), (26, 0), (29, 0), (29, 0), (29, 0), (0, 0), (2, 0), (1, 1), (16, 1)];
    assert_eq!(played(&records), expected, "a refused keep leaves the place, a delivery too");
}

#[test]
fn raw_shares() {
    let raw = |switch: u8, bytes: Vec<u8>| [vec![0x24, switch], bytes].concat();
    let route = set(0x0A00_0000, 8, 1);
    let mut forged = share(1, 7, 3, route);
    forged[SHARE - 1] ^= 1;
    let records = [
        raw(7, share(0, 7, 3, route)),
        raw(7, forged),
        raw(8, share(1, 7, 3, route)),
        raw(7, share(1, 7, 3, route)),
        raw(7, vec![0; SHARE]),
    ];
    let records: Vec<&[u8]> = records.iter().map(Vec::as_slice).collect();
    assert_eq!(played(&records), [(0, 0), (14, 0), (13, 0), (1, 3), (11, 3)]);
}

#[test]
fn where_a_script_stops() {
    for kind in [0x00, 0x11, 0x13, 0x20, 0x27, 0xFF] {
        assert_eq!(played(&[DECIDE_0, &[kind], DECIDE_1]), [(0, 2), (31, 0)]);
    }
    let records: [&[u8]; 6] =
        [DECIDE_0, &[0x22, 4, 99], &[0x23, 99, 99], &[0x24; 2 + SHARE], &[0x25, 99, 99, 99], &[0x26, 99]];
    for record in records {
        for cut in 1..record.len() {
            assert_eq!(played(&[DECIDE_1, &record[..cut]]), [(0, 2), (30, 0)], "a cut record is asked nothing");
        }
    }
}

fn flow_mod(number: u32, rule: reference::flow::Rule) -> Vec<u8> {
    let mut frame = [0; 96];
    let (answer, length) = write_flow_mod(number, &rule, &mut frame, 0);
    assert_eq!(answer, 0);
    frame[..length].to_vec()
}

/// Held and repeated shares have none; a share that is applied has one, whether it was sent, kept or raw.
#[test]
fn flow_mods_of_a_switch() {
    let raw = |controller: u8, number: u32, rule| [vec![0x24, 2], share(controller, 2, number, rule)].concat();
    let (route, gone) = (set(0x0A00_0000, 8, 3), remove(0x0A00_0000, 8));
    let records = [
        DECIDE_0.to_vec(),
        DECIDE_1.to_vec(),
        vec![0x22, 0, 2, 0x22, 0, 2],
        vec![0x25, 1, 2, 4, 0x26, 4],
        raw(0, 9, gone),
        raw(1, 8, gone),
        raw(3, 9, gone),
        raw(2, 9, gone),
        vec![0x23, 2, 0, 0x23, 2, 1, 0x22, 0, 5],
        raw(0, 900, set(0, 0, 1)),
        raw(1, 900, set(0, 0, 1)),
        vec![0x22, 1, 5],
        vec![0x99, 0x22],
    ];
    let input = [beginning(4), records.concat()].concat();
    let made = [flow_mod(1, route), flow_mod(9, gone), flow_mod(900, set(0, 0, 1))].concat();
    assert_eq!(flow_mods(2, &input), Ok(made.clone()));
    assert_eq!(flow_mods(5, &input), Ok(flow_mod(2, set(0x0A00_0000, 8, 2))));
    assert_eq!(flow_mods(15, &input), Ok(Vec::new()));
    assert_eq!(flow_mods_of(&[vec![2], input].concat()), Ok(made));
}

#[test]
fn flow_mods_refused() {
    assert_eq!(flow_mods_of(&[]), Err(30));
    for switch in [16, 255] {
        assert_eq!(flow_mods_of(&[switch]), Err(12), "the switch is asked first");
        assert_eq!(flow_mods_of(&[switch, 0]), Err(12));
    }
    assert_eq!(flow_mods_of(&[15]), Err(30));
    assert_eq!(flow_mods_of(&[15, 17]), Err(20));
    assert_eq!(flow_mods_of(&[15, 4]), Err(30));
    assert_eq!(flow_mods_of(&[15, 4, 0x14]), Err(31));
    assert_eq!(flow_mods_of(&[15, 4, 0x13]), Ok(Vec::new()));
    let long = [vec![15, 4, 0x13], vec![0; 8193]].concat();
    assert_eq!(flow_mods_of(&long), Err(28));
    assert_eq!(flow_mods_of(&long[..3 + 8192]), Ok(Vec::new()));
}
