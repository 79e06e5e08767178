//! The lines of `drive`, for calls of every letter.

mod support;

use reference::drive::{run, World};
use support::*;

fn call(letter: u8, end: u8, body: &[u8]) -> Vec<u8> {
    let mut bytes = vec![letter, end];
    bytes.extend((body.len() as u16).to_be_bytes());
    bytes.extend(body);
    bytes
}

/// The lines of a script of these calls.
fn lines(calls: &[(u8, u8, &[u8])]) -> Vec<String> {
    let script: Vec<u8> = calls.iter().flat_map(|(letter, end, body)| call(*letter, *end, body)).collect();
    let printed = run(&script);
    assert!(printed.is_empty() || printed.ends_with('\n'));
    printed.lines().map(str::to_string).collect()
}

/// The states after each of these alterations, as a call shows them that question 20 refuses.
fn altered(letter: u8, end: u8, bodies: &[&[u8]], shown_by: u8) -> Vec<String> {
    let calls: Vec<_> = bodies.iter().flat_map(|body| [(letter, end, *body), (shown_by, end, &[][..])]).collect();
    let printed = lines(&calls);
    assert!(printed.iter().step_by(2).all(|line| line.ends_with(" altered")));
    printed.into_iter().skip(1).step_by(2).collect()
}

fn example_bytes() -> Vec<u8> {
    let route = |port| set(0x0A00_0000, 8, port);
    book_bytes(&[(5, 1, vec![(0, 2, route(3)), (0, 5, route(2))])])
}

#[test]
fn lines_of_the_page() {
    assert_eq!(run(&[]), "");
    let mut forged = share(0, 3, 1, set(0, 0, 1));
    forged[SHARE - 1] ^= 1;
    let printed = lines(&[
        (b'S', 3, &[3, 4]),
        (b'K', 3, &switch_keys(3, 4)),
        (b'M', 3, &forged),
        (b'b', 9, &example_bytes()),
        (b's', 0, &[0, 4]),
        (b'd', 0, &[5, 0, 0, 0, 1, 1]),
    ]);
    let expected = [
        "switch 3 setup 0 state 3 4 0 0 0 count 0",
        "switch 3 keys 128",
        "switch 3 received 14 state 3 4 0 0 0 count 0",
        "controller 9 read 0 book 1 2 plan 0 5 1 0 2 change 0 0 2 167772160 8 set 3 change 1 0 5 167772160 8 set 2",
        "controller 0 setup 0 state 0 4 0 book 1 2 count 0",
        "controller 0 decided 0 state 0 4 2 book 1 2 serial 5 1 count 2 undone 0 1 1 0 2 167772160 8 set 3 \
         undone 1 2 1 0 5 167772160 8 set 2",
    ];
    assert_eq!(printed, expected);
}

#[test]
fn calls_at_a_switch() {
    let printed = lines(&[
        (b'L', 2, &[0, 0, 0, 0]),
        (b'S', 2, &[2, 4, 99]),
        (b'K', 2, &switch_keys(2, 4)),
        (b'M', 2, &share(1, 2, 7, set(0x0A00_0000, 8, 3))),
        (b'M', 2, &share(3, 2, 7, set(0x0A00_0000, 8, 3))),
        (b'M', 2, &share(0, 2, 9, remove(0, 0))),
        (b'R', 2, &[8]),
        (b'I', 2, &[]),
        (b'L', 2, &[10, 1, 2, 3]),
        (b'L', 2, &[11]),
        (b'T', 2, &[10]),
        (b'T', 2, &[]),
        (b'Q', 2, &[16]),
        (b'S', 2, &[16, 4]),
        (b'I', 2, &[4]),
    ]);
    let expected = [
        "switch 2 looked up refused 20",
        "switch 2 setup 0 state 2 4 0 0 0 count 0",
        "switch 2 keys 128",
        "switch 2 received 0 state 2 4 0 0 0 count 0 slot 1 7 167772160 8 set 3",
        "switch 2 received 1 state 2 4 7 0 0 count 1 entry 0 167772160 8 3",
        "switch 2 received 0 state 2 4 7 0 0 count 1 entry 0 167772160 8 3 slot 0 9 0 0 remove",
        "switch 2 raised 0 state 2 4 7 1 8 count 1 entry 0 167772160 8 3 slot 0 9 0 0 remove",
        "switch 2 raised in place 0 state 2 4 7 2 0 count 1 entry 0 167772160 8 3 slot 0 9 0 0 remove",
        "switch 2 looked up port 3",
        "switch 2 looked up nothing",
        "switch 2 forwarded port 3",
        "switch 2 forwarded nothing",
        "switch 2 quorum 6",
        "switch 2 setup 20 state 0 0 0 0 0 count 0",
        "switch 2 raised in place 0 state 0 0 0 1 4 count 0",
    ];
    assert_eq!(printed, expected);
}

fn frame_of(message: &[u8], at: usize) -> String {
    let mut frame = [0xEE; FRAME];
    frame[at..at + message.len()].copy_from_slice(message);
    frame.iter().map(|byte| format!("{byte:02x}")).collect()
}

#[test]
fn frames() {
    let keys = switch_keys(2, 4);
    let offset = |frame: u8, to: u8, at: u64| [vec![frame, to], at.to_be_bytes().to_vec()].concat();
    let (all, last) = (FRAME as u8, FRAME - ACKNOWLEDGEMENT);
    let printed = lines(&[
        (b'S', 2, &[2, 4]),
        (b'A', 2, &offset(all, 3, last as u64)),
        (b'K', 2, &keys),
        (b'A', 2, &offset(all, 3, last as u64)),
        (b'A', 2, &offset(255, 3, last as u64)),
        (b'A', 2, &offset(all - 1, 3, last as u64)),
        (b'A', 2, &offset(all, 3, u64::MAX)),
        (b'A', 2, &offset(all, 4, 0)),
        (b'E', 2, &offset(all, 3, 0)),
        (b'R', 2, &[6]),
        (b'E', 2, &[EVENT as u8, 3]),
        (b'E', 2, &[]),
    ]);
    let refused =
        |answer: u8| format!("switch 2 written {answer} state 2 4 0 0 0 count 0 frame {}", "ee".repeat(FRAME));
    let good =
        format!("switch 2 written 0 state 2 4 0 0 0 count 0 frame {}", frame_of(&acknowledgement(2, 3, 0), last));
    assert_eq!(printed[1], refused(21));
    assert_eq!(printed[3], good);
    assert_eq!(printed[4], good, "a frame has at most so many bytes");
    assert_eq!(printed[5..9], [refused(25), refused(25), refused(12), refused(26)]);
    let event = format!("switch 2 written 0 state 2 4 0 1 6 count 0 frame {}", frame_of(&event(2, 3, 1, 6), 0));
    assert_eq!(printed[10], event);
    assert_eq!(printed[11], format!("switch 2 written 25 state 2 4 0 1 6 count 0 frame {}", "ee".repeat(FRAME)));
}

/// The body of a FLOW_MOD's call: the frame's length, the offset, the number, then the rule.
fn flow_mod(frame: u8, at: u64, number: u32, rule: &[u8]) -> Vec<u8> {
    [&[frame][..], &at.to_be_bytes(), &number.to_be_bytes(), rule].concat()
}

#[test]
fn flow_mods() {
    let default = [0, 0, 0, 0, 0, 0, 0, 0];
    let route = [10, 0, 0, 0, 8, 255, 0, 3];
    let printed = lines(&[
        (b'F', 0, &flow_mod(66, 1, 7, &default)),
        (b'F', 15, &flow_mod(96, 0, 7, &route)),
        (b'F', 3, &flow_mod(65, 2, 7, &default)),
        (b'F', 3, &flow_mod(64, u64::MAX - 63, 7, &default)),
        (b'F', 3, &flow_mod(2, 0, 7, &[10, 0, 0, 1, 8, 1, 0, 3])),
        (b'F', 3, &flow_mod(2, 0, 7, &[0, 0, 0, 0, 0, 1, 0, 0])),
        (b'F', 3, &[]),
        (b'F', 3, &flow_mod(64, 0, 7, &[0, 0, 0, 0, 0, 0, 0, 9, 99])),
        (b'F', 3, &[64]),
        (b'F', 16, &flow_mod(64, 0, 7, &default)),
    ]);
    let fixed = |length: u8, number: u8, command: u8, priority: u8| {
        let zeros = "0".repeat(34);
        format!(
            "040e00{length:02x}000000{number:02x}{zeros}{command:02x}0000000000{priority:02x}{}00000000",
            "f".repeat(24)
        )
    };
    let any = "0001000a80000a020800000000000000";
    let matched = "0001001680000a02080080001908".to_string() + "0a000000ff0000000000";
    let output = "00040018000000000000001000000003".to_string() + &"0".repeat(16);
    let expected = [
        format!("flowmod 0 ee{}{any}ee", fixed(64, 7, 4, 0)),
        format!("flowmod 0 {}{matched}{output}", fixed(96, 7, 0, 8)),
        format!("flowmod 25 {}", "ee".repeat(65)),
        format!("flowmod 25 {}", "ee".repeat(64)),
        "flowmod 15 eeee".to_string(),
        "flowmod 15 eeee".to_string(),
        "flowmod 25 -".to_string(),
        format!("flowmod 0 {}{any}", fixed(64, 7, 4, 0)),
        format!("flowmod 0 {}{any}", fixed(64, 0, 4, 0)),
        "unknown end".to_string(),
    ];
    assert_eq!(printed, expected);
}

#[test]
fn calls_at_a_controller() {
    let keys = controller_keys(1);
    let with_more = [example_bytes(), vec![0x99]].concat();
    let share_bytes = share(1, 2, 1, set(0x0A00_0000, 8, 3));
    let printed = lines(&[
        (b'f', 0, &with_more),
        (b's', 1, &[1, 4]),
        (b'k', 1, &[&keys[..], &[7; 100]].concat()),
        (b'm', 1, &event(5, 1, 1, 1)),
        (b'k', 1, &keys),
        (b'm', 1, &event(5, 1, 1, 1)),
        (b'd', 1, &[5, 0, 0, 0, 1, 1]),
        (b'w', 1, &[FRAME as u8, 2, 0, 0, 0, 0, 0, 0, 0, (FRAME - SHARE) as u8]),
        (b'w', 1, &[FRAME as u8, 5]),
        (b'm', 1, &acknowledgement(2, 1, 1)),
        (b'p', 1, &[]),
        (b'b', 1, &with_more),
        (b's', 1, &[1, 4]),
        (b's', 1, &[4, 4]),
        (b'f', 1, &[0x14]),
    ]);
    let two = "undone 0 1 1 0 2 167772160 8 set 3 undone 1 2 1 0 5 167772160 8 set 2";
    let book = "book 1 2 plan 0 5 1 0 2 change 0 0 2 167772160 8 set 3 change 1 0 5 167772160 8 set 2";
    let expected = [
        format!("controller 0 read first 0 24 {book}"),
        "controller 1 setup 0 state 1 4 0 book 1 2 count 0".to_string(),
        "controller 1 keys 544".to_string(),
        "controller 1 received 21 state 1 4 0 book 1 2 count 0".to_string(),
        "controller 1 keys 512".to_string(),
        "controller 1 received 0 offered 5 1 1 state 1 4 0 book 1 2 count 0".to_string(),
        format!("controller 1 decided 0 state 1 4 2 book 1 2 serial 5 1 count 2 {two}"),
        format!(
            "controller 1 written 0 state 1 4 2 book 1 2 serial 5 1 count 2 {two} frame {}",
            frame_of(&share_bytes, FRAME - SHARE)
        ),
        format!("controller 1 written 26 state 1 4 2 book 1 2 serial 5 1 count 2 {two} frame {}", "ee".repeat(FRAME)),
        "controller 1 received 0 state 1 4 2 book 1 2 acknowledged 2 1 serial 5 1 count 1 \
         undone 0 2 1 0 5 167772160 8 set 2"
            .to_string(),
        format!("controller 1 holds {book}"),
        "controller 1 read 38 book 0 0".to_string(),
        "controller 1 setup 0 state 1 4 0 book 0 0 count 0".to_string(),
        "controller 1 setup 20 state 0 0 0 book 0 0 count 0".to_string(),
        "controller 1 read first 31 0 book 0 0".to_string(),
    ];
    assert_eq!(printed, expected);
}

#[test]
fn altering_a_switch() {
    let bodies: [&[u8]; 14] = [
        &[0, 200],
        &[1, 4],
        &[2, 0, 0, 1, 0],
        &[3, 0, 0, 0, 9, 8],
        &[4, 15, 0, 0, 0, 1, 10, 0, 0, 0, 8, 0, 0, 5],
        &[4, 15, 0, 0, 0, 0, 0, 0, 0, 0, 0, 7],
        &[4, 15],
        &[4, 16, 1, 1, 1, 1],
        &[5, 63, 0, 0, 0, 1, 99, 0, 1],
        &[5, 63],
        &[5, 64, 1, 1, 1, 1],
        &[6, 200],
        &[7, 1],
        &[],
    ];
    let expected = [
        "switch 0 raised 20 state 200 0 0 0 0 count 0",
        "switch 0 raised 20 state 200 4 0 0 0 count 0",
        "switch 0 raised 20 state 200 4 256 0 0 count 0",
        "switch 0 raised 20 state 200 4 256 9 8 count 0",
        "switch 0 raised 20 state 200 4 256 9 8 count 0 slot 15 1 167772160 8 remove",
        "switch 0 raised 20 state 200 4 256 9 8 count 0 slot 15 0 0 0 set 0",
        "switch 0 raised 20 state 200 4 256 9 8 count 0",
        "switch 0 raised 20 state 200 4 256 9 8 count 0",
        "switch 0 raised 20 state 200 4 256 9 8 count 0 entry 63 1 99 1",
        "switch 0 raised 20 state 200 4 256 9 8 count 0",
        "switch 0 raised 20 state 200 4 256 9 8 count 0",
        "switch 0 raised 20 state 200 4 256 9 8 count 200",
        "switch 0 raised 20 state 200 4 256 9 8 count 200",
        "switch 0 raised 20 state 0 4 256 9 8 count 200",
    ];
    assert_eq!(altered(b'X', 0, &bodies, b'R'), expected);
}

#[test]
fn altering_a_controller() {
    let bodies: [&[u8]; 16] = [
        &[0, 3],
        &[1, 17],
        &[2, 255, 255, 255, 255],
        &[3, 15, 0, 0, 0, 2],
        &[3, 16, 0, 0, 0, 2],
        &[4, 1, 0, 0, 0, 3],
        &[3, 15],
        &[5, 63, 0, 0, 0, 9, 0, 0, 0, 8, 7, 6, 10, 0, 0, 0, 8, 1, 0, 5],
        &[5, 64, 1],
        &[6, 65],
        &[7, 70, 2, 1],
        &[8, 63, 1, 2, 1, 0, 33],
        &[8, 64, 1, 2, 1, 0, 33],
        &[9, 1, 255, 4, 5, 0, 0, 0, 0, 0, 9, 0, 0],
        &[9, 2, 0, 4, 5],
        &[10, 2, 0, 4, 5],
    ];
    let printed = altered(b'x', 15, &bodies, b'd');
    let undone = "undone 63 9 8 7 6 167772160 8 set 5";
    let state = format!("state 3 17 4294967295 book 70 513 serial 1 3 count 65 {undone}");
    assert_eq!(printed[3], "controller 15 decided 20 state 3 17 4294967295 book 0 0 acknowledged 15 2 count 0");
    assert_eq!(printed[4], printed[3]);
    assert_eq!(
        printed[5],
        "controller 15 decided 20 state 3 17 4294967295 book 0 0 acknowledged 15 2 serial 1 3 count 0"
    );
    assert_eq!(printed[6], "controller 15 decided 20 state 3 17 4294967295 book 0 0 serial 1 3 count 0");
    assert_eq!(printed[8], printed[7]);
    for line in &printed[10..16] {
        assert_eq!(*line, format!("controller 15 decided 20 {state}"));
    }
    let held =
        [&[(b'x', 15, bodies[10]), (b'x', 15, bodies[11])][..], &[(b'x', 15, bodies[13]), (b'p', 15, &[])]].concat();
    let holds = "controller 15 holds book 70 513 plan 63 1 2 256 33 change 511 4 5 0 0 set 0";
    assert_eq!(lines(&held).last().map(String::as_str), Some(holds));
}

#[test]
fn what_is_no_call() {
    let printed = lines(&[(b'Z', 0, &[]), (b'Z', 16, &[1]), (b'S', 16, &[]), (b'p', 255, &[]), (b'Q', 15, &[4])]);
    assert_eq!(printed, ["unknown call", "unknown call", "unknown end", "unknown end", "switch 15 quorum 2"]);
    let whole = [call(b'Q', 0, &[7]), call(b'X', 99, &[7, 8, 9])].concat();
    for cut in 6..whole.len() {
        assert_eq!(run(&whole[..cut]), "switch 0 quorum 3\ncut call\n");
    }
    assert_eq!(run(&whole), "switch 0 quorum 3\nunknown end\n");
    assert_eq!(run(b"?"), "cut call\n");
}

#[test]
fn the_longest_script() {
    let mut script = call(b'?', 0, &[0; 12]).repeat(65_536);
    assert_eq!(script.len(), 1_048_576);
    assert_eq!(run(&script).lines().count(), 65_536);
    script.push(0);
    assert_eq!(run(&script), "script too long\n");
}

#[test]
fn a_world_begins_empty() {
    let mut world = World::new();
    assert_eq!(world.call(b'M', 3, &[]), "switch 3 received 20 state 0 0 0 0 0 count 0");
    assert_eq!(world.call(b'p', 3, &[]), "controller 3 holds book 0 0");
    assert_eq!(world.call(b'K', 3, &[1; 600]), "switch 3 keys 544");
    assert!(world == World { switch_keys: world.switch_keys.clone(), ..World::new() });
}
