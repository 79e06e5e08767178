//! Document 01's edges and traps, one test each.

mod support;

use reference::playbook;
use reference::switch::quorum;
use support::*;

#[test]
fn quorums() {
    let due = [1, 1, 1, 2, 2, 2, 3, 3, 3, 4, 4, 4, 5, 5, 5, 6];
    for (n, due) in (1..=16).zip(due) {
        assert_eq!(quorum(n), due, "n = {n}");
    }
    assert_eq!(quorum(255), 85);
}

/// Document 01's lengths, with tags of 16 bytes.
#[test]
fn lengths_of_messages() {
    assert_eq!([EVENT, SHARE, ACKNOWLEDGEMENT], [24, 30, 23]);
}

#[test]
fn rules_at_the_edge() {
    assert!(set(0x0A00_0000, 8, 1).well_formed());
    assert!(!set(0x0A00_0001, 8, 1).well_formed());
    assert!(!set(0, 33, 1).well_formed());
    assert!(!set(0, 255, 1).well_formed());
    assert!(set(0, 0, 1).well_formed() && remove(0, 0).well_formed());
    assert!(!set(0x8000_0000, 0, 1).well_formed());
    assert!(set(u32::MAX, 32, 1).well_formed() && !set(u32::MAX, 31, 1).well_formed());
    assert!(set(0x8000_0000, 1, 65_535).well_formed() && !set(0x4000_0000, 1, 1).well_formed());
    assert!(!set(0, 0, 0).well_formed(), "no bytes stand for setting port 0");
}

#[test]
fn rules_at_the_edge_as_shares() {
    let mut switch = switch(3, 16);
    assert_eq!(receive(&mut switch, &share(0, 3, 1, set(0x0A00_0001, 8, 1))), 15);
    assert_eq!(receive(&mut switch, &share(0, 3, 1, set(0, 33, 1))), 15);
    assert_eq!(receive(&mut switch, &share(0, 3, 1, set(1, 0, 1))), 15);
    assert_eq!(receive(&mut switch, &share(0, 3, 1, set(0, 0, 1))), 0);
    assert_eq!(receive(&mut switch, &share(1, 3, 1, set(0x0A00_0000, 8, 1))), 0);
    assert_eq!(receive(&mut switch, &share(2, 3, 0, set(0, 0, 1))), 16);
}

#[test]
fn playbooks_at_the_edge() {
    assert_eq!(playbook::read(&[]).0, 30);
    assert_eq!(playbook::read(&[0x13]).0, 0);
    assert_eq!(playbook::read(&[0x13, 0x13]).0, 38);
    assert_eq!(playbook::read(&change(0, 1, set(0, 0, 1))).0, 34);
}

#[test]
fn the_64th_entry_is_placed_and_a_65th_is_not() {
    let mut switch = filled_switch(2, 1, 63);
    assert_eq!(receive(&mut switch, &share(0, 2, 1, set(0x0A00_0000, 8, 9))), 1);
    assert_eq!(switch.table.count, 64);
    assert_eq!(receive(&mut switch, &share(0, 2, 2, set(0x0B00_0000, 8, 9))), 19);
    assert_eq!(receive(&mut switch, &share(0, 2, 2, set(0x0A00_0000, 9, 9))), 19);
    assert_eq!(receive(&mut switch, &share(0, 2, 2, set(0x0A00_0000, 8, 8))), 1);
    assert_eq!(receive(&mut switch, &share(0, 2, 3, remove(0x0B00_0000, 8))), 1);
    assert_eq!((switch.table.count, switch.last), (64, 3));
    assert_eq!(receive(&mut switch, &share(0, 2, 4, remove(0x0A00_0000, 8))), 1);
    assert_eq!(receive(&mut switch, &share(0, 2, 5, set(0x0B00_0000, 8, 9))), 1);
    assert!(switch.obeys_limits());
}

#[test]
fn removing_an_absent_entry_is_applied() {
    let mut switch = switch(0, 1);
    assert_eq!(receive(&mut switch, &share(0, 0, 7, remove(0x0B00_0000, 8))), 1);
    assert_eq!((switch.table.count, switch.last), (0, 7));
}

#[test]
fn undone_changes_up_to_64() {
    let many = |count: u8| (0..count).map(|flow| (flow, 4, set(0, 0, 1))).collect();
    let book = book(&[(0, 0, many(32)), (0, 1, many(1))]);
    let mut at_32 = controller(0, 1, &book);
    assert_eq!(decide(&mut at_32, 0, 1, 0), 0);
    assert_eq!(decide(&mut at_32, 0, 2, 0), 0);
    assert_eq!((at_32.undone.count, at_32.last), (64, 64));
    assert_eq!(decide(&mut at_32, 0, 3, 7), 0, "no plan, no change");
    assert_eq!(decide(&mut at_32, 0, 4, 1), 24);

    let mut at_33 = controller(0, 1, &book);
    assert_eq!(decide(&mut at_33, 0, 1, 1), 0);
    assert_eq!(decide(&mut at_33, 0, 2, 0), 0);
    assert_eq!(at_33.undone.count, 33);
    assert_eq!(decide(&mut at_33, 0, 3, 0), 24);
    assert_eq!(hear(&mut at_33, &acknowledgement(4, 0, 1)), (0, false));
    assert_eq!(decide(&mut at_33, 0, 3, 0), 0, "the same decision, brought again");
}

/// Trap: counting shares, or numbers, in place of different controllers.
#[test]
fn different_controllers_are_counted() {
    let mut switch = switch(1, 7);
    let rule = set(0x0A00_0000, 8, 3);
    assert_eq!(receive(&mut switch, &share(0, 1, 5, rule)), 0);
    for _ in 0..5 {
        assert_eq!(receive(&mut switch, &share(0, 1, 5, rule)), 2);
    }
    assert_eq!(receive(&mut switch, &share(0, 1, 6, rule)), 0, "a higher number replaces");
    assert_eq!(receive(&mut switch, &share(1, 1, 5, rule)), 0);
    assert_eq!(receive(&mut switch, &share(2, 1, 5, rule)), 0, "5 is held twice, the first controller has left it");
    assert_eq!(receive(&mut switch, &share(3, 1, 5, set(0x0A00_0000, 8, 4))), 0, "the number under another rule");
    assert_eq!(receive(&mut switch, &share(4, 1, 7, rule)), 0, "the rule under another number");
    assert_eq!(switch.last, 0);
    assert_eq!(receive(&mut switch, &share(5, 1, 5, rule)), 1);
    let held: Vec<u32> = switch.slots.iter().map(|slot| slot.number).collect();
    assert_eq!(held[..7], [6, 0, 0, 0, 7, 0, 0], "slots with 5 are emptied, the sender's and the other rule's too");
    assert!(switch.obeys_limits());
}

/// Trap: letting a controller's second rule under one number replace its first.
#[test]
fn the_first_rule_under_a_number_stays() {
    let mut switch = switch(1, 4);
    let (first, second) = (set(0x0A00_0000, 8, 3), set(0x0A00_0000, 8, 4));
    assert_eq!(receive(&mut switch, &share(0, 1, 5, first)), 0);
    assert_eq!(receive(&mut switch, &share(0, 1, 5, second)), 18);
    assert_eq!(receive(&mut switch, &share(1, 1, 5, second)), 0);
    assert_eq!(receive(&mut switch, &share(2, 1, 5, first)), 1);
    assert_eq!(switch.table.used(), [entry(0x0A00_0000, 8, 3)]);
}

/// Trap: taking an older acknowledgement and moving backwards.
#[test]
fn acknowledgements_never_move_backwards() {
    let mut controller = controller(2, 4, &example_book());
    assert_eq!(decide(&mut controller, 5, 1, 1), 0);
    assert_eq!(hear(&mut controller, &acknowledgement(2, 2, 1)), (0, false));
    assert_eq!(hear(&mut controller, &acknowledgement(2, 2, 1)), (2, false));
    assert_eq!(hear(&mut controller, &acknowledgement(2, 2, 0)), (2, false));
    assert_eq!(controller.acknowledged[2], 1);
    assert_eq!(hear(&mut controller, &acknowledgement(2, 2, 900)), (0, false));
    assert_eq!(hear(&mut controller, &acknowledgement(2, 2, 899)), (2, false));
    assert_eq!(controller.acknowledged[2], 900);
}

/// Trap: marking a change done when its share is made.
#[test]
fn making_a_share_marks_nothing() {
    let mut controller = controller(2, 4, &example_book());
    assert_eq!(decide(&mut controller, 5, 1, 1), 0);
    let before = controller.clone();
    let (answer, bytes) = make_share(&controller, 2);
    assert_eq!((answer, &bytes), (0, &share(2, 2, 1, set(0x0A00_0000, 8, 3))));
    assert_eq!(make_share(&controller, 2), (0, bytes), "the same bytes again");
    assert_eq!(make_share(&controller, 5).0, 26);
    assert!(controller == before);
}
