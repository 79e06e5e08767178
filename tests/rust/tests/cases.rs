//! Document 01's example, and every case: what it prints must be its lines in tests/cases. The inputs are made from the
//! cases' texts (tests/inputs).

use reference::rehearsal::rehearse;
use std::fs;
use std::path::{Path, PathBuf};

fn folder(name: &str) -> PathBuf {
    Path::new(env!("CARGO_MANIFEST_DIR")).join("../..").join(name)
}

#[test]
fn example_of_document_01() {
    let mut input = vec![4];
    input.extend([0x11, 5, 1, 0x12, 0, 2, 0x0A, 0, 0, 0, 8, 0, 3, 0x12, 0, 5, 0x0A, 0, 0, 0, 8, 0, 2, 0x13]);
    input.extend([0x21, 0, 5, 0, 0, 0, 1, 1, 0x21, 1, 5, 0, 0, 0, 1, 1]);
    input.extend([0x22, 0, 5, 0x22, 0, 2, 0x22, 0, 2, 0x22, 1, 2, 0x23, 2, 0, 0x22, 0, 5, 0x22, 1, 5]);
    input.extend([0x23, 2, 1, 0x22, 1, 5, 0x22, 0, 5]);
    let lines = "1 0 2\n2 0 2\n3 26 0\n4 0 0\n5 2 0\n6 1 1\n7 0 1\n8 0 0\n9 26 0\n10 0 1\n11 1 2\n12 16 2\n";
    assert_eq!(rehearse(&input), lines);
}

#[test]
fn every_case() {
    let mut played = 0;
    let mut failed = Vec::new();
    for file in fs::read_dir(folder("target/cases")).expect("tests/rehearse.sh makes the inputs") {
        let input = file.unwrap().path();
        let name = input.file_stem().unwrap();
        let lines = fs::read(folder("tests/cases").join(name).with_extension("out")).unwrap();
        if rehearse(&fs::read(&input).unwrap()).into_bytes() != lines {
            failed.push(name.to_owned());
        }
        played += 1;
    }
    assert!(failed.is_empty(), "these print other lines: {failed:?}");
    assert!(played > 0, "there are no cases");
}
