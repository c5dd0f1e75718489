//! The altered rows that are replayed are those that are printed here, of the lists that are
//! replayed.

use std::path::Path;
use std::process::Command;

use rows::rows;

const LISTS: [&str; 5] = ["header", "packet", "h264", "vp8", "joiner"];

#[test]
fn the_altered_rows_are_those_that_are_replayed() {
    let data = Path::new(env!("CARGO_MANIFEST_DIR")).join("../../crates/replay/data");
    let lists = LISTS.map(|name| data.join(name));
    let output = Command::new(env!("CARGO_BIN_EXE_altered")).args(&lists).output().unwrap();
    assert!(output.status.success());
    assert!(output.stdout == std::fs::read(data.join("altered")).unwrap(), "print them anew");
    let of = |list: &[u8]| rows(list).iter().map(|row| row.name()).collect::<Vec<_>>();
    let altered = of(&output.stdout);
    for list in lists {
        assert!(of(&std::fs::read(list).unwrap()).iter().all(|name| altered.contains(name)));
    }
}
