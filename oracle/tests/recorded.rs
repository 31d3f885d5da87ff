//! The table in crates/original/specs/Recorded.antt, from which the definitions are judged, is
//! what graph.rs gives now, spaces and line ends aside.

use std::fs::read_to_string;

const FILE: &str = concat!(
    env!("CARGO_MANIFEST_DIR"),
    "/../crates/original/specs/Recorded.antt"
);

fn words(text: &str) -> Vec<&str> {
    text.split_whitespace().collect()
}

#[test]
fn the_recorded_table_is_what_graph_rs_gives() {
    let file = read_to_string(FILE).expect("the table");
    let (_, table) = file
        .split_once("-- recorded from graph.rs\n")
        .expect("the table's mark");
    std::panic::set_hook(Box::new(|_| {}));
    let now = oracle::recorded::table();
    let _ = std::panic::take_hook();
    assert!(
        words(table) == words(&now),
        "run `cargo run --bin recorded` and take the table over"
    );
}
