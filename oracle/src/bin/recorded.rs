//! Prints the table of crates/original/specs/Recorded.antt as graph.rs gives it now.

fn main() {
    std::panic::set_hook(Box::new(|_| {}));
    print!("{}", oracle::recorded::table());
}
