//! How the lines of by_hand/ are written: a space before each number, a bar before each table, and `END` by name.

use waterways::{END, Refusal, Tables};

pub fn number(x: u32) -> String {
    match x {
        END => " END".to_string(),
        _ => format!(" {x}"),
    }
}

pub fn numbers(xs: &[u32]) -> String {
    xs.iter().map(|x| number(*x)).collect()
}

/// One table.
pub fn cells(table: &[u32]) -> String {
    format!(" |{}", numbers(table))
}

/// Each column whole.
pub fn columns(t: &Tables) -> String {
    let weights: String = t.weights.iter().map(|w| format!(" {w}")).collect();
    let others = [&t.heads, &t.registers, &t.links, &t.ends];
    let others: String = others.map(|column| cells(column)).concat();
    format!(" |{weights}{others}")
}

/// The answer number, and the value of a served call.
pub fn answer<T>(answer: Result<T, Refusal>, value: impl Fn(T) -> String) -> String {
    match answer {
        Ok(x) => format!(" 0{}", value(x)),
        Err(why) => format!(" {}", why.number()),
    }
}
