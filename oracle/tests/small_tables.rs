//! The check on every small table, worked out a second time: n and m up to 2, each link and end
//! 0, 1, 2 or END. The lines are the last ones of the program `small`, which runs the proved check.
//!
//! This check is written from the order's words and knows nothing of the other's loops: it
//! gathers each list first, and then asks what is wrong with it.

const END: u32 = u32::MAX;

/// Two node rows and two edge rows, as columns.
struct Tables {
    heads: [u32; 4],
    links: [u32; 4],
    ends: [u32; 4],
}

/// The digits of a code, base 4, for the cells in use; 3 stands for END, and other cells are vacant.
fn column(code: &mut u32, cells: usize) -> [u32; 4] {
    let mut column = [END; 4];
    for cell in column.iter_mut().take(cells) {
        let digit = *code % 4;
        *code /= 4;
        *cell = if digit == 3 { END } else { digit };
    }
    column
}

fn decode(mut code: u32, n: usize, m: usize) -> Tables {
    Tables {
        heads: column(&mut code, 2 * n),
        links: column(&mut code, 2 * m),
        ends: column(&mut code, 2 * m),
    }
}

/// The rows of a node's list where they are its own and end at END.
fn list(t: &Tables, m: usize, k: usize, a: usize) -> Option<Vec<usize>> {
    let mut rows = Vec::new();
    let mut link = t.heads[2 * a + k];
    while link != END {
        let row = link as usize;
        if row >= m || t.ends[2 * row + k] as usize != a || rows.contains(&row) {
            return None;
        }
        rows.push(row);
        link = t.links[2 * row + k];
    }
    Some(rows)
}

/// The first node with a fault in direction k; n where an edge is in no list.
fn fault(t: &Tables, n: usize, m: usize, k: usize) -> Option<usize> {
    let mut listed = vec![false; m];
    for a in 0..n {
        match list(t, m, k, a) {
            None => return Some(a),
            Some(rows) => rows.iter().for_each(|&row| listed[row] = true),
        }
    }
    listed.contains(&false).then_some(n)
}

/// 0 accepted, 1 to 3 an outgoing fault at node 0 to 2, 4 to 6 an incoming one.
fn answer(t: &Tables, n: usize, m: usize) -> usize {
    match (fault(t, n, m, 0), fault(t, n, m, 1)) {
        (Some(a), _) => 1 + a,
        (None, Some(a)) => 4 + a,
        (None, None) => 0,
    }
}

fn line(n: usize, m: usize) -> String {
    let networks = 4u32.pow((2 * n + 4 * m) as u32);
    let mut counts = [0u32; 8];
    let mut hash = 0u64;
    for code in 0..networks {
        let k = answer(&decode(code, n, m), n, m);
        counts[k] += 1;
        hash = (hash * 31 + k as u64) % 1_000_003;
    }
    let counts: Vec<String> = counts.iter().map(u32::to_string).collect();
    format!("{n} {m}: {networks} {} {hash}\n", counts.join(" "))
}

#[test]
fn the_proved_check_answers_every_small_table_alike() {
    let mut lines = String::new();
    for n in 0..3 {
        for m in 0..3 {
            lines += &line(n, m);
        }
    }
    let path = concat!(env!("CARGO_MANIFEST_DIR"), "/../crates/small/stdout");
    let held = std::fs::read_to_string(path).expect("crates/small/stdout");
    let tail = held.len().saturating_sub(lines.len());
    assert_eq!(lines, held[tail..]);
}
