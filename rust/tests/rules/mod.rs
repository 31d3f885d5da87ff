//! The order's rules for tables that may be broken, written down a second time: by lists and searches
//! over plain vectors, with no part of the library.

use waterways::{END, Refusal, Tables};

/// Where a link stands.
#[derive(Clone, Copy)]
enum Spot {
    Head(usize),
    After(usize),
}

fn cell(table: &[u32], row: u32, k: usize) -> u32 {
    table[2 * row as usize + k]
}

/// Answer 1.
pub fn fit(t: &Tables) -> bool {
    let (nodes, edges) = (t.weights.len(), t.registers.len());
    let rows = nodes <= 16_384 && edges <= 65_536 && t.n as usize <= nodes && t.m as usize <= edges;
    rows && t.heads.len() == 2 * nodes && t.links.len() == 2 * edges && t.ends.len() == 2 * edges
}

/// The rows of node a's list in direction k: any link not below m ends it. Broken, if m rows are read
/// and the next link is still below m.
fn list(t: &Tables, k: usize, a: u32) -> (Vec<u32>, bool) {
    let (mut rows, mut link) = (Vec::new(), cell(&t.heads, a, k));
    while link < t.m {
        if rows.len() == t.m as usize {
            return (rows, true);
        }
        rows.push(link);
        link = cell(&t.links, link, k);
    }
    (rows, false)
}

/// An edge that a walk meets: its number, the end in whose list it stands, and the other one.
#[derive(Clone, Copy, Debug)]
pub struct Met {
    pub edge: u32,
    pub near: u32,
    pub far: u32,
}

fn met(t: &Tables, k: usize, edge: u32) -> Met {
    Met {
        edge,
        near: cell(&t.ends, edge, k),
        far: cell(&t.ends, edge, 1 - k),
    }
}

/// Both lists of a node, the outgoing one first. A missing node has empty ones.
fn lists(t: &Tables, a: u32) -> Result<[Vec<u32>; 2], Refusal> {
    if !fit(t) {
        return Err(Refusal::Tables);
    }
    if t.n <= a {
        return Ok([Vec::new(), Vec::new()]);
    }
    let ((out, endless), (incoming, endless_in)) = (list(t, 0, a), list(t, 1, a));
    if endless || endless_in {
        return Err(Refusal::Broken);
    }
    Ok([out, incoming])
}

/// The neighbour walk: the outgoing list, then the incoming one without self-loops.
pub fn around(t: &Tables, a: u32) -> Result<Vec<Met>, Refusal> {
    let [out, incoming] = lists(t, a)?;
    let first = out.into_iter().map(|e| met(t, 0, e));
    let second = incoming
        .into_iter()
        .map(|e| met(t, 1, e))
        .filter(|x| x.far != a);
    Ok(first.chain(second).collect())
}

/// All edges of a node, incoming ones first.
pub fn edges_mut(t: &Tables, a: u32) -> Result<Vec<u32>, Refusal> {
    let [out, incoming] = lists(t, a)?;
    Ok([incoming, out].concat())
}

/// A neighbour that is missing is as bad as a list that does not end.
pub fn sum(t: &Tables, a: u32) -> Result<i64, Refusal> {
    let walk = around(t, a)?;
    if t.n <= a {
        return Err(Refusal::NoNode);
    }
    let weight = |x: Met| (x.far < t.n).then(|| i64::from(t.weights[x.far as usize]));
    let weights = walk.into_iter().map(weight);
    weights.sum::<Option<i64>>().ok_or(Refusal::Broken)
}

/// The far end alone is compared; a match is good even in a list that does not end.
pub fn find(t: &Tables, a: u32, b: u32) -> Result<u32, Refusal> {
    if !fit(t) {
        return Err(Refusal::Tables);
    }
    if t.n <= a {
        return Err(Refusal::NoNode);
    }
    for k in [0, 1] {
        let (rows, endless) = list(t, k, a);
        if let Some(e) = rows.into_iter().find(|e| cell(&t.ends, *e, 1 - k) == b) {
            return Ok(e);
        }
        if endless {
            return Err(Refusal::Broken);
        }
    }
    Err(Refusal::Nothing)
}

/// Answer and tables after an addition.
pub fn add_edge(t: &mut Tables, a: u32, b: u32, w: u32) -> Result<u32, Refusal> {
    if !fit(t) {
        return Err(Refusal::Tables);
    }
    if t.m as usize == t.registers.len() {
        return Err(Refusal::Full);
    }
    if t.n <= a || t.n <= b {
        return Err(Refusal::NoNode);
    }
    let (e, row) = (t.m, 2 * t.m as usize);
    let heads = [cell(&t.heads, a, 0), cell(&t.heads, b, 1)];
    t.registers[e as usize] = w;
    t.links[row..row + 2].copy_from_slice(&heads);
    t.ends[row..row + 2].copy_from_slice(&[a, b]);
    t.heads[2 * a as usize] = e;
    t.heads[2 * b as usize + 1] = e;
    t.m += 1;
    Ok(e)
}

/// Answer and tables after an update: the search comes first where the source is there.
pub fn update_edge(t: &mut Tables, a: u32, b: u32, w: u32) -> Result<u32, Refusal> {
    match find(t, a, b) {
        Ok(e) => {
            t.registers[e as usize] = w;
            Ok(e)
        }
        Err(Refusal::Broken) => Err(Refusal::Broken),
        Err(_) => add_edge(t, a, b, w),
    }
}

/// From the head on, for a link equal to what is sought: where it stands, and the rows read before it.
fn search(t: &Tables, k: usize, sought: u32) -> Result<(Spot, u32), Refusal> {
    let a = cell(&t.ends, sought, k);
    if t.n <= a {
        return Err(Refusal::Broken);
    }
    let (mut spot, mut link, mut rows) = (Spot::Head(a as usize), cell(&t.heads, a, k), 0);
    while link != sought {
        if t.m <= link || rows == t.m {
            return Err(Refusal::Broken);
        }
        spot = Spot::After(link as usize);
        link = cell(&t.links, link, k);
        rows += 1;
    }
    Ok((spot, rows))
}

fn lead(t: &mut Tables, k: usize, spot: Spot, to: u32) {
    match spot {
        Spot::Head(a) => t.heads[2 * a + k] = to,
        Spot::After(p) => t.links[2 * p + k] = to,
    }
}

/// Weight, old number of the row that moves and rows read, and the tables afterwards: up to four searches.
pub fn remove_edge(t: &mut Tables, e: u32) -> Result<(u32, Option<u32>, u32), Refusal> {
    if !fit(t) {
        return Err(Refusal::Tables);
    }
    if t.m <= e {
        return Err(Refusal::NoEdge);
    }
    let (mut after, last) = (t.clone(), t.m - 1);
    let (out, mut rows) = search(t, 0, e)?;
    let (incoming, read) = search(t, 1, e)?;
    rows += read;
    lead(&mut after, 0, out, cell(&t.links, e, 0));
    lead(&mut after, 1, incoming, cell(&t.links, e, 1));
    if e != last {
        for k in [0, 1] {
            let (spot, read) = search(&after, k, last)?;
            rows += read;
            lead(&mut after, k, spot, e);
        }
    }
    let weight = t.registers[e as usize];
    move_row(&mut after, last as usize, e as usize);
    after.m = last;
    *t = after;
    Ok((weight, (e != last).then_some(last), rows))
}

/// Row `last` is copied over row e, and becomes vacant.
fn move_row(t: &mut Tables, last: usize, e: usize) {
    t.registers[e] = t.registers[last];
    t.registers[last] = 0;
    for table in [&mut t.links, &mut t.ends] {
        table.copy_within(2 * last..2 * last + 2, 2 * e);
        table[2 * last..2 * last + 2].fill(END);
    }
}

/// The check: direction and node of the first fault, if there is one.
pub fn fault(t: &Tables) -> Option<(usize, u32)> {
    for k in [0, 1] {
        let mut listed = 0;
        for a in 0..t.n {
            let (rows, endless) = list(t, k, a);
            let stop = rows
                .last()
                .map_or(cell(&t.heads, a, k), |e| cell(&t.links, *e, k));
            let own = rows.iter().all(|e| cell(&t.ends, *e, k) == a);
            if endless || stop != END || !own {
                return Some((k, a));
            }
            listed += rows.len();
        }
        if listed < t.m as usize {
            return Some((k, t.n));
        }
    }
    None
}
