//! The order's rules for the calls that rules/ leaves out: a weight set, clears, a node taken out, images.

use crate::rules;
use waterways::{END, Refusal, Tables};

fn vacate_edge(t: &mut Tables, e: usize) {
    t.registers[e] = 0;
    t.links[2 * e..][..2].fill(END);
    t.ends[2 * e..][..2].fill(END);
}

fn vacate_node(t: &mut Tables, a: usize) {
    t.weights[a] = 0;
    t.heads[2 * a..][..2].fill(END);
}

/// Rows below m become vacant, and the heads of nodes below n `END`.
pub fn clear_edges(t: &mut Tables) -> Result<(), Refusal> {
    if !rules::fit(t) {
        return Err(Refusal::Tables);
    }
    (0..t.m as usize).for_each(|e| vacate_edge(t, e));
    t.heads[..2 * t.n as usize].fill(END);
    t.m = 0;
    Ok(())
}

/// The same with the rows below n.
pub fn clear(t: &mut Tables) -> Result<(), Refusal> {
    clear_edges(t)?;
    (0..t.n as usize).for_each(|a| vacate_node(t, a));
    t.n = 0;
    Ok(())
}

/// All rows lent become vacant.
pub fn empty(t: &mut Tables) {
    (0..t.registers.len()).for_each(|e| vacate_edge(t, e));
    (0..t.weights.len()).for_each(|a| vacate_node(t, a));
    (t.n, t.m) = (0, 0);
}

/// The edges of a node, a self-loop once.
pub fn degree(t: &Tables, a: u32) -> usize {
    let ends = t.ends[..2 * t.m as usize].chunks(2);
    ends.filter(|ends| ends.contains(&a)).count()
}

/// Takes a node out of a sound network: its weight, the rows read, and the weights of its edges. The head goes
/// till both lists are empty; then the last node moves in.
pub fn remove_node(t: &mut Tables, a: u32) -> (i32, u64, Vec<u32>) {
    let (at, mut rows, mut weights) = (a as usize, 0, Vec::new());
    let weight = t.weights[at];
    for k in [0, 1] {
        while t.heads[2 * at + k] != END {
            let head = t.heads[2 * at + k];
            let (weight, _, read) = rules::remove_edge(t, head).expect("the network is sound");
            weights.push(weight);
            rows += u64::from(read);
        }
    }
    let last = t.n as usize - 1;
    if at != last {
        // Every end that names the last node, once in each list that it stands in.
        for end in &mut t.ends[..2 * t.m as usize] {
            if *end == last as u32 {
                *end = a;
                rows += 1;
            }
        }
        t.weights[at] = t.weights[last];
        t.heads.copy_within(2 * last..2 * last + 2, 2 * at);
    }
    vacate_node(t, last);
    t.n -= 1;
    (weight, rows, weights)
}

/// Mark, version, counts; then weight and links of each node, weight, links and ends of each edge.
pub fn image(t: &Tables) -> Vec<u8> {
    let mut bytes = b"WNT\x01\x00".to_vec();
    let mut put = |x: u32| bytes.extend(x.to_le_bytes());
    put(t.n);
    put(t.m);
    for a in 0..t.n as usize {
        put(t.weights[a] as u32);
        t.heads[2 * a..][..2].iter().for_each(|x| put(*x));
    }
    for e in 0..t.m as usize {
        put(t.registers[e]);
        t.links[2 * e..][..2].iter().for_each(|x| put(*x));
        t.ends[2 * e..][..2].iter().for_each(|x| put(*x));
    }
    bytes
}

/// Answer and tables after a read: 8, 9, 2 and 8 leave them, 6 leaves them empty.
pub fn image_read(t: &mut Tables, bytes: &[u8]) -> Result<(), Refusal> {
    if !rules::fit(t) {
        return Err(Refusal::Tables);
    }
    if bytes.len() < 13 || bytes[..3] != *b"WNT" {
        return Err(Refusal::NotImage);
    }
    if bytes[3..5] != [1, 0] {
        return Err(Refusal::Version);
    }
    let word = |at: usize| u32::from_le_bytes([0, 1, 2, 3].map(|i| bytes[at + i]));
    let (n, m) = (word(5), word(9));
    if t.weights.len() < n as usize || t.registers.len() < m as usize {
        return Err(Refusal::Full);
    }
    if bytes.len() != 13 + 12 * n as usize + 20 * m as usize {
        return Err(Refusal::NotImage);
    }
    empty(t);
    (t.n, t.m) = (n, m);
    let words: Vec<u32> = (13..bytes.len()).step_by(4).map(word).collect();
    let (nodes, edges) = words.split_at(3 * n as usize);
    for (a, row) in nodes.chunks(3).enumerate() {
        t.weights[a] = row[0] as i32;
        t.heads[2 * a..][..2].copy_from_slice(&row[1..]);
    }
    for (e, row) in edges.chunks(5).enumerate() {
        t.registers[e] = row[0];
        t.links[2 * e..][..2].copy_from_slice(&row[1..3]);
        t.ends[2 * e..][..2].copy_from_slice(&row[3..]);
    }
    if rules::fault(t).is_some() {
        empty(t);
        return Err(Refusal::Broken);
    }
    Ok(())
}
