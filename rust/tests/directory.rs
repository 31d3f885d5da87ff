//! A network with a directory, on sound and on damaged tables: every call answers as the order's rules say, and
//! leaves every row, every cell of the directory and both counts as they say. A refusal changes nothing, but for
//! a read.

#[allow(dead_code)]
mod common;
mod damage;
mod filed;
#[allow(dead_code)]
mod rules;

use std::collections::BTreeMap;

use common::Random;
use damage::{damage, misfit, sound, value};
use filed::{Filed, base, directory_of};
use waterways::{END, EdgeDirection, EdgeIndex, EdgeRemoved, Fault, Network, NodeIndex, Refusal};

const CASES: u64 = 60_000;

/// Every call with a directory, and all answers that it can give.
const CALLS: [(&str, &[u32]); 12] = [
    ("check", &[0, 1, 6]),
    ("add_edge", &[0, 1, 2, 3, 11, 12]),
    ("update_edge", &[0, 1, 2, 3, 6, 11, 12]),
    ("set_edge_weight", &[0, 1, 4, 6, 11, 12]),
    ("remove_edge", &[0, 1, 4, 6]),
    ("remove_node", &[0, 1, 3, 6, 7]),
    ("clear_edges", &[0, 1]),
    ("clear", &[0, 1]),
    ("image_write", &[0, 1, 6, 7]),
    ("image_read", &[0, 1, 2, 6, 8, 9, 11, 12]),
    ("find_number", &[0, 1, 5, 6, 12]),
    ("remove_number", &[0, 1, 5, 6, 12]),
];

/// A row in use more often than not.
fn row(random: &mut Random, count: u32) -> u32 {
    match random.below(3) {
        0 => value(random, count),
        _ => random.below(count.max(1)),
    }
}

/// Any of the numbers of some rows, or any number about the directory's length.
fn number(random: &mut Random, registers: &[u32], cells: usize) -> u32 {
    let bears = random.below(registers.len() as u32 + 2) as usize;
    match registers.get(bears) {
        Some(r) => *r,
        None => value(random, cells as u32),
    }
}

/// A sound network whose edges bear different numbers, with its directory. Vacant rows may hold a number, too.
fn right(random: &mut Random) -> Filed {
    let mut tables = sound(random);
    for _ in 0..random.below(3) {
        tables.registers.push(0);
        tables.links.extend([END; 2]);
        tables.ends.extend([END; 2]);
    }
    let spare = random.below(3) as usize;
    let mut numbers: Vec<u32> = (0..(tables.registers.len() + spare) as u32).collect();
    for (e, register) in tables.registers.iter_mut().enumerate() {
        if e < tables.m as usize || random.below(2) == 0 {
            *register = numbers.swap_remove(random.below(numbers.len() as u32) as usize);
        }
    }
    let cells = tables.registers.len() + spare;
    let directory = directory_of(&tables.registers[..tables.m as usize], cells);
    Filed {
        directory: directory.expect("each number has a cell, and one row"),
        tables,
    }
}

/// One thing about the directory changed: its length, some entry, or the number that a row bears.
fn misfile(random: &mut Random, f: &mut Filed) {
    let (t, d) = (&mut f.tables, &mut f.directory);
    let (cells, rows) = (d.len() as u32, t.registers.len() as u32);
    match random.below(9) {
        0 => d.clear(),
        // Too short for some number, or not.
        1 => d.truncate(random.below(cells + 1) as usize),
        2 => d.extend([END; 3]),
        3 if cells > 0 => d[random.below(cells) as usize] = value(random, t.m),
        // A row that is not in use, and not `END`.
        4 if cells > 0 => d[random.below(cells) as usize] = t.m + random.below(3),
        5 if cells > 0 => d[random.below(cells) as usize] = END - 1 - random.below(2),
        6 if cells > 0 => d.swap(random.below(cells) as usize, random.below(cells) as usize),
        // A weight set behind the directory's back.
        7 if rows > 0 => t.registers[random.below(rows) as usize] = value(random, cells),
        8 if rows > 0 => {
            let twice = t.registers[random.below(rows) as usize];
            t.registers[random.below(rows) as usize] = twice;
        }
        _ => {}
    }
}

/// An image: of a sound network with numbers about so many cells, now and then two of one number; and now and
/// then no image.
fn image(random: &mut Random, cells: usize) -> Vec<u8> {
    let mut f = right(random);
    if random.below(2) == 0 {
        misfile(random, &mut f);
    }
    if random.below(4) == 0 {
        let past = cells as u32 + random.below(2);
        f.tables
            .registers
            .iter_mut()
            .for_each(|r| *r %= past.max(1));
    }
    if random.below(4) == 0 {
        damage(random, &mut f.tables);
    }
    let mut bytes = base::image(&f.tables);
    let (length, at) = (bytes.len() as u32, random.below(13) as usize);
    match random.below(16) {
        0 => bytes.truncate(random.below(length) as usize),
        1 => bytes.push(0),
        2 => bytes[at] = bytes[at].wrapping_add(1),
        _ => {}
    }
    bytes
}

/// How often each call gave each answer.
#[derive(Default)]
struct Tally(BTreeMap<(&'static str, u32), u64>);

impl Tally {
    fn count(&mut self, name: &'static str, answer: u32) {
        *self.0.entry((name, answer)).or_default() += 1;
    }

    /// Each call was made as often as the others, and gave each of its answers more than a few times, and no other.
    fn told(&self, cases: u64) {
        for (name, answers) in CALLS {
            let given = self.0.iter().filter(|((call, _), _)| *call == name);
            let given: Vec<(u32, u64)> = given
                .map(|((_, answer), times)| (*answer, *times))
                .collect();
            println!("{name}: {given:?}");
            assert_eq!(given.iter().map(|x| x.1).sum::<u64>(), cases, "{name}");
            let met: Vec<u32> = given.iter().map(|x| x.0).collect();
            assert_eq!(met, answers, "{name}");
            assert!(
                given.iter().all(|x| cases / 1_000 < x.1),
                "{name}: {given:?}"
            );
        }
        let calls: u64 = self.0.values().sum();
        println!("{calls} calls on {cases} networks with a directory");
    }
}

/// The operands of a case.
struct Operands {
    a: u32,
    b: u32,
    e: u32,
    w: u32,
    /// How many cells an output has.
    room: usize,
    image: Vec<u8>,
}

impl Operands {
    fn new(random: &mut Random, f: &Filed) -> Operands {
        let (t, cells) = (&f.tables, f.directory.len());
        // A count may be far above the rows.
        let (n, m) = (t.n.min(8), t.m.min(8));
        Operands {
            a: row(random, n),
            b: row(random, n),
            e: row(random, m),
            w: number(random, &t.registers, cells),
            room: random.below(6) as usize,
            image: image(random, cells),
        }
    }
}

/// One call on both sides, each from the same beginning.
struct Both<'a> {
    before: &'a Filed,
    tally: &'a mut Tally,
}

impl Both<'_> {
    fn network(&self) -> Network {
        let Filed { tables, directory } = self.before.clone();
        Network::from_tables(tables).beside(directory)
    }

    /// The answers are the same, and so is all that is left.
    fn same<T: PartialEq + std::fmt::Debug>(
        &mut self,
        name: &'static str,
        ours: impl FnOnce(&mut Network) -> Result<T, Refusal>,
        rules: impl FnOnce(&mut Filed) -> Result<T, Refusal>,
    ) {
        let (mut network, mut expected) = (self.network(), self.before.clone());
        let (answer, said) = (ours(&mut network), rules(&mut expected));
        assert_eq!(answer, said, "{name} of {:?}", self.before);
        let (tables, directory) = network.into_parts();
        let directory = directory.expect("it has one");
        let left = Filed { tables, directory };
        assert_eq!(left, expected, "{name} of {:?}", self.before);
        let number = answer.map_or_else(Refusal::number, |_| 0);
        self.tally.count(name, number);
    }

    /// The check changes nothing, and says where the first fault is.
    fn check(&mut self) {
        let (f, network) = (self.before, self.network());
        let (answer, number) = match () {
            _ if !rules::fit(&f.tables) => (Err(Fault::Tables), 1),
            _ => match f.fault() {
                None => (Ok(2 * f.tables.m), 0),
                Some((0, a)) => (Err(Fault::At(EdgeDirection::Outgoing, NodeIndex(a))), 6),
                Some((_, a)) => (Err(Fault::At(EdgeDirection::Incoming, NodeIndex(a))), 6),
            },
        };
        assert_eq!(network.check(), answer, "check of {f:?}");
        assert_eq!(network, self.network());
        self.tally.count("check", number);
    }

    fn all(&mut self, with: &Operands) {
        let &Operands { a, b, e, w, .. } = with;
        let (from, to, edge) = (NodeIndex(a), NodeIndex(b), EdgeIndex(e));
        self.check();
        self.same(
            "add_edge",
            |x| x.add_edge(from, to, w).map(|e| e.0),
            |f| f.add_edge(a, b, w),
        );
        self.same(
            "update_edge",
            |x| x.update_edge(from, to, w).map(|e| e.0),
            |f| f.update_edge(a, b, w),
        );
        self.same(
            "set_edge_weight",
            |x| x.set_edge_weight(edge, w),
            |f| f.set_edge_weight(e, w),
        );
        self.same(
            "remove_edge",
            |x| x.remove_edge(edge).map(taken),
            |f| f.remove_edge(e),
        );
        self.same("clear_edges", |x| x.clear_edges(), |f| f.clear_edges());
        self.same("clear", |x| x.clear(), |f| f.clear());
        self.same(
            "find_number",
            |x| x.find_number(w).map(|e| e.0),
            |f| f.find_number(w),
        );
        self.same(
            "remove_number",
            |x| x.remove_number(w).map(taken),
            |f| f.remove_number(w),
        );
        self.with_outputs(with);
    }

    /// The calls that fill a table, and the one that reads one: every cell of an output is compared, too.
    fn with_outputs(&mut self, with: &Operands) {
        let a = with.a;
        let (mut items, mut expected) = (vec![77; with.room], vec![77; with.room]);
        self.same(
            "remove_node",
            |x| {
                let (removed, count) = x.remove_node_into(NodeIndex(a), &mut items)?;
                Ok((removed.weight, removed.rows, count))
            },
            |f| f.remove_node(a, &mut expected),
        );
        assert_eq!(items, expected);
        let t = &self.before.tables;
        let whole = 13 + 12 * t.weights.len() + 20 * t.registers.len();
        let room = whole.saturating_sub(20 * with.room / 2);
        let (mut bytes, mut expected) = (vec![77; room], vec![77; room]);
        self.same(
            "image_write",
            |x| x.image_write_into(&mut bytes),
            |f| f.image_write(&mut expected),
        );
        assert_eq!(bytes, expected);
        self.same(
            "image_read",
            |x| x.image_read(&with.image),
            |f| f.image_read(&with.image),
        );
    }
}

/// A removal as the rules have it.
fn taken(removed: EdgeRemoved) -> (u32, Option<u32>, u32) {
    (removed.weight, removed.moved.map(|e| e.0), removed.rows)
}

#[test]
fn every_call_is_answered_by_the_rules() {
    let mut tally = Tally::default();
    let mut faults = [0; 3];
    for seed in 0..CASES {
        let mut random = Random(seed);
        let mut f = right(&mut random);
        if random.below(3) == 0 {
            damage(&mut random, &mut f.tables);
        }
        for _ in 0..random.below(3) {
            misfile(&mut random, &mut f);
        }
        let broken = usize::from(rules::fault(&f.tables).is_some());
        let wrong = usize::from(!f.right());
        faults[broken] += 1;
        faults[2] += wrong * (1 - broken);
        if random.below(32) == 0 {
            misfit(&mut random, &mut f.tables);
        }
        let with = Operands::new(&mut random, &f);
        let (before, tally) = (&f, &mut tally);
        Both { before, tally }.all(&with);
    }
    tally.told(CASES);
    // Of the networks with good links some have a wrong directory, and some have the right one.
    let [good, broken, wrong] = faults;
    println!(
        "links: {good} good, {broken} broken; {wrong} of the good ones with a wrong directory"
    );
    assert!(broken > CASES as usize / 20 && wrong > good / 5 && wrong < good / 2);
}
