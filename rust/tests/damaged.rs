//! Damaged tables: every call answers as the order's rules say, and a refusal changes nothing.

#[allow(dead_code)]
mod common;
mod damage;
mod rules;

use common::Random;
use damage::{damage, misfit, sound, value};
use rules::Met;
use waterways::{END, EdgeDirection, EdgeIndex, Fault, Network, NodeIndex, Refusal, Tables};

const CASES: u64 = 200_000;

fn node(a: u32) -> NodeIndex {
    NodeIndex(a)
}

/// The calls that change nothing, for one pair of nodes and one edge.
fn ask(t: &Tables, a: u32, b: u32, e: u32) {
    let network = Network::from_tables(t.clone());
    look_up(&network, t, a, e);
    find(&network, t, a, b);
    walk(&network, t, a, b);
    walk_by_steps(&network, t, a);
    short(&network, a);
    check(&network, t);
    assert_eq!(network.tables(), t);
}

fn look_up(network: &Network, t: &Tables, a: u32, e: u32) {
    let named = |there: bool, why: Refusal| match there {
        _ if !rules::fit(t) => Err(Refusal::Tables),
        true => Ok(()),
        false => Err(why),
    };
    let weight = named(a < t.n, Refusal::NoNode).map(|()| t.weights[a as usize]);
    assert_eq!(network.node_weight(node(a)), weight);
    let register = named(e < t.m, Refusal::NoEdge).map(|()| t.registers[e as usize]);
    assert_eq!(network.edge_weight(EdgeIndex(e)), register);
}

fn find(network: &Network, t: &Tables, a: u32, b: u32) {
    let found = rules::find(t, a, b);
    assert_eq!(network.find_edge(node(a), node(b)), found.map(EdgeIndex));
    let contains = match found {
        Ok(_) => Ok(true),
        Err(Refusal::Nothing | Refusal::NoNode) => Ok(false),
        Err(why) => Err(why),
    };
    assert_eq!(network.contains_edge(node(a), node(b)), contains);
}

/// What a walk gives for each edge that it meets.
fn each<T>(walk: &Result<Vec<Met>, Refusal>, give: impl Fn(&Met) -> T) -> Result<Vec<T>, Refusal> {
    walk.clone().map(|met| met.iter().map(give).collect())
}

fn walk(network: &Network, t: &Tables, a: u32, b: u32) {
    let walk = rules::around(t, a);
    assert_eq!(network.neighbors(node(a)), each(&walk, |x| node(x.far)));
    let weights = each(&walk, |x| t.registers[x.edge as usize]);
    assert_eq!(network.edge_weights(node(a)), weights);
    let edges = each(&walk, |x| (EdgeIndex(x.edge), node(x.near), node(x.far)));
    assert_eq!(network.edges(node(a)), edges);
    let to_b = |met: Vec<Met>| met.into_iter().filter(|x| x.far == b).collect();
    let between = each(&walk.map(to_b), |x| EdgeIndex(x.edge));
    assert_eq!(network.edges_between(node(a), node(b)), between);
    let all = rules::edges_mut(t, a);
    let all = all.map(|rows| rows.into_iter().map(EdgeIndex).collect());
    assert_eq!(network.edges_mut(node(a)), all);
    assert_eq!(network.edge_weights_mut(node(a)), all);
    assert_eq!(network.sum_around(node(a)), rules::sum(t, a));
}

fn check(network: &Network, t: &Tables) {
    let fault = if rules::fit(t) { rules::fault(t) } else { None };
    let expected = match fault {
        _ if !rules::fit(t) => Err(Fault::Tables),
        None => Ok(2 * t.m),
        Some((0, a)) => Err(Fault::At(EdgeDirection::Outgoing, node(a))),
        Some((_, a)) => Err(Fault::At(EdgeDirection::Incoming, node(a))),
    };
    assert_eq!(network.check(), expected);
    let image = match expected {
        Ok(_) => Ok(()),
        Err(Fault::At(..)) => Err(Refusal::Broken),
        Err(Fault::Tables) => Err(Refusal::Tables),
    };
    assert_eq!(network.image_write().map(|_| ()), image);
}

/// Where the walk ends, its steps give the same neighbours; the walker at its end stays there.
fn walk_by_steps(network: &Network, t: &Tables, a: u32) {
    let Ok(walk) = rules::around(t, a) else {
        return;
    };
    let mut walker = network.walker(node(a)).expect("the tables fit");
    for x in walk {
        assert_eq!(network.step(&mut walker), Ok(node(x.far)));
    }
    for _ in 0..2 {
        assert_eq!(network.step(&mut walker), Err(Refusal::Nothing));
    }
}

/// A table one cell too short is refused 7 and left alone; of a longer one the other cells keep their values.
fn short(network: &Network, a: u32) {
    let Ok(neighbors) = network.neighbors(node(a)) else {
        return;
    };
    let needed = neighbors.len();
    if needed > 0 {
        let mut items = vec![77; needed - 1];
        assert_eq!(
            network.neighbors_into(node(a), &mut items),
            Err(Refusal::Short)
        );
        assert!(items.iter().all(|x| *x == 77));
    }
    let mut items = vec![77; needed + 2];
    assert_eq!(network.neighbors_into(node(a), &mut items), Ok(needed));
    assert_eq!(items[needed..], [77, 77]);
}

/// The calls that change something: answer, and tables afterwards.
fn change(t: &Tables, a: u32, b: u32, e: u32) {
    let (mut network, mut after) = (Network::from_tables(t.clone()), t.clone());
    let added = rules::add_edge(&mut after, a, b, 5);
    assert_eq!(network.add_edge(node(a), node(b), 5), added.map(EdgeIndex));
    assert_eq!(network.tables(), &after);

    let (mut network, mut after) = (Network::from_tables(t.clone()), t.clone());
    let updated = rules::update_edge(&mut after, a, b, 6);
    assert_eq!(
        network.update_edge(node(a), node(b), 6),
        updated.map(EdgeIndex)
    );
    assert_eq!(network.tables(), &after);

    let (mut network, mut after) = (Network::from_tables(t.clone()), t.clone());
    let removed = network
        .remove_edge(EdgeIndex(e))
        .map(|r| (r.weight, r.moved.map(|l| l.0), r.rows));
    assert_eq!(removed, rules::remove_edge(&mut after, e));
    assert_eq!(network.tables(), &after);

    let mut network = Network::from_tables(t.clone());
    let refused = match () {
        _ if !rules::fit(t) => Some(Refusal::Tables),
        _ if t.n <= a => Some(Refusal::NoNode),
        _ => rules::fault(t).map(|_| Refusal::Broken),
    };
    let mut given = 0;
    assert_eq!(
        network.remove_node_with(node(a), |_| given += 1).err(),
        refused
    );
    if refused.is_some() {
        assert_eq!((network.tables(), given), (t, 0));
    } else {
        assert_eq!(network.check(), Ok(2 * (t.m - given)));
    }
}

#[test]
fn broken_links_are_answered_by_the_rules() {
    let mut broken = 0;
    for seed in 0..CASES {
        let mut random = Random(seed);
        let mut t = sound(&mut random);
        damage(&mut random, &mut t);
        let (a, b, e) = (
            value(&mut random, t.n),
            value(&mut random, t.n),
            value(&mut random, t.m),
        );
        broken += u64::from(rules::fault(&t).is_some());
        ask(&t, a, b, e);
        change(&t, a, b, e);
    }
    assert!(
        CASES / 4 < broken && broken < CASES,
        "{broken} of {CASES} are not sound"
    );
}

#[test]
fn tables_that_do_not_fit_are_refused_1() {
    for seed in 0..CASES / 10 {
        let mut random = Random(seed);
        let mut t = sound(&mut random);
        misfit(&mut random, &mut t);
        assert!(!rules::fit(&t));
        ask(&t, 0, 0, 0);
        change(&t, 0, 0, 0);
        let mut network = Network::from_tables(t.clone());
        assert_eq!(network.add_node(1), Err(Refusal::Tables));
        assert_eq!(network.clear(), Err(Refusal::Tables));
        assert_eq!(network.clear_edges(), Err(Refusal::Tables));
        assert_eq!(network.set_node_weight(node(0), 1), Err(Refusal::Tables));
        assert_eq!(
            network.set_edge_weight(EdgeIndex(0), 1),
            Err(Refusal::Tables)
        );
        assert_eq!(network.all_edge_weights(), Err(Refusal::Tables));
        assert_eq!(network.walker(node(0)), Err(Refusal::Tables));
        assert_eq!(network.image_read(b"WNT"), Err(Refusal::Tables));
        assert_eq!(network.tables(), &t);
    }
}

#[test]
fn rows_above_the_limits_are_refused_1() {
    assert_eq!(Network::with_rows(16_385, 0), Err(Refusal::Tables));
    assert_eq!(Network::with_rows(0, 65_537), Err(Refusal::Tables));
    let mut network = Network::with_rows(16_384, 65_536).expect("at the limits");
    assert_eq!(network.add_node(1), Ok(node(0)));
    let mut tables = network.tables().clone();
    tables.weights.push(0);
    tables.heads.extend([END, END]);
    assert_eq!(
        Network::from_tables(tables).add_node(1),
        Err(Refusal::Tables)
    );
}

/// A list that goes round: the walker steps past its neighbours, and stays where a step is refused 6.
#[test]
fn a_walker_stays_at_6() {
    let tables = Tables {
        weights: vec![0; 1],
        heads: vec![END, 0],
        registers: vec![0; 2],
        links: vec![END, 1, END, 0],
        ends: vec![0; 4],
        n: 1,
        m: 2,
    };
    let network = Network::from_tables(tables);
    let mut walker = network.walker(node(0)).expect("the tables fit");
    let before = walker;
    assert_eq!(network.step(&mut walker), Err(Refusal::Broken));
    assert_eq!(walker, before);
}

#[test]
fn images_are_refused_8_9_2_and_6() {
    let mut network = Network::with_rows(2, 1).expect("within the limits");
    network.add_node(-3).expect("a row is free");
    let image = network.image_write().expect("the network is sound");
    let before = network.clone();
    let mut longer = image.clone();
    longer.push(0);
    let (mut version, mut counts, mut broken) = (image.clone(), image.clone(), image.clone());
    version[3] = 2;
    counts[5] = 3;
    broken[17] = 0;
    for bytes in [&image[..24], &image[..12], &longer] {
        assert_eq!(network.image_read(bytes), Err(Refusal::NotImage));
    }
    assert_eq!(network.image_read(&version), Err(Refusal::Version));
    assert_eq!(network.image_read(&counts), Err(Refusal::Full));
    assert_eq!(network, before);
    assert_eq!(network.image_read(&broken), Err(Refusal::Broken));
    assert_eq!(
        network,
        Network::with_rows(2, 1).expect("within the limits")
    );
}
