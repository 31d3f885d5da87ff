//! The order of the refusals with a directory, each worked out by hand: where several tests would refuse a call,
//! the first of the order's list is told. Network A has four edges, which bear 10 to 13; its directory has 20 cells.

use waterways::{
    END, EdgeDirection, EdgeIndex, EdgeRemoved, Fault, Network, NodeIndex, Refusal, Tables,
};

const CELLS: usize = 20;

/// Network A with room for so many edges.
fn network_a(edge_rows: usize) -> Network {
    let mut network = Network::with_directory(3, edge_rows, CELLS).expect("within the limits");
    for w in [5, -3, 8] {
        network.add_node(w).expect("a row is free");
    }
    for (a, b, w) in [(0, 1, 10), (1, 2, 11), (0, 2, 12), (1, 1, 13)] {
        let added = network.add_edge(NodeIndex(a), NodeIndex(b), w);
        added.expect("a row is free, and so is the number");
    }
    network
}

/// The same with some entries changed: (number, row).
fn misfiled(edge_rows: usize, entries: &[(usize, u32)]) -> Network {
    let network = network_a(edge_rows);
    let mut directory = network.directory().expect("it has one").to_vec();
    for &(r, e) in entries {
        directory[r] = e;
    }
    network.beside(directory)
}

/// The same with the tables changed, and the directory as it was.
fn damaged(network: Network, damage: impl FnOnce(&mut Tables)) -> Network {
    let (mut tables, directory) = network.into_parts();
    damage(&mut tables);
    Network::from_tables(tables).beside(directory.expect("it has one"))
}

/// Counts above the rows: 1 in every call.
fn unfit(network: Network) -> Network {
    damaged(network, |t| t.m = 9)
}

/// The call is refused so, and all is as it was.
#[track_caller]
fn refused<T: std::fmt::Debug + PartialEq>(
    mut network: Network,
    why: Refusal,
    call: impl FnOnce(&mut Network) -> Result<T, Refusal>,
) {
    let before = network.clone();
    assert_eq!(call(&mut network), Err(why));
    assert_eq!(network, before);
}

/// The row of a number.
#[track_caller]
fn entry(network: &Network, r: usize) -> u32 {
    network.directory().expect("it has one")[r]
}

#[test]
fn add_edge_is_refused_1_2_3_12_11() {
    let add =
        |a: u32, b: u32, w: u32| move |x: &mut Network| x.add_edge(NodeIndex(a), NodeIndex(b), w);
    refused(unfit(network_a(4)), Refusal::Tables, add(9, 0, 20));
    refused(network_a(4), Refusal::Full, add(9, 0, 20));
    refused(network_a(5), Refusal::NoNode, add(9, 0, 20));
    refused(network_a(5), Refusal::NoNode, add(0, 3, 10));
    refused(network_a(5), Refusal::Beyond, add(0, 1, 20));
    refused(network_a(5), Refusal::Beyond, add(0, 1, END));
    refused(network_a(5), Refusal::Taken, add(0, 1, 10));
    // An entry that names row m, which the edge would get, or one past it, names a row all the same.
    for stale in [4, 5, END - 1] {
        refused(misfiled(5, &[(7, stale)]), Refusal::Taken, add(0, 1, 7));
    }
    let mut network = network_a(5);
    assert_eq!(add(0, 1, 19)(&mut network), Ok(EdgeIndex(4)));
    assert_eq!((entry(&network, 19), network.check()), (4, Ok(10)));
    // Other entries are not looked at.
    let mut network = misfiled(5, &[(10, END), (3, 9)]);
    assert_eq!(add(0, 1, 19)(&mut network), Ok(EdgeIndex(4)));
    let empty = Network::with_rows(3, 5).expect("within the limits");
    let mut empty = empty.beside(Vec::new());
    empty.add_node(1).expect("a row is free");
    refused(empty, Refusal::Beyond, add(0, 0, 0));
}

#[test]
fn update_edge_is_refused_1_6_12_11_or_as_add_edge() {
    let update = |a: u32, b: u32, w: u32| {
        move |x: &mut Network| x.update_edge(NodeIndex(a), NodeIndex(b), w)
    };
    refused(unfit(network_a(4)), Refusal::Tables, update(2, 1, 20));
    // A match, in a full table: its entry, then 12, then 11, and its own number is no other row's.
    refused(misfiled(4, &[(11, 0)]), Refusal::Broken, update(2, 1, 20));
    refused(misfiled(4, &[(11, END)]), Refusal::Broken, update(2, 1, 10));
    refused(network_a(4), Refusal::Beyond, update(2, 1, 20));
    refused(network_a(4), Refusal::Taken, update(2, 1, 10));
    refused(misfiled(4, &[(7, 4)]), Refusal::Taken, update(2, 1, 7));
    let mut network = network_a(4);
    assert_eq!(update(2, 1, 11)(&mut network), Ok(EdgeIndex(1)));
    assert_eq!(network, network_a(4));
    assert_eq!(update(2, 1, 7)(&mut network), Ok(EdgeIndex(1)));
    assert_eq!((entry(&network, 11), entry(&network, 7)), (END, 1));
    assert_eq!(network.check(), Ok(8));
    // No match: a list that goes round, then as an addition.
    let round = damaged(network_a(4), |t| t.links[0] = 0);
    refused(round, Refusal::Broken, update(0, 0, 20));
    refused(network_a(4), Refusal::Full, update(0, 0, 20));
    refused(network_a(5), Refusal::NoNode, update(9, 0, 20));
    refused(network_a(5), Refusal::NoNode, update(0, 9, 20));
    refused(network_a(5), Refusal::Beyond, update(0, 0, 20));
    refused(network_a(5), Refusal::Taken, update(0, 0, 10));
    refused(misfiled(5, &[(7, 4)]), Refusal::Taken, update(0, 0, 7));
    let mut network = network_a(5);
    assert_eq!(update(0, 0, 0)(&mut network), Ok(EdgeIndex(4)));
    assert_eq!((entry(&network, 0), network.check()), (4, Ok(10)));
}

#[test]
fn set_edge_weight_is_refused_1_4_6_12_11() {
    let set = |e: u32, w: u32| move |x: &mut Network| x.set_edge_weight(EdgeIndex(e), w);
    refused(unfit(network_a(4)), Refusal::Tables, set(9, 20));
    refused(network_a(4), Refusal::NoEdge, set(4, 20));
    refused(misfiled(4, &[(12, 1)]), Refusal::Broken, set(2, 20));
    refused(misfiled(4, &[(12, END)]), Refusal::Broken, set(2, 12));
    // A weight without a cell has no entry that names the edge.
    let past = damaged(network_a(4), |t| t.registers[2] = 20);
    refused(past, Refusal::Broken, set(2, 7));
    refused(network_a(4), Refusal::Beyond, set(2, 20));
    refused(network_a(4), Refusal::Taken, set(2, 13));
    refused(misfiled(4, &[(7, 9)]), Refusal::Taken, set(2, 7));
    let mut network = network_a(4);
    assert_eq!(set(2, 12)(&mut network), Ok(()));
    assert_eq!(network, network_a(4));
    assert_eq!(set(2, 0)(&mut network), Ok(()));
    assert_eq!((entry(&network, 12), entry(&network, 0)), (END, 2));
    assert_eq!(
        (network.edge_weight(EdgeIndex(2)), network.check()),
        (Ok(0), Ok(8))
    );
    // The entry of w names the edge already: it stays, and the old one goes.
    let mut network = misfiled(4, &[(7, 2)]);
    assert_eq!(set(2, 7)(&mut network), Ok(()));
    assert_eq!((entry(&network, 12), entry(&network, 7)), (END, 2));
}

#[test]
fn removals_are_refused_1_4_6() {
    let remove = |e: u32| move |x: &mut Network| x.remove_edge(EdgeIndex(e));
    refused(unfit(network_a(4)), Refusal::Tables, remove(9));
    refused(misfiled(4, &[(10, 9)]), Refusal::NoEdge, remove(4));
    // The links, the entry of the edge, the entry of the row that is to move.
    let broken = damaged(network_a(4), |t| t.heads[0] = END);
    refused(broken, Refusal::Broken, remove(0));
    refused(misfiled(4, &[(10, END)]), Refusal::Broken, remove(0));
    refused(misfiled(4, &[(13, 0)]), Refusal::Broken, remove(0));
    for e in [0, 3] {
        let past = damaged(network_a(4), |t| t.registers[3] = 20);
        refused(past, Refusal::Broken, remove(e));
    }
    // The last row does not move, and no other entry is looked at.
    let mut network = misfiled(4, &[(10, END), (3, 9)]);
    let removed = EdgeRemoved {
        weight: 13,
        moved: None,
        rows: 0,
    };
    assert_eq!(remove(3)(&mut network), Ok(removed));
    assert_eq!(entry(&network, 13), END);
    let mut network = network_a(4);
    let removed = EdgeRemoved {
        weight: 10,
        moved: Some(EdgeIndex(3)),
        rows: 2,
    };
    assert_eq!(remove(0)(&mut network), Ok(removed));
    assert_eq!((entry(&network, 10), entry(&network, 13)), (END, 0));
    assert_eq!(network.check(), Ok(6));
}

#[test]
fn calls_by_number_are_refused_1_12_5_6() {
    let cases = [
        (unfit(network_a(4)), 20, Refusal::Tables),
        (unfit(network_a(4)), 7, Refusal::Tables),
        (network_a(4), 20, Refusal::Beyond),
        (network_a(4), END, Refusal::Beyond),
        (network_a(4), 7, Refusal::Nothing),
        (misfiled(4, &[(10, END)]), 10, Refusal::Nothing),
        // A row that is not below m, though it may bear the number, and one that bears another.
        (misfiled(5, &[(0, 4)]), 0, Refusal::Broken),
        (misfiled(4, &[(7, END - 1)]), 7, Refusal::Broken),
        (misfiled(4, &[(7, 0)]), 7, Refusal::Broken),
    ];
    for (network, r, why) in cases {
        refused(network.clone(), why, |x| x.find_number(r));
        refused(network, why, |x| x.remove_number(r));
    }
    assert_eq!(network_a(4).find_number(12), Ok(EdgeIndex(2)));
    // The last row's entry matters to the removal alone.
    let network = misfiled(4, &[(13, 0)]);
    assert_eq!(network.find_number(10), Ok(EdgeIndex(0)));
    refused(network, Refusal::Broken, |x| x.remove_number(10));
    let (mut network, mut by_row) = (network_a(4), network_a(4));
    assert_eq!(network.remove_number(11), by_row.remove_edge(EdgeIndex(1)));
    assert_eq!(network, by_row);
    assert_eq!(network.find_number(11), Err(Refusal::Nothing));
    assert_eq!(network.find_number(13), Ok(EdgeIndex(1)));
}

/// The calls that ask whether the network is sound ask of its directory, too.
#[test]
fn a_wrong_directory_is_not_sound() {
    let fault = |node| Err(Fault::At(EdgeDirection::Incoming, NodeIndex(node)));
    let leftover = Network::with_rows(0, 0).expect("within the limits");
    assert_eq!(leftover.beside(vec![7]).check(), fault(1));
    let cases: [&[(usize, u32)]; 5] = [
        // No entry, another row's, a leftover, one that names no row, two exchanged.
        &[(10, END)],
        &[(10, 1)],
        &[(7, 0)],
        &[(7, 4)],
        &[(10, 1), (11, 0)],
    ];
    let short = network_a(4).beside(vec![END; 3]);
    let twice = damaged(network_a(4), |t| t.registers[1] = 10);
    let wrong = cases.map(|entries| misfiled(4, entries));
    for mut network in wrong.into_iter().chain([short, twice]) {
        assert_eq!(network.check(), fault(4));
        refused(network.clone(), Refusal::NoNode, |x| {
            x.remove_node_with(NodeIndex(3), |_| ())
        });
        refused(network.clone(), Refusal::Broken, |x| {
            x.remove_node_into(NodeIndex(0), &mut [])
        });
        refused(network.clone(), Refusal::Broken, |x| {
            x.image_write_into(&mut [])
        });
        // Walks and searches do not ask.
        assert_eq!(
            network.find_edge(NodeIndex(2), NodeIndex(1)),
            Ok(EdgeIndex(1))
        );
        // A clear makes it right.
        assert_eq!(network.clear_edges(), Ok(()));
        assert_eq!(network.check(), Ok(0));
    }
    // A fault of the links comes first.
    let both = damaged(misfiled(4, &[(10, END)]), |t| t.heads[4] = 0);
    let links = Err(Fault::At(EdgeDirection::Outgoing, NodeIndex(2)));
    assert_eq!(both.check(), links);
    // With the right directory 7 is told, and then nothing is refused.
    refused(network_a(4), Refusal::Short, |x| {
        x.remove_node_into(NodeIndex(0), &mut [0])
    });
    refused(network_a(4), Refusal::Short, |x| {
        x.image_write_into(&mut [0; 128])
    });
    let mut network = network_a(4);
    let mut weights = Vec::new();
    let removed = network.remove_node_with(NodeIndex(0), |w| weights.push(w));
    assert_eq!(removed.map(|x| (x.weight, x.rows)), Ok((5, 2)));
    assert_eq!((weights, network.check()), (vec![12, 10], Ok(4)));
    assert_eq!(
        [10, 11, 12, 13].map(|r| entry(&network, r)),
        [END, 1, END, 0]
    );
}

#[test]
fn a_load_is_refused_6_12_11_and_leaves_all_empty() {
    let image = |numbers: [u32; 4], head: u32| {
        let mut tables = network_a(4).into_tables();
        tables.registers.copy_from_slice(&numbers);
        let network = Network::from_tables(tables);
        let mut bytes = network.image_write().expect("the links are good");
        bytes[17..21].copy_from_slice(&head.to_le_bytes());
        bytes
    };
    let good = image([10, 11, 12, 13], 2);
    let lent = || misfiled(5, &[(0, 7), (10, 3)]);
    let read = |bytes: &[u8]| {
        let bytes = bytes.to_vec();
        move |x: &mut Network| x.image_read(&bytes)
    };
    // What is refused before leaves all as it was.
    refused(unfit(lent()), Refusal::Tables, read(&good[..12]));
    refused(lent(), Refusal::NotImage, read(&good[..12]));
    let (mut version, mut counts) = (good.clone(), good.clone());
    (version[3], counts[5]) = (2, 4);
    refused(lent(), Refusal::Version, read(&version));
    refused(lent(), Refusal::Full, read(&counts));
    refused(lent(), Refusal::NotImage, read(&good[..128]));
    // 12 is asked over the whole image first: 20 stands behind the two that bear one number.
    let cases = [
        (image([20, 10, 10, 13], END), Refusal::Broken),
        (image([10, 10, 12, 20], 2), Refusal::Beyond),
        (image([10, 11, END, 13], 2), Refusal::Beyond),
        (image([10, 11, 12, 10], 2), Refusal::Taken),
    ];
    let empty = Network::with_directory(3, 5, CELLS).expect("within the limits");
    for (bytes, why) in cases {
        let mut network = lent();
        assert_eq!(network.image_read(&bytes), Err(why));
        assert_eq!(network, empty);
    }
    // What the directory held does not matter.
    let mut network = lent();
    assert_eq!(network.image_read(&good), Ok(()));
    assert_eq!(network, network_a(5));
    let mut none = network_a(4).beside(Vec::new());
    assert_eq!(none.image_read(&good), Err(Refusal::Beyond));
    assert_eq!(none.node_count() + none.edge_count(), 0);
}
