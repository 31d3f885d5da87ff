//! The loops that the proved library has inside, in its crates `loops` and `dirloops`: one C call makes all
//! calls of a table and adds up what they tell.

use waterways::Tables;

/// Declares loops that have the five tables before their own parameters, each as a pointer and its number of cells.
macro_rules! loops {
    ($(fn $name:ident($($parameter:ident: $type:ty),*);)*) => {
        unsafe extern "C" {
            $(fn $name(
                weights: *mut i32,
                weights_len: usize,
                heads: *mut u32,
                heads_len: usize,
                registers: *mut u32,
                registers_len: usize,
                links: *mut u32,
                links_len: usize,
                ends: *mut u32,
                ends_len: usize,
                $($parameter: $type),*
            ) -> u64;)*
        }
    };
}

loops! {
    fn loop_add_nodes(n: *mut u32, m: u32, totals: *const i32, totals_len: usize);
    fn loop_add_edges(n: u32, m: *mut u32, edges: *const u32, edges_len: usize);
    fn loop_find_edges(n: u32, m: u32, pairs: *const u32, pairs_len: usize);
    fn loop_neighbors(n: u32, m: u32, items: *mut u32, items_len: usize);
    fn loop_remove_edges(n: u32, m: *mut u32, numbers: *const u32, numbers_len: usize);
    fn loop_dir_add_edges(
        n: u32, m: *mut u32, directory: *mut u32, directory_len: usize, edges: *const u32, edges_len: usize
    );
    fn loop_find_numbers(
        n: u32, m: u32, directory: *const u32, directory_len: usize, numbers: *const u32, numbers_len: usize
    );
    fn loop_remove_numbers(
        n: u32, m: *mut u32, directory: *mut u32, directory_len: usize, numbers: *const u32, numbers_len: usize
    );
}

/// Lends the tables to a loop.
macro_rules! lend {
    ($t:ident, $call:ident($($argument:expr),*)) => {
        // SAFETY: each table, and a directory, is lent with its own length, and is held by `&mut`, so nobody else
        // reads or changes it meanwhile. Lengths and counts need not agree: each call of the loop tests them before
        // it reads.
        unsafe {
            $call(
                $t.weights.as_mut_ptr(),
                $t.weights.len(),
                $t.heads.as_mut_ptr(),
                $t.heads.len(),
                $t.registers.as_mut_ptr(),
                $t.registers.len(),
                $t.links.as_mut_ptr(),
                $t.links.len(),
                $t.ends.as_mut_ptr(),
                $t.ends.len(),
                $($argument),*
            )
        }
    };
}

pub fn add_nodes(t: &mut Tables, totals: &[i32]) -> u64 {
    lend!(
        t,
        loop_add_nodes(&mut t.n, t.m, totals.as_ptr(), totals.len())
    )
}

/// Source, target and weight of each edge.
pub fn add_edges(t: &mut Tables, edges: &[[u32; 3]]) -> u64 {
    let cells = edges.as_flattened();
    lend!(
        t,
        loop_add_edges(t.n, &mut t.m, cells.as_ptr(), cells.len())
    )
}

pub fn find_edges(t: &mut Tables, pairs: &[[u32; 2]]) -> u64 {
    let cells = pairs.as_flattened();
    lend!(t, loop_find_edges(t.n, t.m, cells.as_ptr(), cells.len()))
}

/// The neighbours of every node, one node after another into the same table.
pub fn neighbors(t: &mut Tables, items: &mut [u32]) -> u64 {
    lend!(t, loop_neighbors(t.n, t.m, items.as_mut_ptr(), items.len()))
}

pub fn remove_edges(t: &mut Tables, numbers: &[u32]) -> u64 {
    lend!(
        t,
        loop_remove_edges(t.n, &mut t.m, numbers.as_ptr(), numbers.len())
    )
}

/// As `add_edges`, with a directory.
pub fn dir_add_edges(t: &mut Tables, directory: &mut [u32], edges: &[[u32; 3]]) -> u64 {
    let (at, length) = (directory.as_mut_ptr(), directory.len());
    let cells = edges.as_flattened();
    lend!(
        t,
        loop_dir_add_edges(t.n, &mut t.m, at, length, cells.as_ptr(), cells.len())
    )
}

pub fn find_numbers(t: &mut Tables, directory: &mut [u32], numbers: &[u32]) -> u64 {
    let (at, length) = (directory.as_ptr(), directory.len());
    lend!(
        t,
        loop_find_numbers(t.n, t.m, at, length, numbers.as_ptr(), numbers.len())
    )
}

pub fn remove_numbers(t: &mut Tables, directory: &mut [u32], numbers: &[u32]) -> u64 {
    let (at, length) = (directory.as_mut_ptr(), directory.len());
    lend!(
        t,
        loop_remove_numbers(t.n, &mut t.m, at, length, numbers.as_ptr(), numbers.len())
    )
}
