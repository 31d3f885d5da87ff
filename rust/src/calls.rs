//! The exported calls, as include/waterways.h has them.

/// Declares calls that have the five tables before their own parameters, each as a pointer and its
/// number of cells: `const` where the call changes none of them, `mut` where it changes some.
macro_rules! calls {
    ($kind:tt: $(fn $name:ident($($parameter:ident: $type:ty),*);)*) => {
        unsafe extern "C" {
            $(pub fn $name(
                weights: *$kind i32,
                weights_len: usize,
                heads: *$kind u32,
                heads_len: usize,
                registers: *$kind u32,
                registers_len: usize,
                links: *$kind u32,
                links_len: usize,
                ends: *$kind u32,
                ends_len: usize,
                $($parameter: $type),*
            ) -> u32;)*
        }
    };
}

calls! { const:
    fn net_node_weight(n: u32, m: u32, a: u32, weight: *mut i32);
    fn net_edge_weight(n: u32, m: u32, e: u32, weight: *mut u32);
    fn net_edge_endpoints(n: u32, m: u32, e: u32, source: *mut u32, target: *mut u32);
    fn net_first_edge(n: u32, m: u32, a: u32, direction: u32, edge: *mut u32);
    fn net_next_edge(n: u32, m: u32, e: u32, direction: u32, edge: *mut u32);
    fn net_all_edge_weights(n: u32, m: u32, items: *mut u32, items_len: usize, count: *mut u32);
    fn net_neighbors(n: u32, m: u32, a: u32, items: *mut u32, items_len: usize, count: *mut u32);
    fn net_edge_weights(n: u32, m: u32, a: u32, items: *mut u32, items_len: usize, count: *mut u32);
    fn net_edges_between(n: u32, m: u32, a: u32, b: u32, items: *mut u32, items_len: usize, count: *mut u32);
    fn net_edges_mut(n: u32, m: u32, a: u32, items: *mut u32, items_len: usize, count: *mut u32);
    fn net_edge_weights_mut(n: u32, m: u32, a: u32, items: *mut u32, items_len: usize, count: *mut u32);
    fn net_edges(
        n: u32, m: u32, a: u32,
        numbers: *mut u32, numbers_len: usize,
        sources: *mut u32, sources_len: usize,
        targets: *mut u32, targets_len: usize,
        count: *mut u32
    );
    fn net_find_edge(n: u32, m: u32, a: u32, b: u32, edge: *mut u32);
    fn net_contains_edge(n: u32, m: u32, a: u32, b: u32, found: *mut u32);
    fn net_sum_around(n: u32, m: u32, a: u32, sum: *mut i64);
    fn net_check(n: u32, m: u32, rows: *mut u32, direction: *mut u32, node: *mut u32);
    fn net_walker_new(n: u32, m: u32, a: u32, walker: *mut [u32; 3]);
    fn net_walker_next(n: u32, m: u32, walker: *mut [u32; 3], neighbor: *mut u32);
    fn net_image_write(n: u32, m: u32, bytes: *mut u8, bytes_len: usize, length: *mut u32);
    fn net_dir_check(
        n: u32, m: u32, directory: *const u32, directory_len: usize,
        rows: *mut u32, direction: *mut u32, node: *mut u32
    );
    fn net_dir_image_write(
        n: u32, m: u32, directory: *const u32, directory_len: usize,
        bytes: *mut u8, bytes_len: usize, length: *mut u32
    );
    fn net_dir_find_number(
        n: u32, m: u32, directory: *const u32, directory_len: usize, r: u32, edge: *mut u32
    );
}

calls! { mut:
    fn net_set_node_weight(n: u32, m: u32, a: u32, w: i32);
    fn net_set_edge_weight(n: u32, m: u32, e: u32, w: u32);
    fn net_add_node(n: *mut u32, m: u32, w: i32, node: *mut u32);
    fn net_add_edge(n: u32, m: *mut u32, a: u32, b: u32, w: u32, edge: *mut u32);
    fn net_update_edge(n: u32, m: *mut u32, a: u32, b: u32, w: u32, edge: *mut u32);
    fn net_clear_edges(n: u32, m: *mut u32);
    fn net_clear(n: *mut u32, m: *mut u32);
    fn net_remove_edge(n: u32, m: *mut u32, e: u32, weight: *mut u32, moved: *mut u32, rows: *mut u32);
    fn net_remove_node(
        n: *mut u32, m: *mut u32, a: u32,
        items: *mut u32, items_len: usize,
        weight: *mut i32, rows: *mut u64, count: *mut u32
    );
    fn net_image_read(n: *mut u32, m: *mut u32, bytes: *const u8, bytes_len: usize);
    fn net_dir_add_edge(
        n: u32, m: *mut u32, directory: *mut u32, directory_len: usize, a: u32, b: u32, w: u32, edge: *mut u32
    );
    fn net_dir_update_edge(
        n: u32, m: *mut u32, directory: *mut u32, directory_len: usize, a: u32, b: u32, w: u32, edge: *mut u32
    );
    fn net_dir_set_edge_weight(n: u32, m: u32, directory: *mut u32, directory_len: usize, e: u32, w: u32);
    fn net_dir_remove_edge(
        n: u32, m: *mut u32, directory: *mut u32, directory_len: usize,
        e: u32, weight: *mut u32, moved: *mut u32, rows: *mut u32
    );
    fn net_dir_remove_node(
        n: *mut u32, m: *mut u32, directory: *mut u32, directory_len: usize, a: u32,
        items: *mut u32, items_len: usize,
        weight: *mut i32, rows: *mut u64, count: *mut u32
    );
    fn net_dir_clear_edges(n: u32, m: *mut u32, directory: *mut u32, directory_len: usize);
    fn net_dir_clear(n: *mut u32, m: *mut u32, directory: *mut u32, directory_len: usize);
    fn net_dir_image_read(
        n: *mut u32, m: *mut u32, directory: *mut u32, directory_len: usize,
        bytes: *const u8, bytes_len: usize
    );
    fn net_dir_remove_number(
        n: u32, m: *mut u32, directory: *mut u32, directory_len: usize,
        r: u32, weight: *mut u32, moved: *mut u32, rows: *mut u32
    );
}
