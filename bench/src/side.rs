//! A side: a graph library, by the operations that the bench uses, and the loops that are timed.

use crate::input::{HUBS, Input, Size};

/// No edge.
pub const END: u32 = u32::MAX;

/// An empty side with room for so many rows.
pub type Make = fn(Size) -> Box<dyn Side>;

/// Stirs an answer into the checksum of those before it.
pub fn stir(sum: u64, answer: u64) -> u64 {
    sum.rotate_left(5) ^ answer
}

/// What there is to tell of an edge: its number, or 5 where there is none, as the proved library has it.
fn told(edge: u32) -> u64 {
    if edge == END { 5 } else { edge.into() }
}

/// The loops have a body here so that every side does the same around its operations. Those named
/// `many` the proved library has inside, one call for all operations: its side overrides them by that
/// call. They add up what the operations tell.
pub trait Side {
    /// Takes out everything, and keeps the tables.
    fn clear(&mut self);
    /// Nodes and edges.
    fn counts(&self) -> [usize; 2];
    fn add_node(&mut self, weight: i32) -> u32;
    fn add_edge(&mut self, a: u32, b: u32, weight: u32) -> u32;
    fn find_edge(&self, a: u32, b: u32) -> u32;
    fn neighbors_into(&self, a: u32, items: &mut [u32]) -> usize;
    fn sum_around(&self, a: u32) -> i64;
    /// The first edge of the outgoing list, 0, or of the incoming one, 1.
    fn first_edge(&self, a: u32, k: usize) -> u32;
    /// Its weight.
    fn remove_edge(&mut self, e: u32) -> u32;
    /// Its weight; those of its edges go to `items` where the side has them.
    fn remove_node(&mut self, a: u32, items: &mut [u32]) -> i32;

    /// The length of the image; `None` where the side has no images.
    fn image_write(&self, _bytes: &mut [u8]) -> Option<usize> {
        None
    }

    /// The number of edges that the image had.
    fn image_read(&mut self, _bytes: &[u8]) -> Option<usize> {
        None
    }

    /// An empty side of that size with a directory: every edge that is added bears a number of its own below
    /// the size's cells. `None` where the side has no such thing.
    fn with_directory(&self, _size: Size) -> Option<Box<dyn Side>> {
        None
    }

    /// The edge that bears a number, or `END`. Only a side with a directory is asked.
    fn find_number(&self, _number: u32) -> u32 {
        END
    }

    /// Takes out the edge that bears a number: its weight, and the old row of the edge that took its place, or
    /// `END`. Only a side with a directory is asked.
    fn remove_number(&mut self, _number: u32) -> (u32, u32) {
        (0, END)
    }

    /// Answer number and length; `None` where the side runs no scripts.
    fn run(&self, _script: &[u8], _out: &mut [u8]) -> Option<u64> {
        None
    }

    fn add_many(&mut self, input: &Input) -> u64 {
        let mut sum = 0;
        for &weight in &input.weights {
            sum += u64::from(self.add_node(weight));
        }
        for &[a, b, weight] in &input.edges {
            sum += u64::from(self.add_edge(a, b, weight));
        }
        sum
    }

    fn find_many(&mut self, pairs: &[[u32; 2]]) -> u64 {
        pairs.iter().map(|&[a, b]| told(self.find_edge(a, b))).sum()
    }

    fn walk_many(&mut self, items: &mut [u32]) -> u64 {
        (0..self.counts()[0] as u32).fold(0, |sum, a| {
            let count = self.neighbors_into(a, items);
            let met = items[..count].iter();
            met.fold(sum, |sum, &b| sum + u64::from(b))
        })
    }

    fn remove_many(&mut self, numbers: &[u32]) -> u64 {
        let removed = numbers.iter().map(|&e| self.remove_edge(e));
        removed.map(u64::from).sum()
    }

    fn find_many_numbers(&mut self, numbers: &[u32]) -> u64 {
        numbers.iter().map(|&r| told(self.find_number(r))).sum()
    }

    fn remove_many_numbers(&mut self, numbers: &[u32]) -> u64 {
        let removed = numbers.iter().map(|&r| self.remove_number(r).0);
        removed.map(u64::from).sum()
    }

    fn build(&mut self, input: &Input) -> u64 {
        let mut sum = 0;
        for &weight in &input.weights {
            sum = stir(sum, self.add_node(weight).into());
        }
        for &[a, b, weight] in &input.edges {
            sum = stir(sum, self.add_edge(a, b, weight).into());
        }
        sum
    }

    fn find_all(&self, pairs: &[[u32; 2]]) -> u64 {
        let found = pairs.iter().map(|&[a, b]| self.find_edge(a, b));
        found.fold(0, |sum, edge| stir(sum, edge.into()))
    }

    fn walk_all(&self, items: &mut [u32]) -> u64 {
        (0..self.counts()[0] as u32).fold(0, |sum, a| {
            let count = self.neighbors_into(a, items);
            let met = items[..count].iter();
            met.fold(stir(sum, count as u64), |sum, &b| stir(sum, b.into()))
        })
    }

    fn sum_all(&self) -> u64 {
        let sums = (0..self.counts()[0] as u32).map(|a| self.sum_around(a));
        sums.fold(0, |sum, around| stir(sum, around as u64))
    }

    fn remove_edges(&mut self, numbers: &[u32]) -> u64 {
        let removed = numbers.iter().map(|&e| self.remove_edge(e));
        removed.fold(0, |sum, weight| stir(sum, weight.into()))
    }

    fn find_numbers(&self, numbers: &[u32]) -> u64 {
        let found = numbers.iter().map(|&r| self.find_number(r));
        found.fold(0, |sum, edge| stir(sum, edge.into()))
    }

    fn remove_numbers(&mut self, numbers: &[u32]) -> u64 {
        let removed = numbers.iter().map(|&r| self.remove_number(r).1);
        removed.fold(0, |sum, moved| stir(sum, moved.into()))
    }

    /// Takes out all edges of the hubs, head first: what the removal of a node does before the node goes.
    fn strip_hubs(&mut self) -> u64 {
        let mut sum = 0;
        for (a, k) in (0..HUBS).flat_map(|a| [(a, 0), (a, 1)]) {
            loop {
                let head = self.first_edge(a, k);
                if head == END {
                    break;
                }
                sum = stir(sum, self.remove_edge(head).into());
            }
        }
        sum
    }

    fn remove_nodes(&mut self, numbers: &[u32], items: &mut [u32]) -> u64 {
        let removed = numbers.iter().map(|&a| self.remove_node(a, items));
        removed.fold(0, |sum, weight| stir(sum, weight as u64))
    }
}
