//! Every work on small networks: the sides agree, and each that has a counterpart is timed.

use bench::{END, Make, Ours, Side, Size, Theirs, WORKS, Work, measure};

const SIDES: [Make; 2] = [Ours::make, Theirs::make];

#[test]
fn every_work() {
    for (work, name, shapes) in WORKS {
        for &shape in shapes {
            let measured = measure(&SIDES, (work, shape, Size::of(100)), 1).expect(name);
            assert!(measured.nanos[0].is_some(), "{name}");
            assert_eq!(measured.ratios[1].is_none(), work.is_image(), "{name}");
        }
    }
}

/// A side that answers 0 to everything.
struct Idle;

impl Side for Idle {
    fn clear(&mut self) {}
    fn counts(&self) -> [usize; 2] {
        [0, 0]
    }
    fn add_node(&mut self, _: i32) -> u32 {
        0
    }
    fn add_edge(&mut self, _: u32, _: u32, _: u32) -> u32 {
        0
    }
    fn find_edge(&self, _: u32, _: u32) -> u32 {
        0
    }
    fn neighbors_into(&self, _: u32, _: &mut [u32]) -> usize {
        0
    }
    fn sum_around(&self, _: u32) -> i64 {
        0
    }
    fn first_edge(&self, _: u32, _: usize) -> u32 {
        END
    }
    fn remove_edge(&mut self, _: u32) -> u32 {
        0
    }
    fn remove_node(&mut self, _: u32, _: &mut [u32]) -> i32 {
        0
    }
    fn with_directory(&self, _: Size) -> Option<Box<dyn Side>> {
        Some(Box::new(Idle))
    }
}

#[test]
fn sides_that_differ_are_told() {
    // The others `Idle` cannot do.
    let done = |work: Work| work.has_network() && !work.is_image();
    for (work, name, shapes) in WORKS.into_iter().filter(|work| done(work.0)) {
        let task = (work, shapes[0], Size::of(100));
        let told = measure(&[Ours::make, |_| Box::new(Idle)], task, 1);
        assert!(told.is_err(), "{name}");
    }
}
