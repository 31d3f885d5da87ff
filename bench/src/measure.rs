//! Rounds, times and their medians.

use std::time::Instant;

use crate::input::{Shape, Size};
use crate::side::{Make, Side};
use crate::work::{Room, Task, Work, timed_part};

/// What was measured of one work; sides stand in the order given, and one without a counterpart has `None`.
pub struct Measured {
    /// The time of the first side by that of each.
    pub ratios: Vec<Option<f64>>,
    /// Nanoseconds an operation.
    pub nanos: Vec<Option<f64>>,
}

/// Times a work on all sides. The first round, in which tables are touched for the first time, does
/// not count. Each round has a new input, and another side begins.
pub fn measure(
    sides: &[Make],
    (work, shape, size): (Work, Shape, Size),
    rounds: usize,
) -> Result<Measured, String> {
    let made = sides.iter().map(|make| work.side(*make, size));
    let mut made: Vec<Option<Box<dyn Side>>> = made.collect();
    let mut room = Room::new(size);
    let mut times = vec![Vec::new(); made.len()];
    for round in 0..=rounds {
        let task = Task::new(work, shape, size, round as u64);
        let mut ends = Vec::new();
        for k in 0..made.len() {
            let side = (round + k) % made.len();
            let ran = made[side].as_mut();
            let Some((time, end)) = ran.and_then(|made| run(&task, &mut **made, &mut room)) else {
                continue;
            };
            ends.push(end);
            if round > 0 {
                times[side].push(time / task.operations() as f64);
            }
        }
        if ends.windows(2).any(|pair| pair[0] != pair[1]) {
            return Err(format!("{work:?}, {shape:?}, {size:?}: the sides differ"));
        }
    }
    Ok(Measured {
        ratios: times.iter().map(|of| ratio(&times[0], of)).collect(),
        nanos: times.into_iter().map(median).collect(),
    })
}

/// What a side ends with: its answers, counts, and what is left.
type End = (u64, ([usize; 2], u64));

/// The nanoseconds that a side takes, and its end.
fn run(task: &Task, side: &mut dyn Side, room: &mut Room) -> Option<(f64, End)> {
    task.prepare(side, room);
    let start = Instant::now();
    let answers = timed_part(task, side, room);
    let time = start.elapsed().as_nanos() as f64;
    Some((time, (answers?, task.left(side, room))))
}

fn ratio(ours: &[f64], theirs: &[f64]) -> Option<f64> {
    median(ours.iter().zip(theirs).map(|(a, b)| a / b).collect())
}

fn median(mut numbers: Vec<f64>) -> Option<f64> {
    numbers.sort_by(f64::total_cmp);
    numbers.get(numbers.len() / 2).copied()
}
