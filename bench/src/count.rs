//! Instructions, counted by callgrind on one small input: they do not depend on the machine's mood.

use std::env;
use std::process::Command;

use crate::input::{Shape, Size};
use crate::side::Make;
use crate::work::{Room, Task, WORKS, Work, timed_part};

/// The instructions of a side for an operation of a work; `None` without valgrind, or where the side
/// has no counterpart.
pub fn instructions(work: Work, shape: Shape, side: &str) -> Option<f64> {
    let counted = Command::new("valgrind")
        .args(["--tool=callgrind", "--callgrind-out-file=/dev/null"])
        .arg("--toggle-collect=*timed_part*")
        .arg(env::current_exe().ok()?)
        .args(["one", &format!("{work:?}"), &format!("{shape:?}"), side])
        .output()
        .ok()?;
    let report = String::from_utf8(counted.stderr).ok()?;
    let (_, rest) = report.split_once("Collected : ")?;
    let count: f64 = rest.lines().next()?.trim().parse().ok()?;
    let operations = task(work, shape).operations();
    counted.status.success().then(|| count / operations as f64)
}

const NO_COUNTERPART: &str = "no counterpart";

fn task(work: Work, shape: Shape) -> Task {
    Task::new(work, shape, Size::ALL[0], 0)
}

/// Does a work once, all three by their names. It fails if the side has no counterpart.
pub fn once(sides: &[(&str, Make)], [work, shape, side]: [&str; 3]) -> Result<(), String> {
    let named = WORKS.iter().find(|w| format!("{:?}", w.0) == work);
    let &(work, _, shapes) = named.ok_or("no such work")?;
    let named = shapes.iter().find(|s| format!("{s:?}") == shape);
    let &shape = named.ok_or("no such shape")?;
    let named = sides.iter().find(|s| s.0 == side);
    let &(_, make) = named.ok_or("no such side")?;
    let (task, mut room) = (task(work, shape), Room::new(Size::ALL[0]));
    let mut side = work.side(make, Size::ALL[0]).ok_or(NO_COUNTERPART)?;
    task.prepare(&mut *side, &mut room);
    let answers = timed_part(&task, &mut *side, &mut room);
    answers.map(|_| ()).ok_or(NO_COUNTERPART.to_string())
}
