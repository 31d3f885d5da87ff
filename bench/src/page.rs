//! The table on the screen, and docs/BENCH.md.

use std::fmt::Write;
use std::fs;

use crate::count::instructions;
use crate::input::{Shape, Size};
use crate::measure::{Measured, measure};
use crate::side::Make;
use crate::work::{WORKS, Work};

/// Rounds that count.
const ROUNDS: usize = 15;

const HEAD: &str = include_str!("../head.md");
const LIMITS: &str = include_str!("../limits.md");

/// All that was measured of a work on a shape.
struct Line {
    work: Work,
    name: &'static str,
    shape: Shape,
    /// By size, the smallest first.
    sizes: Vec<Measured>,
    instructions: Vec<Option<f64>>,
}

pub fn write(sides: &[(&'static str, Make)], file: &str) -> Result<(), String> {
    println!("nanoseconds an operation (an image's or script's: a byte), at the limits");
    let mut lines = Vec::new();
    for (work, name, shapes) in WORKS {
        for &shape in shapes {
            let line = line(sides, (work, name, shape))?;
            print(sides, &line);
            lines.push(line);
        }
    }
    let page = page(sides, &lines);
    println!("\n{page}");
    fs::write(file, page).map_err(|error| format!("{file}: {error}"))
}

fn line(
    sides: &[(&str, Make)],
    (work, name, shape): (Work, &'static str, Shape),
) -> Result<Line, String> {
    let makes: Vec<Make> = sides.iter().map(|side| side.1).collect();
    let last = Size::ALL.len() - 1;
    let sizes = if work.has_network() {
        &Size::ALL[..]
    } else {
        &Size::ALL[last..]
    };
    let measured = sizes
        .iter()
        .map(|&size| measure(&makes, (work, shape, size), ROUNDS));
    Ok(Line {
        work,
        name,
        shape,
        sizes: measured.collect::<Result<_, _>>()?,
        instructions: sides
            .iter()
            .map(|side| instructions(work, shape, side.0))
            .collect(),
    })
}

/// What belongs to this machine goes to the screen alone.
fn print(sides: &[(&str, Make)], line: &Line) {
    let full = line.sizes.last().expect("there are sizes");
    let timed = sides
        .iter()
        .zip(&full.nanos)
        .filter_map(|(side, nanos)| Some(format!("{} {:.2} ns", side.0, (*nanos)?)));
    let timed: Vec<String> = timed.collect();
    println!("{}, {:?}: {}", line.name, line.shape, timed.join(", "));
    if let (true, Some(nanos)) = (line.work.is_image(), full.nanos[0]) {
        println!("    {:.0} million bytes a second", 1_000.0 / nanos);
    }
}

/// `-` where there is none.
fn cell(number: Option<f64>) -> String {
    number.map_or("-".to_string(), |number| format!("{number:.2}"))
}

fn page(sides: &[(&str, Make)], lines: &[Line]) -> String {
    let mut page = HEAD.to_string();
    // The machine that this runs on: the libraries are compiled for it, as graph.rs is.
    let _ = writeln!(page, "Measured on {}.\n", std::env::consts::ARCH);
    let others = &sides[1..];
    row(&mut page, title(others));
    row(
        &mut page,
        title(others).iter().map(|_| "---".to_string()).collect(),
    );
    for line in lines {
        row(&mut page, cells(others.len(), line));
    }
    if !others.iter().any(|side| side.0 == "petgraph") {
        page += "\npetgraph: not installed.\n";
    }
    if lines.iter().all(|line| line.instructions[0].is_none()) {
        page += "\nvalgrind: not installed, so no instructions.\n";
    }
    page +=
        "\n## What limits the ratios above 1.00, and those above what is wanted with a directory\n";
    let slow = WORKS
        .iter()
        .filter(|work| lines.iter().any(|line| line.work == work.0 && above(line)));
    for work in slow {
        page += &limits(work.1);
    }
    page
}

fn row(page: &mut String, cells: Vec<String>) {
    writeln!(page, "| {} |", cells.join(" | ")).expect("a string can grow");
}

fn title(others: &[(&str, Make)]) -> Vec<String> {
    let mut title = vec!["Work".to_string(), "Edges".to_string()];
    let [first, rest @ ..] = others else {
        return title;
    };
    title.extend(["1/16", "1/4", "full"].map(|size| format!("time by {}, {size}", first.0)));
    title.extend(rest.iter().map(|side| format!("time by {}, full", side.0)));
    title.extend(
        others
            .iter()
            .map(|side| format!("instructions by {}", side.0)),
    );
    title.push("growth".to_string());
    title.push(format!("growth of {}", first.0));
    title.push("instructions an operation".to_string());
    title
}

fn cells(others: usize, line: &Line) -> Vec<String> {
    let shape = match (line.work.has_network(), line.shape) {
        (false, _) => "-",
        (_, Shape::Even) => "even",
        (_, Shape::Hubs) => "hubs",
    };
    let mut cells = vec![line.name.to_string(), shape.to_string()];
    let missing = Size::ALL.len() - line.sizes.len();
    cells.extend((0..missing).map(|_| cell(None)));
    cells.extend(line.sizes.iter().map(|size| cell(size.ratios[1])));
    let full = line.sizes.last().expect("there are sizes");
    cells.extend((2..=others).map(|side| cell(full.ratios[side])));
    cells.extend((1..=others).map(|side| {
        let (ours, theirs) = (line.instructions[0], line.instructions[side]);
        cell(ours.zip(theirs).map(|(ours, theirs)| ours / theirs))
    }));
    cells.extend((0..2).map(|side| cell(growth(line, side))));
    cells.push(cell(line.instructions[0]));
    cells
}

/// The time of an operation at the limits by that at a sixteenth.
fn growth(line: &Line, side: usize) -> Option<f64> {
    let [first, .., full] = &line.sizes[..] else {
        return None;
    };
    Some(full.nanos[side]? / first.nanos[side]?)
}

/// Whether some ratio, as it is printed, is above what is wanted, at any size. Ours by ours is none.
fn above(line: &Line) -> bool {
    let others = line.sizes.iter().flat_map(|size| &size.ratios[1..]);
    let mut ratios = others.flatten();
    ratios.any(|&ratio| ratio > line.work.wanted() + 0.005)
}

/// What bench/limits.md says of a work.
fn limits(name: &str) -> String {
    let title = format!("### {name}\n");
    let said = LIMITS.split_once(&title).map(|(_, rest)| rest);
    let said = said.and_then(|rest| rest.split("\n### ").next());
    let text = said.map_or("Not looked into yet.", str::trim);
    format!("\n{title}\n{text}\n")
}
