//! What is timed: the pieces of work, their inputs, and the tables lent to them.

use oracle::run::OUTPUT_LIMIT;

use crate::input::{HUBS, Input, NODES_OUT, Shape, Size};
use crate::scripts::{self, scripts};
use crate::side::{Make, Side, stir};

#[derive(Clone, Copy, Debug, PartialEq, Eq)]
pub enum Work {
    Build,
    Find,
    Walk,
    AllEdges,
    HubEdges,
    BuildByCalls,
    FindByCalls,
    WalkByCalls,
    SumByCalls,
    AllEdgesByCalls,
    HubEdgesByCalls,
    StripHubs,
    Nodes,
    BuildFiled,
    FindNumbers,
    TakeDown,
    BuildFiledByCalls,
    FindNumbersByCalls,
    TakeDownByCalls,
    ImageWrite,
    ImageRead,
    AlikeScripts,
    Scripts,
}

use Shape::{Even, Hubs};

/// Every work with its name and the shapes that it is done on. One on a network has its loop inside the library, unless it is named
/// 'by calls' or is an image's.
pub const WORKS: [(Work, &str, &[Shape]); 23] = [
    (Work::Build, "build", &[Even, Hubs]),
    (Work::Find, "find", &[Even, Hubs]),
    (Work::Walk, "walk all neighbours", &[Even, Hubs]),
    (Work::AllEdges, "take out all edges", &[Even, Hubs]),
    (Work::HubEdges, "take out hub edges", &[Hubs]),
    (Work::BuildByCalls, "build, by calls", &[Even, Hubs]),
    (Work::FindByCalls, "find, by calls", &[Even, Hubs]),
    (
        Work::WalkByCalls,
        "walk all neighbours, by calls",
        &[Even, Hubs],
    ),
    (
        Work::SumByCalls,
        "sum around all nodes, by calls",
        &[Even, Hubs],
    ),
    (
        Work::AllEdgesByCalls,
        "take out all edges, by calls",
        &[Even, Hubs],
    ),
    (
        Work::HubEdgesByCalls,
        "take out hub edges, by calls",
        &[Hubs],
    ),
    (Work::StripHubs, "strip hubs, by calls", &[Hubs]),
    (Work::Nodes, "take out nodes, by calls", &[Even, Hubs]),
    (Work::BuildFiled, "build with a directory", &[Even, Hubs]),
    (Work::FindNumbers, "find by number", &[Even]),
    (Work::TakeDown, "take down by number", &[Even, Hubs]),
    (
        Work::BuildFiledByCalls,
        "build with a directory, by calls",
        &[Even, Hubs],
    ),
    (
        Work::FindNumbersByCalls,
        "find by number, by calls",
        &[Even],
    ),
    (
        Work::TakeDownByCalls,
        "take down by number, by calls",
        &[Even, Hubs],
    ),
    (Work::ImageWrite, "write an image", &[Even]),
    (Work::ImageRead, "read an image", &[Even]),
    (Work::AlikeScripts, "scripts without S, X, D", &[Even]),
    (Work::Scripts, "scripts", &[Even]),
];

impl Work {
    /// A script brings its own network.
    pub fn has_network(self) -> bool {
        self != Work::Scripts && self != Work::AlikeScripts
    }

    /// Ours alone has images.
    pub fn is_image(self) -> bool {
        self == Work::ImageWrite || self == Work::ImageRead
    }

    /// The network has a directory beside it.
    pub fn has_directory(self) -> bool {
        matches!(
            self,
            Work::BuildFiled
                | Work::FindNumbers
                | Work::TakeDown
                | Work::BuildFiledByCalls
                | Work::FindNumbersByCalls
                | Work::TakeDownByCalls
        )
    }

    /// The ratio that is wanted at most. What limits one above it is told.
    pub fn wanted(self) -> f64 {
        match self {
            Work::BuildFiled | Work::BuildFiledByCalls => 0.5,
            Work::FindNumbers | Work::FindNumbersByCalls => 0.3,
            Work::TakeDown | Work::TakeDownByCalls => 0.5,
            _ => 1.0,
        }
    }

    /// An empty side for this work; `None` where the side has no counterpart.
    pub fn side(self, make: Make, size: Size) -> Option<Box<dyn Side>> {
        let side = make(size);
        match self.has_directory() {
            true => side.with_directory(size),
            false => Some(side),
        }
    }

    /// The network is what the work makes.
    fn builds(self) -> bool {
        matches!(
            self,
            Work::Build | Work::BuildByCalls | Work::BuildFiled | Work::BuildFiledByCalls
        )
    }
}

/// One work on one input.
pub struct Task {
    pub work: Work,
    input: Input,
    /// The cells of a directory.
    cells: u32,
    scripts: Vec<Vec<u8>>,
}

/// Tables that outlive the rounds, so that none is made or first touched while time is taken.
pub struct Room {
    items: Vec<u32>,
    image: Vec<u8>,
    out: Vec<u8>,
}

impl Room {
    pub fn new(size: Size) -> Room {
        Room {
            items: vec![0; size.edges],
            image: vec![0; 13 + 12 * size.nodes + 20 * size.edges],
            out: vec![0; scripts::COUNT * OUTPUT_LIMIT],
        }
    }
}

impl Task {
    pub fn new(work: Work, shape: Shape, size: Size, seed: u64) -> Task {
        let size = if work.has_network() {
            size
        } else {
            Size::of(0)
        };
        let input = match work.has_directory() {
            true => Input::numbered(size, shape, seed),
            false => Input::new(size, shape, seed),
        };
        Task {
            work,
            input,
            cells: size.cells() as u32,
            scripts: match work {
                Work::Scripts => scripts(scripts::ALL, seed),
                Work::AlikeScripts => scripts(scripts::ALIKE, seed),
                _ => Vec::new(),
            },
        }
    }

    /// How many operations it has: calls, rows walked, or bytes.
    pub fn operations(&self) -> usize {
        let (nodes, edges) = (self.input.weights.len(), &self.input.edges);
        match self.work {
            Work::Build | Work::BuildByCalls => nodes + edges.len(),
            Work::BuildFiled | Work::BuildFiledByCalls => nodes + edges.len(),
            Work::Find | Work::FindByCalls => edges.len(),
            Work::FindNumbers | Work::FindNumbersByCalls => edges.len(),
            Work::Walk | Work::WalkByCalls | Work::SumByCalls => 2 * edges.len(),
            Work::AllEdges | Work::AllEdgesByCalls => edges.len(),
            Work::TakeDown | Work::TakeDownByCalls => edges.len(),
            Work::HubEdges | Work::HubEdgesByCalls => self.input.hub_out.len(),
            Work::StripHubs => edges.iter().filter(|e| e[0].min(e[1]) < HUBS).count(),
            Work::Nodes => NODES_OUT,
            Work::ImageWrite | Work::ImageRead => 13 + 12 * nodes + 20 * edges.len(),
            Work::AlikeScripts | Work::Scripts => self.scripts.iter().map(Vec::len).sum(),
        }
    }

    /// Brings a side to where the work begins.
    pub fn prepare(&self, side: &mut dyn Side, room: &mut Room) {
        side.clear();
        if !self.work.builds() {
            side.build(&self.input);
        }
        if self.work == Work::ImageRead {
            side.image_write(&mut room.image);
        }
    }

    /// Counts and a checksum of all that is there after the work.
    pub fn left(&self, side: &dyn Side, room: &mut Room) -> ([usize; 2], u64) {
        let mut left = side.walk_all(&mut room.items);
        if self.work.has_directory() {
            let found = (0..self.cells).map(|r| side.find_number(r).into());
            left = found.fold(left, stir);
        }
        let printed = room.out.iter().map(|&byte| byte.into());
        (side.counts(), printed.fold(left, stir))
    }
}

/// The work itself; `None` where the side cannot do it. The count of instructions finds it by name.
#[inline(never)]
pub fn timed_part(task: &Task, side: &mut dyn Side, room: &mut Room) -> Option<u64> {
    let input = &task.input;
    Some(match task.work {
        Work::Build | Work::BuildFiled => side.add_many(input),
        Work::Find => side.find_many(&input.pairs),
        Work::Walk => side.walk_many(&mut room.items),
        Work::AllEdges => side.remove_many(&input.all_out),
        Work::HubEdges => side.remove_many(&input.hub_out),
        Work::FindNumbers => side.find_many_numbers(&input.asked),
        Work::TakeDown => side.remove_many_numbers(&input.numbers_out),
        Work::BuildByCalls | Work::BuildFiledByCalls => side.build(input),
        Work::FindNumbersByCalls => side.find_numbers(&input.asked),
        Work::TakeDownByCalls => side.remove_numbers(&input.numbers_out),
        Work::FindByCalls => side.find_all(&input.pairs),
        Work::WalkByCalls => side.walk_all(&mut room.items),
        Work::SumByCalls => side.sum_all(),
        Work::AllEdgesByCalls => side.remove_edges(&input.all_out),
        Work::HubEdgesByCalls => side.remove_edges(&input.hub_out),
        Work::StripHubs => side.strip_hubs(),
        Work::Nodes => side.remove_nodes(&input.nodes_out, &mut room.items),
        Work::ImageWrite => side.image_write(&mut room.image)? as u64,
        Work::ImageRead => side.image_read(&room.image)? as u64,
        Work::AlikeScripts | Work::Scripts => {
            let outs = room.out.chunks_mut(OUTPUT_LIMIT);
            let mut ran = task.scripts.iter().zip(outs);
            ran.try_fold(0, |sum, (script, out)| {
                Some(stir(sum, side.run(script, out)?))
            })?
        }
    })
}
