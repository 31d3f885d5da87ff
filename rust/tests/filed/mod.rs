//! The order's rules for a network with a directory, written down a second time over the rules for one without:
//! by plain vectors and searches, with no part of the library. A refusal leaves all as it was, but for a read.

pub mod base;

use crate::rules;
use waterways::{END, Refusal, Tables};

/// A network and its directory: for each register number the row that it stands in, or `END`, none.
#[derive(Clone, Debug, PartialEq, Eq)]
pub struct Filed {
    pub tables: Tables,
    pub directory: Vec<u32>,
}

/// The directory of rows with these numbers, in so many cells: 12 where a number has no cell, then 11 where two
/// rows have one number.
pub fn directory_of(registers: &[u32], cells: usize) -> Result<Vec<u32>, Refusal> {
    if registers.iter().any(|r| cells <= *r as usize) {
        return Err(Refusal::Beyond);
    }
    let rows = |r: usize| (0..registers.len()).filter(move |e| registers[*e] as usize == r);
    if (0..cells).any(|r| rows(r).count() > 1) {
        return Err(Refusal::Taken);
    }
    let row = |r: usize| rows(r).next().map_or(END, |e| e as u32);
    Ok((0..cells).map(row).collect())
}

impl Filed {
    fn fit(&self) -> Result<(), Refusal> {
        rules::fit(&self.tables)
            .then_some(())
            .ok_or(Refusal::Tables)
    }

    /// Each edge's entry names it, and every other cell is none.
    pub fn right(&self) -> bool {
        let registers = &self.tables.registers[..self.tables.m as usize];
        directory_of(registers, self.directory.len()).as_ref() == Ok(&self.directory)
    }

    /// Direction and node of the first fault: the links come first, the directory is told at node n + 1.
    pub fn fault(&self) -> Option<(usize, u32)> {
        let directory = (!self.right()).then_some((1, self.tables.n + 1));
        rules::fault(&self.tables).or(directory)
    }

    /// The entry of the edge's number names it. A number without a cell has no such entry.
    fn named(&self, e: u32) -> bool {
        let number = self.tables.registers[e as usize] as usize;
        self.directory.get(number) == Some(&e)
    }

    /// 12, then 11: the number's entry names a row, other than the one that is to bear it.
    fn claim(&self, number: u32, row: Option<u32>) -> Result<(), Refusal> {
        match self.directory.get(number as usize) {
            None => Err(Refusal::Beyond),
            Some(&entry) if entry != END && Some(entry) != row => Err(Refusal::Taken),
            Some(_) => Ok(()),
        }
    }

    pub fn add_edge(&mut self, a: u32, b: u32, w: u32) -> Result<u32, Refusal> {
        let mut after = self.tables.clone();
        let e = rules::add_edge(&mut after, a, b, w)?;
        self.claim(w, None)?;
        self.tables = after;
        self.directory[w as usize] = e;
        Ok(e)
    }

    pub fn set_edge_weight(&mut self, e: u32, w: u32) -> Result<(), Refusal> {
        self.fit()?;
        if self.tables.m <= e {
            return Err(Refusal::NoEdge);
        }
        self.reweigh(e, w)
    }

    /// The entry moves with the weight.
    fn reweigh(&mut self, e: u32, w: u32) -> Result<(), Refusal> {
        if !self.named(e) {
            return Err(Refusal::Broken);
        }
        self.claim(w, Some(e))?;
        let old = std::mem::replace(&mut self.tables.registers[e as usize], w);
        self.directory[old as usize] = END;
        self.directory[w as usize] = e;
        Ok(())
    }

    pub fn update_edge(&mut self, a: u32, b: u32, w: u32) -> Result<u32, Refusal> {
        match rules::find(&self.tables, a, b) {
            Ok(e) => self.reweigh(e, w).map(|()| e),
            Err(Refusal::Broken) => Err(Refusal::Broken),
            Err(_) => self.add_edge(a, b, w),
        }
    }

    /// Weight, old number of the row that moves, and rows read.
    pub fn remove_edge(&mut self, e: u32) -> Result<(u32, Option<u32>, u32), Refusal> {
        let mut after = self.tables.clone();
        let removed = rules::remove_edge(&mut after, e)?;
        let (weight, moved, _) = removed;
        if !self.named(e) || moved.is_some_and(|last| !self.named(last)) {
            return Err(Refusal::Broken);
        }
        self.directory[weight as usize] = END;
        if moved.is_some() {
            self.directory[after.registers[e as usize] as usize] = e;
        }
        self.tables = after;
        Ok(removed)
    }

    pub fn find_number(&self, r: u32) -> Result<u32, Refusal> {
        self.fit()?;
        let t = &self.tables;
        match self.directory.get(r as usize) {
            None => Err(Refusal::Beyond),
            Some(&END) => Err(Refusal::Nothing),
            Some(&e) if t.m <= e || t.registers[e as usize] != r => Err(Refusal::Broken),
            Some(&e) => Ok(e),
        }
    }

    pub fn remove_number(&mut self, r: u32) -> Result<(u32, Option<u32>, u32), Refusal> {
        self.remove_edge(self.find_number(r)?)
    }

    /// Weight, rows read and how many edge weights stand in the table.
    pub fn remove_node(&mut self, a: u32, items: &mut [u32]) -> Result<(i32, u64, usize), Refusal> {
        self.fit()?;
        if self.tables.n <= a {
            return Err(Refusal::NoNode);
        }
        if self.fault().is_some() {
            return Err(Refusal::Broken);
        }
        if items.len() < base::degree(&self.tables, a) {
            return Err(Refusal::Short);
        }
        let (weight, rows, weights) = base::remove_node(&mut self.tables, a);
        items[..weights.len()].copy_from_slice(&weights);
        self.file()
            .expect("a number was below the length, and borne once");
        Ok((weight, rows, weights.len()))
    }

    /// The directory becomes that of the rows.
    fn file(&mut self) -> Result<(), Refusal> {
        let registers = &self.tables.registers[..self.tables.m as usize];
        self.directory = directory_of(registers, self.directory.len())?;
        Ok(())
    }

    pub fn clear_edges(&mut self) -> Result<(), Refusal> {
        base::clear_edges(&mut self.tables)?;
        self.directory.fill(END);
        Ok(())
    }

    pub fn clear(&mut self) -> Result<(), Refusal> {
        base::clear(&mut self.tables)?;
        self.directory.fill(END);
        Ok(())
    }

    /// The image's length.
    pub fn image_write(&self, bytes: &mut [u8]) -> Result<usize, Refusal> {
        self.fit()?;
        if self.fault().is_some() {
            return Err(Refusal::Broken);
        }
        let image = base::image(&self.tables);
        let room = bytes.get_mut(..image.len()).ok_or(Refusal::Short)?;
        room.copy_from_slice(&image);
        Ok(image.len())
    }

    /// 6, 12 and 11 leave all empty; what the directory held does not matter.
    pub fn image_read(&mut self, bytes: &[u8]) -> Result<(), Refusal> {
        let answer = base::image_read(&mut self.tables, bytes).and_then(|()| self.file());
        if let Err(Refusal::Broken | Refusal::Beyond | Refusal::Taken) = answer {
            base::empty(&mut self.tables);
            self.directory.fill(END);
        }
        answer
    }
}
