//! A set that owns its parts, made of rows, each part in memory of just its length.
//! A program that uses this file uses only some of it.
#![allow(dead_code)]

use crate::records::{Built, Grid, Place, Set};

/// A stand: its name, its place, its score.
pub type Row = (Vec<u8>, Place, u32);

/// The most words that order, nodes, entries and bits of so many stands have, for which the header's macros give room.
pub fn most_words(stands: usize) -> [usize; 4] {
    let records = if stands == 0 { 1 } else { 2 * stands - 1 };
    [stands, 8 * (24 * stands + 1), 4 * 25 * stands, 2 * records]
}

#[derive(Clone, PartialEq)]
pub struct Owned {
    pub text: Vec<u8>,
    pub starts: Vec<u32>,
    pub east: Vec<i32>,
    pub north: Vec<i32>,
    pub score: Vec<u32>,
    pub grid: Grid,
    pub order: Vec<u32>,
    pub nodes: Vec<u32>,
    pub entries: Vec<u32>,
    pub bits: Vec<u32>,
}

impl Owned {
    /// A table of these rows, with no index.
    pub fn of(grid: Grid, rows: &[Row]) -> Owned {
        let ends = rows.iter().scan(0, |end, (name, _, _)| {
            *end += name.len() as u32;
            Some(*end)
        });
        Owned {
            text: rows.iter().flat_map(|(name, _, _)| name.clone()).collect::<Box<[u8]>>().into(),
            starts: std::iter::once(0).chain(ends).collect::<Box<[u32]>>().into(),
            east: rows.iter().map(|(_, place, _)| place.east).collect(),
            north: rows.iter().map(|(_, place, _)| place.north).collect(),
            score: rows.iter().map(|(_, _, score)| *score).collect(),
            grid,
            order: Vec::new(),
            nodes: Vec::new(),
            entries: Vec::new(),
            bits: Vec::new(),
        }
    }

    pub fn lent(&self) -> Set<'_> {
        Set {
            text: &self.text,
            starts: &self.starts,
            east: &self.east,
            north: &self.north,
            score: &self.score,
            grid: self.grid,
            order: &self.order,
            nodes: &self.nodes,
            entries: &self.entries,
            bits: &self.bits,
        }
    }

    /// The words of its index: order, nodes, entries, bits.
    pub fn index(&self) -> [Vec<u32>; 4] {
        [&self.order, &self.nodes, &self.entries, &self.bits].map(Clone::clone)
    }

    pub fn name(&self, stand: usize) -> &[u8] {
        &self.text[self.starts[stand] as usize..self.starts[stand + 1] as usize]
    }

    /// Its index, written by this way of building into as much room as any table of so many stands needs, and nothing behind it.
    pub fn index_by(&mut self, build: impl Fn(&Set, &mut [u32], &mut [u32], &mut [u32], &mut [u32]) -> Built) {
        let mut rooms = most_words(self.score.len()).map(|words| vec![0; words]);
        let [order, nodes, entries, bits] = &mut rooms;
        let built = build(&self.lent(), order, nodes, entries, bits);
        assert_eq!(built.refusal, 0, "a table that can be indexed");
        let [_, nodes, entries, bits] = &mut rooms;
        for (room, words) in [(nodes, 8 * built.nodes), (entries, 4 * built.entries), (bits, 2 * built.bits)] {
            room.truncate(words as usize);
            room.shrink_to_fit();
        }
        [self.order, self.nodes, self.entries, self.bits] = rooms;
    }
}
