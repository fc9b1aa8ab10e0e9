//! A second finder, written from docs/RULES.md alone: it looks at every stand, and builds no index to search by.
//! It says what the library must answer, on any input for building and checking, on a lawful set for the questions and keystrokes.
//! A program that uses this file uses only some of it.
#![allow(dead_code)]

use crate::records::{AnyFound, Built, Checked, Grid, Located, Part, Place, Ranking, Rect, Session, Set};
use std::collections::BTreeSet;

const SIDE: i64 = 8;

// ---- the table

fn allowed(byte: u8) -> bool {
    byte.is_ascii_lowercase() || byte.is_ascii_digit() || byte == b' '
}

/// A typed text as it is read: capitals as small letters.
pub fn folded(text: &[u8]) -> Vec<u8> {
    text.to_ascii_lowercase()
}

/// Where a stand's name lies in the text: between its two starts, if they rise and stay in the text.
fn span(text: &[u8], starts: &[u32], stand: usize) -> std::ops::Range<usize> {
    match (starts.get(stand), starts.get(stand + 1)) {
        (Some(&from), Some(&past)) if from <= past && past as usize <= text.len() => from as usize..past as usize,
        _ => 0..0,
    }
}

pub fn name<'a>(set: &Set<'a>, stand: usize) -> &'a [u8] {
    &set.text[span(set.text, set.starts, stand)]
}

pub fn rest(text: &[u8], starts: &[u32], stand: u32, typed: &[u8]) -> Part {
    let span = span(text, starts, stand as usize);
    match text[span.clone()].strip_prefix(folded(typed).as_slice()) {
        Some(left) => Part { start: (span.start + typed.len()) as u32, length: left.len() as u32 },
        None => Part { start: 0, length: 0 },
    }
}

fn grid_lawful(grid: Grid) -> bool {
    let edge = |e: i32| (-1_000_000..=1_000_000).contains(&e);
    edge(grid.west) && edge(grid.south) && 1 <= grid.cell && grid.cell <= 8_192
}

fn strip(edge: i32, cell: u32, x: i32) -> i64 {
    (i64::from(x) - i64::from(edge)).div_euclid(i64::from(cell))
}

fn in_grid(grid: Grid, place: Place) -> bool {
    let inside = |edge: i32, x: i32| {
        let metres = i64::from(x) - i64::from(edge);
        0 <= metres && metres < SIDE * i64::from(grid.cell)
    };
    inside(grid.west, place.east) && inside(grid.south, place.north)
}

fn region_of(grid: Grid, place: Place) -> i64 {
    strip(grid.south, grid.cell, place.north) * SIDE + strip(grid.west, grid.cell, place.east)
}

pub fn region(grid: Grid, place: Place) -> Located {
    if !grid_lawful(grid) {
        return Located { refusal: 2, region: 0 };
    }
    if !in_grid(grid, place) {
        return Located { refusal: 12, region: 0 };
    }
    Located { refusal: 0, region: region_of(grid, place) as u32 }
}

pub fn place(set: &Set, stand: usize) -> Place {
    Place { east: set.east[stand], north: set.north[stand] }
}

fn shape_lawful(set: &Set) -> bool {
    let stands = set.score.len();
    let lengths = set.east.len() == stands && set.north.len() == stands && set.starts.len() == stands + 1;
    stands <= 1_024
        && lengths
        && set.starts[0] == 0
        && (0..stands).all(|i| set.starts[i] <= set.starts[i + 1])
        && set.starts[stands] as usize == set.text.len()
}

/// The first of refusals 1 to 5 that holds, or 0.
pub fn table_refusal(set: &Set) -> u32 {
    if !shape_lawful(set) {
        return 1;
    }
    if !grid_lawful(set.grid) {
        return 2;
    }
    let names: Vec<&[u8]> = (0..set.score.len()).map(|i| name(set, i)).collect();
    if !names.iter().all(|n| 1 <= n.len() && n.len() <= 24 && n.iter().all(|&b| allowed(b))) {
        return 3;
    }
    if !names.windows(2).all(|w| w[0] <= w[1]) {
        return 4;
    }
    if !(0..names.len()).all(|i| in_grid(set.grid, place(set, i)) && set.score[i] <= 1_000) {
        return 5;
    }
    0
}

// ---- the index

/// The words of an index.
#[derive(Clone, Debug, Default, PartialEq)]
pub struct Index {
    pub order: Vec<u32>,
    pub nodes: Vec<u32>,
    pub entries: Vec<u32>,
    pub bits: Vec<u32>,
}

impl Index {
    /// Its parts in the order in which they are lent.
    pub fn parts(&self) -> [&[u32]; 4] {
        [&self.order, &self.nodes, &self.entries, &self.bits]
    }
}

/// The stands whose name begins with the text, by number.
fn under(set: &Set, text: &[u8]) -> Vec<usize> {
    (0..set.score.len()).filter(|&i| name(set, i).starts_with(text)).collect()
}

/// The distinct beginnings of names. In byte order a beginning comes before what begins with it: that is pre-order.
fn beginnings(set: &Set) -> Vec<Vec<u8>> {
    let mut all = BTreeSet::new();
    all.insert(Vec::new());
    for stand in 0..set.score.len() {
        let name = name(set, stand);
        for length in 1..=name.len() {
            all.insert(name[..length].to_vec());
        }
    }
    all.into_iter().collect()
}

/// A node's entries: region, largest score, first place in the stand order, place past the last.
fn entries(set: &Set, order: &[u32], here: &[usize]) -> Vec<[u32; 4]> {
    let mut found = Vec::new();
    for region in 0..SIDE * SIDE {
        let held: Vec<usize> = here.iter().copied().filter(|&i| region_of(set.grid, place(set, i)) == region).collect();
        if let Some(&first) = held.first() {
            let best = held.iter().map(|&i| set.score[i]).max().unwrap_or(0);
            let place = order.iter().position(|&i| i as usize == first).unwrap_or(0) as u32;
            found.push([region as u32, best, place, place + held.len() as u32]);
        }
    }
    found.sort_by_key(|e| (std::cmp::Reverse(e[1]), e[0]));
    found
}

/// Of each beginning the number of its parent, which is the beginning one byte shorter; 0 for the empty one, which has none.
fn parents(texts: &[Vec<u8>]) -> Vec<usize> {
    let parent = |text: &Vec<u8>| match text.split_last() {
        None => 0,
        Some((_, above)) => texts.partition_point(|t| t.as_slice() < above),
    };
    texts.iter().map(parent).collect()
}

/// For each region whether it holds one of these stands.
fn regions(set: &Set, here: &[usize]) -> [bool; 64] {
    let mut held = [false; 64];
    for &stand in here {
        held[region_of(set.grid, place(set, stand)) as usize] = true;
    }
    held
}

/// A bit record: regions 0 to 31, then 32 to 63.
fn record(regions: &[bool; 64]) -> [u32; 2] {
    [0, 32].map(|from| (0..32).filter(|bit| regions[from + bit]).map(|bit| 1 << bit).sum())
}

/// The bit record that serves a node: its own, which has the node's place among those that keep one, or else its parent's.
fn serving(keepers: &[usize], parents: &[usize], node: usize) -> usize {
    keepers.binary_search(&node).unwrap_or_else(|_| serving(keepers, parents, parents[node]))
}

/// The index of a table that refusals 1 to 5 let pass.
pub fn index(set: &Set) -> Index {
    let mut stands: Vec<u32> = (0..set.score.len() as u32).collect();
    stands.sort_by_key(|&i| (region_of(set.grid, place(set, i as usize)), i));
    let texts = beginnings(set);
    let parents = parents(&texts);
    let under: Vec<Vec<usize>> = texts.iter().map(|text| under(set, text)).collect();
    let held: Vec<[bool; 64]> = under.iter().map(|here| regions(set, here)).collect();
    let keepers: Vec<usize> = (0..texts.len()).filter(|&node| node == 0 || held[node] != held[parents[node]]).collect();
    let bits = keepers.iter().flat_map(|&node| record(&held[node])).collect();
    let mut index = Index { order: stands, bits, ..Index::default() };
    for (number, text) in texts.iter().enumerate() {
        let here = &under[number];
        let own = entries(set, &index.order, here);
        let past = number + texts[number..].iter().take_while(|t| t.starts_with(text)).count();
        let first = here.first().copied().unwrap_or(0);
        index.nodes.extend([
            parents[number] as u32,
            text.last().map_or(0, |&b| u32::from(b)),
            first as u32,
            (first + here.len()) as u32,
            past as u32,
            serving(&keepers, &parents, number) as u32,
            u32::from(keepers.binary_search(&number).is_err()),
            index.entries.len() as u32 / 4,
        ]);
        index.entries.extend(own.concat());
    }
    index
}

/// What building into buffers of these lengths answers, and what it writes at their start.
pub fn build(set: &Set, rooms: [usize; 4]) -> (Built, Index) {
    let refused = |refusal| (Built { refusal, nodes: 0, entries: 0, bits: 0 }, Index::default());
    let refusal = table_refusal(set);
    if refusal != 0 {
        return refused(refusal);
    }
    let index = index(set);
    if index.parts().iter().zip(rooms).any(|(part, room)| room < part.len()) {
        return refused(6);
    }
    let rows = |words: &[u32], width: usize| (words.len() / width) as u32;
    (Built { refusal: 0, nodes: rows(&index.nodes, 8), entries: rows(&index.entries, 4), bits: rows(&index.bits, 2) }, index)
}

pub fn check(set: &Set) -> Checked {
    let (built, index) = build(set, [usize::MAX; 4]);
    let lent = [set.order, set.nodes, set.entries, set.bits];
    let same = lent.iter().zip(index.parts()).all(|(lent, part)| lent.starts_with(part));
    if built.refusal == 0 && same {
        Checked { lawful: 1, nodes: built.nodes, entries: built.entries, bits: built.bits }
    } else {
        Checked { lawful: 0, nodes: 0, entries: 0, bits: 0 }
    }
}

// ---- the questions

/// The first of refusals 9 and 8 that a text meets, or 0.
pub fn text_refusal(text: &[u8]) -> u32 {
    if 24 < text.len() {
        9
    } else if !folded(text).into_iter().all(allowed) {
        8
    } else {
        0
    }
}

/// The first of refusals 9, 8 and 11, or 0: those of both questions about a rectangle.
pub fn range_refusal(text: &[u8], rect: Rect) -> u32 {
    match text_refusal(text) {
        0 if rect.east < rect.west || rect.north < rect.south => 11,
        refusal => refusal,
    }
}

/// The first of refusals 9, 8 and 12, or 0.
pub fn ranked_refusal(grid: Grid, text: &[u8], asked: Ranking) -> u32 {
    let lawful = in_grid(grid, asked.place) && asked.weight <= 16 && (1..=16).contains(&asked.k);
    match text_refusal(text) {
        0 if !lawful => 12,
        refusal => refusal,
    }
}

/// The stands that a range question finds, by region and then by number.
pub fn range(set: &Set, text: &[u8], rect: Rect) -> Vec<u32> {
    let inside = |p: Place| rect.west <= p.east && p.east <= rect.east && rect.south <= p.north && p.north <= rect.north;
    let mut found: Vec<usize> = under(set, &folded(text)).into_iter().filter(|&i| inside(place(set, i))).collect();
    found.sort_by_key(|&i| (region_of(set.grid, place(set, i)), i));
    found.into_iter().map(|i| i as u32).collect()
}

/// Whether a range question finds any, and the first of its list.
pub fn any(set: &Set, text: &[u8], rect: Rect) -> AnyFound {
    match range(set, text, rect).first() {
        Some(&stand) => AnyFound { refusal: 0, yes: 1, stand },
        None => AnyFound { refusal: 0, yes: 0, stand: 0 },
    }
}

/// Whether a rectangle has a metre of the cell that a place is in.
fn touches(grid: Grid, rect: Rect, place: Place) -> bool {
    let meets = |edge: i32, x: i32, low: i32, high: i32| {
        let first = i64::from(edge) + strip(edge, grid.cell, x) * i64::from(grid.cell);
        i64::from(low) < first + i64::from(grid.cell) && first <= i64::from(high)
    };
    meets(grid.west, place.east, rect.west, rect.east) && meets(grid.south, place.north, rect.south, rect.north)
}

/// Whether a cell that the rectangle touches has a stand whose name begins with the text; the stand can be outside the rectangle.
pub fn touched(set: &Set, text: &[u8], rect: Rect) -> bool {
    under(set, &folded(text)).into_iter().any(|i| touches(set.grid, rect, place(set, i)))
}

/// The largest whole number whose square is at most n: of two that it lies between, the middle takes the place of one.
pub fn root(n: i64) -> i64 {
    let (mut low, mut past) = (0, 1 << 31);
    while low + 1 < past {
        let middle = (low + past) / 2;
        if middle * middle <= n {
            low = middle;
        } else {
            past = middle;
        }
    }
    low
}

pub fn squared_distance(a: Place, b: Place) -> i64 {
    let square = |a: i32, b: i32| (i64::from(a) - i64::from(b)).pow(2);
    square(a.east, b.east) + square(a.north, b.north)
}

/// What a stand of this score is worth at a place of the grid.
pub fn worth(grid: Grid, asked: Ranking, here: Place, score: u32) -> u64 {
    let cell = i64::from(grid.cell);
    let diagonal = root(128 * cell * cell);
    let weight = i64::from(asked.weight);
    let distance = root(squared_distance(here, asked.place));
    let worth = weight * i64::from(score) * diagonal + (16 - weight) * (diagonal - distance) * 1_000;
    u64::try_from(worth).expect("a stand of the grid has a value")
}

pub fn value(set: &Set, asked: Ranking, stand: usize) -> u64 {
    worth(set.grid, asked, place(set, stand), set.score[stand])
}

/// The stands that a ranked question finds, best first, each with its value.
pub fn ranked(set: &Set, text: &[u8], asked: Ranking) -> Vec<(u32, u64)> {
    let mut all: Vec<(u32, u64)> = under(set, &folded(text)).into_iter().map(|i| (i as u32, value(set, asked, i))).collect();
    all.sort_by_key(|&(stand, value)| (std::cmp::Reverse(value), stand));
    all.truncate(asked.k as usize);
    all
}

// ---- the session

/// Sessions over a table, by the beginnings of its names.
pub struct Typist {
    beginnings: Vec<Vec<u8>>,
}

impl Typist {
    pub fn new(set: &Set) -> Typist {
        Typist { beginnings: beginnings(set) }
    }

    pub fn beginnings(&self) -> &[Vec<u8>] {
        &self.beginnings
    }

    /// The session of some letters.
    pub fn session(&self, letters: &[u8]) -> Session {
        let mut session = Session { text: [0; 24], len: letters.len() as u32, path: [0; 25] };
        session.text[..letters.len()].copy_from_slice(letters);
        for (length, place) in session.path.iter_mut().enumerate().take(letters.len() + 1) {
            let at = self.beginnings.binary_search_by(|t| t.as_slice().cmp(&letters[..length]));
            *place = at.unwrap_or(0) as u32;
        }
        session
    }

    pub fn lawful(&self, session: Session) -> bool {
        let Some(letters) = session.text.get(..session.len as usize) else {
            return false;
        };
        letters.iter().all(|&b| allowed(b)) && session == self.session(letters)
    }
}

/// What typing a byte behind some letters is refused with, or 0.
pub fn type_refusal(letters: &[u8], byte: u8) -> u32 {
    if letters.len() == 24 {
        9
    } else if !allowed(byte.to_ascii_lowercase()) {
        8
    } else {
        0
    }
}
