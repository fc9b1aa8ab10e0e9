//! Tables made to be bad, each for something that a call goes through: stands under one node, entries, siblings, nodes, ties, stands that
//! lie just outside a rectangle.

use crate::owned::{Owned, Row};
use crate::port;
use crate::records::{Grid, Place};

/// The largest that there is, so that the stands of a cell can lie close together beside its width.
const GRID: Grid = Grid { west: -1_000_000, south: 1_000_000, cell: 8_192 };
const MOST: usize = 1_024;
const LONGEST: usize = 24;
const REGIONS: usize = 64;
/// The allowed bytes in order.
const LETTERS: &[u8; 37] = b" 0123456789abcdefghijklmnopqrstuvwxyz";

/// Some letters, and z behind them to the full length.
fn long(letters: &[u8]) -> Vec<u8> {
    let mut name = letters.to_vec();
    name.resize(LONGEST, b'z');
    name
}

/// So many metres from the south-west corner of a region.
fn place(region: usize, east: usize, north: usize) -> Place {
    let cell = GRID.cell as usize;
    Place { east: GRID.west + (region % 8 * cell + east) as i32, north: GRID.south + (region / 8 * cell + north) as i32 }
}

/// Far cells first, by their scores, and near stands last: asked by nearness from the south-west, each stand is better than all before it.
/// Of cells that are equally far the later has its stands nearer to its corner.
fn equal() -> Vec<Row> {
    let far = |region: &usize| (region % 8).pow(2) + (region / 8).pow(2);
    let mut regions: Vec<usize> = (0..REGIONS).collect();
    regions.sort_by_key(|region| std::cmp::Reverse(far(region)));
    let metre = |i: usize| {
        let later = regions[i / 16 + 1..].iter().filter(|region| far(region) == far(&regions[i / 16])).count();
        16 * later + 15 - i % 16
    };
    (0..MOST).map(|i| (long(b""), place(regions[i / 16], metre(i), metre(i)), 1_000 - i as u32 / 16)).collect()
}

fn share_23() -> Vec<Row> {
    let mut name = long(b"");
    (0..MOST)
        .map(|i| {
            name[LONGEST - 1] = LETTERS[i * LETTERS.len() / MOST];
            (name.clone(), place(i % REGIONS, i / REGIONS, 0), 15 * (i % REGIONS) as u32)
        })
        .collect()
}

fn one_cell() -> Vec<Row> {
    let mut metres: Vec<(usize, usize)> = (0..MOST).map(|i| (12 * (i % 32), 12 * (i / 32))).collect();
    metres.sort_by_key(|(east, north)| std::cmp::Reverse(east.pow(2) + north.pow(2)));
    metres.iter().enumerate().map(|(i, &(east, north))| (long(b""), place(0, east, north), i as u32 * 1_000 / 1_023)).collect()
}

/// Each of sixteen names once in each cell, so that each of 24 nodes has all 64 entries to sort, by this score of a region.
fn each_cell(score: impl Fn(usize) -> usize) -> Vec<Row> {
    (0..MOST).map(|i| (long(&[LETTERS[20 + i / REGIONS]]), place(i % REGIONS, 0, 0), score(i % REGIONS) as u32)).collect()
}

fn each_cell_rising() -> Vec<Row> {
    each_cell(|region| 15 * region)
}

fn each_cell_falling() -> Vec<Row> {
    each_cell(|region| 15 * (63 - region))
}

/// All values equal where only scores count, and each entry's first stand a smaller number than all before it.
fn ties() -> Vec<Row> {
    (0..MOST).map(|i| (long(b""), place(63 - i / 16, 200, 200), 500)).collect()
}

/// Along the northernmost metre: a rectangle of all the rest touches the cells of every stand and has none, as the last test of its four
/// edges tells.
fn north_rim() -> Vec<Row> {
    let north = GRID.cell as usize - 1;
    (0..MOST).map(|i| (long(b""), place(56 + i / 128, 1 + i % 128, north), i as u32 % 1_001)).collect()
}

/// At each of 24 letters all 36 others stand before the z that leads on.
fn siblings() -> Vec<Row> {
    let mut names: Vec<Vec<u8>> = (0..LONGEST * 36).map(|i| [&long(b"")[..i / 36], &[LETTERS[i % 36]]].concat()).collect();
    names.resize(MOST, long(b""));
    names.sort();
    names.into_iter().enumerate().map(|(i, name)| (name, place(i % REGIONS, i / REGIONS, 0), i as u32 % 1_001)).collect()
}

/// About the most nodes that 1,024 names have: they part at the second letter.
fn apart() -> Vec<Row> {
    (0..MOST).map(|i| (long(&[LETTERS[i / 32], LETTERS[i % 32]]), place(i % REGIONS, i / REGIONS, 0), i as u32 % 1_001)).collect()
}

/// A table's word, what it is, and its rows.
pub const TABLES: [(&str, &str, fn() -> Vec<Row>); 9] = [
    ("equal", "equal names of 24 bytes, 16 in each cell, the nearer the later", equal),
    ("share-23", "names of 24 bytes that share 23", share_23),
    ("one-cell", "equal names of 24 bytes in one cell, the nearer the later", one_cell),
    ("each-cell-rising", "16 names of 24 bytes, each in each cell, scores rising with the region", each_cell_rising),
    ("each-cell-falling", "16 names of 24 bytes, each in each cell, scores falling with the region", each_cell_falling),
    ("ties", "equal names and scores, 16 at one place in each cell", ties),
    ("north-rim", "equal names of 24 bytes along the northernmost metre", north_rim),
    ("siblings", "at each of 24 letters all 37 allowed bytes", siblings),
    ("apart", "names of 24 bytes that part at the second", apart),
];

/// The set of one of the tables.
pub fn set(word: &str) -> Option<Owned> {
    let (_, _, rows) = TABLES.iter().find(|(w, _, _)| *w == word)?;
    let mut set = Owned::of(GRID, &rows());
    set.index_by(port::build);
    Some(set)
}

/// A set that no building writes: one node after the other is the root's child, as many as a lawful set can have, and the last one,
/// z, has 64 entries of all stands each. One bit record, of all regions, serves every node.
pub fn unlawful() -> Owned {
    let mut set = set("one-cell").expect("a table");
    let last = 24 * MOST;
    set.nodes = (0..=last as u32).flat_map(|node| [0, 32, 0, MOST as u32, node + 1, 0, 1, 0]).collect();
    set.nodes[4] = last as u32 + 1;
    set.nodes[8 * last + 1] = u32::from(b'z');
    set.entries = (0..REGIONS as u32).flat_map(|region| [region, 1_000, 0, MOST as u32]).collect();
    set.bits = vec![u32::MAX; 2];
    set
}
