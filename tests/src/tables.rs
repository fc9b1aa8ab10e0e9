//! Random lawful tables for the comparison.

use crate::dice::Dice;
use crate::owned::{Owned, Row};
use crate::records::{Grid, Place};
use crate::scan;

pub const ALLOWED: &[u8] = b"abcdefghijklmnopqrstuvwxyz0123456789 ";

fn grid(dice: &mut Dice) -> Grid {
    let mut edge = || match dice.below(4) {
        0 => 1_000_000,
        1 => -1_000_000,
        2 => 0,
        _ => dice.below(2_000_001) as i32 - 1_000_000,
    };
    let (west, south) = (edge(), edge());
    let cell = match dice.below(4) {
        0 => 1,
        1 => 8_192,
        2 => 1 + dice.below(20) as u32,
        _ => 1 + dice.below(8_192) as u32,
    };
    Grid { west, south, cell }
}

/// A metre of the grid, often the first or last of a cell.
pub fn metre(dice: &mut Dice, edge: i32, cell: u32) -> i32 {
    let into = match dice.below(3) {
        0 => 0,
        1 => cell as usize - 1,
        _ => dice.below(cell as usize),
    };
    edge + (dice.below(8) * cell as usize + into) as i32
}

fn letters(dice: &mut Dice, alphabet: &[u8], length: usize) -> Vec<u8> {
    (0..length).map(|_| dice.one_of(alphabet)).collect()
}

/// Names in order: of few letters, sharing beginnings, equal, as long as they may be, or each one letter longer than the one before.
fn names(dice: &mut Dice, stands: usize) -> Vec<Vec<u8>> {
    let alphabet: &[u8] = if dice.once_in(2) { b" 09az" } else { ALLOWED };
    let villages: Vec<Vec<u8>> = (0..1 + dice.below(12))
        .map(|_| {
            let length = 1 + dice.below(20);
            letters(dice, alphabet, length)
        })
        .collect();
    let style = dice.below(5);
    let mut names: Vec<Vec<u8>> = (0..stands)
        .map(|i| match style {
            0 => {
                let length = 1 + dice.below(4);
                letters(dice, b"ab", length)
            }
            1 => vec![b'a'; 1 + i % 24],
            2 => letters(dice, alphabet, 24),
            _ => {
                let mut name = villages[dice.below(villages.len())].clone();
                let length = dice.below(25 - name.len());
                if !dice.once_in(3) {
                    name.extend(letters(dice, alphabet, length));
                }
                name
            }
        })
        .collect();
    names.sort();
    names
}

fn anywhere(dice: &mut Dice, grid: Grid) -> Place {
    Place { east: metre(dice, grid.west, grid.cell), north: metre(dice, grid.south, grid.cell) }
}

/// A place whose distance from another, rounded down, is this radius, with squares that differ; that place itself where it leaves the grid.
fn on_ring(dice: &mut Dice, grid: Grid, middle: Place, radius: i64) -> Place {
    let across = dice.below(radius as usize + 1) as i64;
    let left = radius * radius - across * across;
    let least = scan::root(left) + i64::from(scan::root(left).pow(2) < left);
    let most = scan::root((radius + 1).pow(2) - 1 - across * across);
    let along = least + dice.below((most - least) as usize + 1) as i64;
    let mut to = |metre: i32, edge: i32, way: i64| {
        let inside = |x: &i64| (0..8 * i64::from(grid.cell)).contains(&(x - i64::from(edge)));
        let way = if dice.once_in(2) { way } else { -way };
        [way, -way].map(|way| i64::from(metre) + way).into_iter().find(inside).map(|x| x as i32)
    };
    match (to(middle.east, grid.west, across), to(middle.north, grid.south, along)) {
        (Some(east), Some(north)) => Place { east, north },
        _ => middle,
    }
}

/// A lawful table over a lawful grid, with no index. Its stands lie anywhere, mostly at one place, or mostly on a ring around it with scores
/// that hardly differ.
pub fn table(dice: &mut Dice, stands: usize) -> Owned {
    let grid = grid(dice);
    let names = names(dice, stands);
    let style = dice.below(4);
    let near = anywhere(dice, grid);
    let radius = 1 + dice.below(3 * grid.cell as usize) as i64;
    let scores = if style == 1 { &[500, 500, 500, 501][..] } else { &[0, 1, 500, 1_000][..] };
    let few = style == 1 || dice.once_in(2);
    let mut row = |name: Vec<u8>| {
        let place = match style {
            0 if !dice.once_in(4) => near,
            1 if !dice.once_in(4) => on_ring(dice, grid, near, radius),
            1 => near,
            _ => anywhere(dice, grid),
        };
        let score = if few { dice.one_of(scores) } else { dice.below(1_001) as u32 };
        (name, place, score)
    };
    let rows: Vec<Row> = names.into_iter().map(&mut row).collect();
    Owned::of(grid, &rows)
}
