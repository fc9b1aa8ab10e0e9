//! The region of a place at both ends of every strip: the first and the last metre of each column and row, the metres before and behind
//! the grid, and the ends of what 32 bits hold, on grids within their limits, at them and past them.

use crate::finder;
use crate::records::{Grid, Place};
use crate::scan;
use crate::Counts;

const EDGES: [i32; 8] = [i32::MIN, -1_000_001, -1_000_000, -1, 0, 1_000_000, 1_000_001, i32::MAX];
const CELLS: [u32; 12] = [0, 1, 2, 3, 400, 8_191, 8_192, 8_193, 1 << 28, 1 << 29, 1 << 31, u32::MAX];

fn grids() -> impl Iterator<Item = Grid> {
    let edges = EDGES.into_iter().flat_map(|west| EDGES.map(|south| (west, south)));
    edges.flat_map(|(west, south)| CELLS.map(|cell| Grid { west, south, cell }))
}

/// Where a strip begins and where the one before it ends, as far as 32 bits hold it, and the ends of these.
fn ends(edge: i32, cell: u32) -> Vec<i32> {
    let begins = (0..=8).map(|strip| i64::from(edge) + strip * i64::from(cell));
    let metres = begins.flat_map(|begin| [begin - 1, begin]).chain([i32::MIN, i32::MAX].map(i64::from));
    metres.filter_map(|metre| i32::try_from(metre).ok()).collect()
}

pub fn compare_region(counts: &mut Counts, grid: Grid, place: Place) {
    assert_eq!(finder::region(grid, place), scan::region(grid, place), "region of {place:?} in {grid:?}");
    counts.regions += 1;
}

pub fn compare_strips(counts: &mut Counts) {
    for grid in grids() {
        let norths = ends(grid.south, grid.cell);
        let places = ends(grid.west, grid.cell).into_iter().flat_map(|east| norths.iter().map(move |&north| Place { east, north }));
        for place in places {
            compare_region(counts, grid, place);
        }
    }
}
