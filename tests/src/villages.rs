//! A table such as a scheme of many villages has, and questions that a user there puts: what the figures are counted on.
//! A program that uses this file uses only some of it.
#![allow(dead_code)]

use crate::owned::{Owned, Row};
use crate::records::{Grid, Place, Ranking, Rect};

pub const GRID: Grid = Grid { west: -1_000, south: 500, cell: 400 };
pub const QUESTIONS: usize = 64;
const SYLLABLES: [&str; 16] =
    ["ki", "bo", "ri", "to", "ma", "ku", "si", "la", "ngo", "wa", "du", "mba", "pe", "chi", "za", "le"];

/// Numbers that look random and are the same each time.
struct Dice(u64);

impl Dice {
    fn below(&mut self, n: usize) -> usize {
        self.0 = self.0.wrapping_mul(6_364_136_223_846_793_005).wrapping_add(1_442_695_040_888_963_407);
        ((self.0 >> 33) as usize) % n
    }
}

/// Sixteen stands: the village's name, mostly with a number behind it, within half a cell of its middle.
fn village(dice: &mut Dice) -> Vec<Row> {
    let side = GRID.cell as usize;
    let mut village = String::new();
    for _ in 0..2 + dice.below(2) {
        village.push_str(SYLLABLES[dice.below(SYLLABLES.len())]);
    }
    let middle = [side / 2 + dice.below(7 * side), side / 2 + dice.below(7 * side)];
    let mut stand = || {
        let name = match dice.below(4) {
            0 => village.clone(),
            _ => format!("{village} {}", 1 + dice.below(30)),
        };
        let mut near = |m: usize| (m + dice.below(side) - side / 2) as i32;
        let place = Place { east: GRID.west + near(middle[0]), north: GRID.south + near(middle[1]) };
        (name.into_bytes(), place, dice.below(1_001) as u32)
    };
    (0..16).map(|_| stand()).collect()
}

/// So many stands, with no index.
pub fn table(stands: usize) -> Owned {
    let dice = &mut Dice(stands as u64);
    let mut rows = Vec::new();
    while rows.len() < stands {
        rows.extend(village(dice));
    }
    rows.truncate(stands);
    rows.sort_by(|a, b| (&a.0, a.1.east, a.1.north, a.2).cmp(&(&b.0, b.1.east, b.1.north, b.2)));
    Owned::of(GRID, &rows)
}

/// All of the grid.
pub const WHOLE: Rect = Rect {
    west: GRID.west,
    east: GRID.west + 8 * GRID.cell as i32 - 1,
    south: GRID.south,
    north: GRID.south + 8 * GRID.cell as i32 - 1,
};

/// A question: a stand whose name is asked for, a place, and a rectangle two cells wide around it. Two more rectangles of that width have
/// no stand that begins with the name's first three letters: one beside such stands, touching a cell that has some, and one far from them.
pub struct Question {
    pub stand: usize,
    pub asked: Ranking,
    pub rect: Rect,
    pub beside: Rect,
    pub far: Rect,
}

/// So many metres to each side of a place.
fn around(place: Place, metres: i32) -> Rect {
    Rect { west: place.east - metres, east: place.east + metres, south: place.north - metres, north: place.north + metres }
}

fn within(rect: Rect, place: Place) -> bool {
    rect.west <= place.east && place.east <= rect.east && rect.south <= place.north && place.north <= rect.north
}

/// All the cells that a rectangle touches, and as many beyond the grid where it goes beyond.
fn cells(rect: Rect) -> Rect {
    let side = GRID.cell as i32;
    let first = |edge: i32, x: i32| edge + (x - edge).div_euclid(side) * side;
    Rect {
        west: first(GRID.west, rect.west),
        east: first(GRID.west, rect.east) + side - 1,
        south: first(GRID.south, rect.south),
        north: first(GRID.south, rect.north) + side - 1,
    }
}

/// A rectangle two cells wide, around some place of the grid, that passes a test.
fn rect_where(dice: &mut Dice, test: impl Fn(Rect) -> bool) -> Rect {
    let side = GRID.cell as usize;
    let mut tried = (0..1_000).map(|_| {
        let place = Place { east: GRID.west + dice.below(8 * side) as i32, north: GRID.south + dice.below(8 * side) as i32 };
        around(place, side as i32)
    });
    tried.find(|&rect| test(rect)).expect("a rectangle that passes")
}

/// The rectangles of a question that have no stand like this one.
fn empty(dice: &mut Dice, t: &Owned, stand: usize) -> [Rect; 2] {
    let letters = &t.name(stand)[..3];
    let alike: Vec<Place> = (0..t.score.len())
        .filter(|&i| t.name(i).starts_with(letters))
        .map(|i| Place { east: t.east[i], north: t.north[i] })
        .collect();
    let has = |rect: Rect| alike.iter().any(|&place| within(rect, place));
    [rect_where(dice, |rect| !has(rect) && has(cells(rect))), rect_where(dice, |rect| !has(cells(rect)))]
}

pub fn questions(t: &Owned) -> Vec<Question> {
    let dice = &mut Dice(7);
    let others = &mut Dice(8);
    let side = GRID.cell as i32;
    (0..QUESTIONS)
        .map(|_| {
            let stand = dice.below(t.score.len());
            let mut near = |x: i32, edge: i32| (x + dice.below(2 * side as usize) as i32 - side).clamp(edge, edge + 8 * side - 1);
            let place = Place { east: near(t.east[stand], GRID.west), north: near(t.north[stand], GRID.south) };
            let [beside, far] = empty(others, t, stand);
            Question { stand, asked: Ranking { place, weight: 8, k: 5 }, rect: around(place, side), beside, far }
        })
        .collect()
}
