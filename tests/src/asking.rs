//! Random questions: a text, a rectangle, what a ranked question asks.

use crate::dice::Dice;
use crate::records::{Place, Ranking, Rect, Set};
use crate::tables::{metre, ALLOWED};

/// A text to ask for: mostly the beginning of a name, now and then with another letter, too long, or with a byte that is not allowed;
/// and some of its letters as capitals.
pub fn text(dice: &mut Dice, set: &Set) -> Vec<u8> {
    let mut text = Vec::new();
    if !set.score.is_empty() && !dice.once_in(8) {
        let name = crate::scan::name(set, dice.below(set.score.len()));
        text.extend(&name[..dice.below(name.len() + 1)]);
    }
    match dice.below(16) {
        0 => text.push(dice.one_of(ALLOWED)),
        1 => text.push(dice.one_of(b"@[_\0\xff{`/:")),
        2 => text.resize(24 + dice.below(3), b'a'),
        _ => {}
    }
    if dice.once_in(3) {
        text.iter_mut().filter(|_| dice.once_in(2)).for_each(u8::make_ascii_uppercase);
    }
    text
}

/// An edge anywhere, or at or beside a stand or a cell.
fn edge(dice: &mut Dice, stands: &[i32], origin: i32, cell: u32) -> i32 {
    match dice.below(6) {
        0 => dice.word() as i32,
        1 => dice.one_of(&[i32::MIN, i32::MAX]),
        2 => origin.wrapping_add((dice.below(10) as i32 - 1).wrapping_mul(cell as i32)).wrapping_sub(dice.below(2) as i32),
        _ if stands.is_empty() => origin,
        _ => stands[dice.below(stands.len())].wrapping_add(dice.below(3) as i32 - 1),
    }
}

pub fn rect(dice: &mut Dice, set: &Set) -> Rect {
    let (a, b) = (edge(dice, set.east, set.grid.west, set.grid.cell), edge(dice, set.east, set.grid.west, set.grid.cell));
    let (c, d) = (edge(dice, set.north, set.grid.south, set.grid.cell), edge(dice, set.north, set.grid.south, set.grid.cell));
    if dice.once_in(16) {
        return Rect { west: a, east: b, south: c, north: d };
    }
    Rect { west: a.min(b), east: a.max(b), south: c.min(d), north: c.max(d) }
}

/// At a stand or anywhere, now and then outside the grid.
pub fn ranking(dice: &mut Dice, set: &Set) -> Ranking {
    let cell = set.grid.cell.clamp(1, 8_192);
    let mut place = match set.east.len().min(set.north.len()) {
        stands if 0 < stands && dice.once_in(2) => crate::scan::place(set, dice.below(stands)),
        _ => Place { east: metre(dice, set.grid.west, cell), north: metre(dice, set.grid.south, cell) },
    };
    if dice.once_in(12) {
        place.east = edge(dice, set.east, set.grid.west, cell);
    }
    if dice.once_in(12) {
        place.north = edge(dice, set.north, set.grid.south, cell);
    }
    let weight = if dice.once_in(16) { 17 } else { dice.below(17) as u32 };
    let k = if dice.once_in(16) { dice.one_of(&[0, 17, u32::MAX]) } else { 1 + dice.below(16) as u32 };
    Ranking { place, weight, k }
}
