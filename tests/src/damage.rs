//! Damage: a set with words flipped or parts cut. A part that is cut ends where its memory ends, so that a read past it can be seen.

use crate::dice::Dice;
use crate::owned::Owned;
use crate::records::Set;

/// The numbers at which a test of a word can turn: how many there are of each thing, the limits, and one to either side of each.
pub fn boundaries(set: &Set) -> Vec<u32> {
    let rows = [set.nodes.len() / 8, set.entries.len() / 4, set.bits.len() / 2];
    let counts = rows.into_iter().chain([set.order.len(), set.score.len(), set.text.len()]);
    let limits = [0, 24, 25, 64, 1_000, 1_024];
    let beside = |n: usize| [(n as u32).wrapping_sub(1), n as u32, n as u32 + 1];
    let mut all: Vec<u32> = counts.chain(limits).flat_map(beside).collect();
    all.sort_unstable();
    all.dedup();
    all
}

/// A word that is at a boundary, near the old one, small, or anything.
fn other(dice: &mut Dice, boundaries: &[u32], old: u32) -> u32 {
    match dice.below(6) {
        0 => old.wrapping_add(1),
        1 => old.wrapping_sub(1),
        2 => dice.below(2_000) as u32,
        3 => old ^ (1 << dice.below(32)),
        4 => dice.word() as u32,
        _ => dice.one_of(boundaries),
    }
}

pub fn flip(dice: &mut Dice, boundaries: &[u32], words: &mut [u32]) {
    if !words.is_empty() {
        let at = dice.below(words.len());
        words[at] = other(dice, boundaries, words[at]);
    }
}

fn flip_metre(dice: &mut Dice, boundaries: &[u32], metre: &mut i32) {
    *metre = other(dice, boundaries, *metre as u32) as i32;
}

fn flip_metres(dice: &mut Dice, boundaries: &[u32], metres: &mut [i32]) {
    if !metres.is_empty() {
        let at = dice.below(metres.len());
        flip_metre(dice, boundaries, &mut metres[at]);
    }
}

/// Another byte of a name, or its capital.
fn flip_byte(dice: &mut Dice, text: &mut [u8]) {
    if !text.is_empty() {
        let at = dice.below(text.len());
        text[at] = if dice.once_in(2) { text[at].to_ascii_uppercase() } else { dice.word() as u8 };
    }
}

fn cut<T>(dice: &mut Dice, part: &mut Vec<T>) {
    let left = if dice.once_in(2) { part.len().saturating_sub(1 + dice.below(9)) } else { dice.below(part.len() + 1) };
    part.truncate(left);
    part.shrink_to_fit();
}

/// What a node's regions are read by: the number of its bit record, set past the bits or to another record, or its mark, turned.
fn mislead(dice: &mut Dice, set: &mut Owned) {
    let records = set.bits.len() / 2;
    let node = 8 * dice.below(set.nodes.len() / 8);
    if let Some(row) = set.nodes.get_mut(node..node + 8) {
        match dice.below(3) {
            0 => row[5] = (records + dice.below(3)) as u32,
            1 => {
                let another = row[5] as usize + 1 + dice.below(records.saturating_sub(1));
                row[5] = (another % records.max(1)) as u32;
            }
            _ => row[6] ^= 1,
        }
    }
}

/// A region taken from a bit record or put to it.
fn flip_bit(dice: &mut Dice, bits: &mut [u32]) {
    if !bits.is_empty() {
        let at = dice.below(bits.len());
        bits[at] ^= 1 << dice.below(32);
    }
}

/// One word flipped or one part cut.
pub fn damage(dice: &mut Dice, set: &mut Owned) {
    let boundaries = &boundaries(&set.lent());
    match dice.below(25) {
        0..=4 => flip(dice, boundaries, &mut set.nodes),
        5..=7 => flip(dice, boundaries, &mut set.entries),
        8 | 9 => flip(dice, boundaries, &mut set.order),
        10 => flip(dice, boundaries, &mut set.starts),
        11 => flip(dice, boundaries, &mut set.score),
        12 => flip_metres(dice, boundaries, &mut set.east),
        13 => flip_metres(dice, boundaries, &mut set.north),
        14 => cut(dice, &mut set.nodes),
        15 => cut(dice, &mut set.entries),
        16 => cut(dice, &mut set.order),
        17 => flip_byte(dice, &mut set.text),
        18 => match dice.below(3) {
            0 => flip_metre(dice, boundaries, &mut set.grid.west),
            1 => flip_metre(dice, boundaries, &mut set.grid.south),
            _ => set.grid.cell = other(dice, boundaries, set.grid.cell),
        },
        19 => flip(dice, boundaries, &mut set.bits),
        20 => flip_bit(dice, &mut set.bits),
        21 => cut(dice, &mut set.bits),
        22 | 23 => mislead(dice, set),
        _ => match dice.below(5) {
            0 => cut(dice, &mut set.text),
            1 => cut(dice, &mut set.starts),
            2 => cut(dice, &mut set.east),
            3 => cut(dice, &mut set.north),
            _ => cut(dice, &mut set.score),
        },
    }
}
