//! The questions answered with no index, by going over every stand: what the figures hold the finder against.

use crate::records::{AnyFound, Found, Ranking, Rect, Set};

fn name<'a>(set: &Set<'a>, i: usize) -> &'a [u8] {
    &set.text[set.starts[i] as usize..set.starts[i + 1] as usize]
}

/// Whether any stand's name begins with the text: what a keystroke finds out.
#[inline(never)]
pub fn leads_on(set: &Set, typed: &[u8]) -> bool {
    (0..set.score.len()).any(|i| name(set, i).starts_with(typed))
}

fn in_rect(set: &Set, i: usize, rect: Rect) -> bool {
    let (east, north) = (set.east[i], set.north[i]);
    rect.west <= east && east <= rect.east && rect.south <= north && north <= rect.north
}

fn region(set: &Set, i: usize) -> i64 {
    let strip = |edge: i32, x: i32| (i64::from(x) - i64::from(edge)) / i64::from(set.grid.cell);
    strip(set.grid.south, set.north[i]) * 8 + strip(set.grid.west, set.east[i])
}

/// The stands that pass a test, by region. They come by number, so those of a region stay by number.
fn listed(set: &Set, found: &mut [u32], wanted: impl Fn(usize) -> bool) -> Found {
    let mut count = 0;
    for i in 0..set.score.len() {
        if wanted(i) {
            if let Some(place) = found.get_mut(count) {
                *place = i as u32;
            }
            count += 1;
        }
    }
    if found.len() < count {
        return Found { refusal: 13, count: count as u32 };
    }
    found[..count].sort_by_key(|&stand| region(set, stand as usize));
    Found { refusal: 0, count: count as u32 }
}

#[inline(never)]
pub fn range(set: &Set, typed: &[u8], rect: Rect, found: &mut [u32]) -> Found {
    listed(set, found, |i| name(set, i).starts_with(typed) && in_rect(set, i, rect))
}

/// The rectangle is tested first, which is four comparisons.
#[inline(never)]
pub fn range_near(set: &Set, typed: &[u8], rect: Rect, found: &mut [u32]) -> Found {
    listed(set, found, |i| in_rect(set, i, rect) && name(set, i).starts_with(typed))
}

/// Every stand is gone over, since a later one can be of a smaller region; of a region the first stays.
#[inline(never)]
pub fn any(set: &Set, typed: &[u8], rect: Rect) -> AnyFound {
    let there = (0..set.score.len()).filter(|&i| name(set, i).starts_with(typed) && in_rect(set, i, rect));
    match there.min_by_key(|&i| region(set, i)) {
        Some(i) => AnyFound { refusal: 0, yes: 1, stand: i as u32 },
        None => AnyFound { refusal: 0, yes: 0, stand: 0 },
    }
}

/// Equal values keep the smaller number first, since stands come by number.
#[inline(never)]
pub fn ranked(set: &Set, typed: &[u8], asked: Ranking, found: &mut [u32], values: &mut [u64]) -> Found {
    let k = asked.k as usize;
    let cell = u64::from(set.grid.cell);
    let diagonal = (128 * cell * cell).isqrt();
    let mut held = 0;
    for i in 0..set.score.len() {
        if !name(set, i).starts_with(typed) {
            continue;
        }
        let across = u64::from(set.east[i].abs_diff(asked.place.east));
        let along = u64::from(set.north[i].abs_diff(asked.place.north));
        let near = diagonal - (across * across + along * along).isqrt();
        let value = u64::from(asked.weight) * u64::from(set.score[i]) * diagonal + u64::from(16 - asked.weight) * near * 1_000;
        if held == k && value <= values[k - 1] {
            continue;
        }
        held = (held + 1).min(k);
        let mut at = held - 1;
        while 0 < at && values[at - 1] < value {
            values[at] = values[at - 1];
            found[at] = found[at - 1];
            at -= 1;
        }
        values[at] = value;
        found[at] = i as u32;
    }
    Found { refusal: 0, count: held as u32 }
}
