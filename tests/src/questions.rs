//! The questions, by a text or by a session's letters, held against the scan: exact on a lawful set and session, allowed on any other.

use crate::asking;
use crate::dice::Dice;
use crate::finder;
use crate::owned::Owned;
use crate::records::{AnyFound, Found, Place, Ranking, Rect, Session};
use crate::rooms::{room32, room64};
use crate::scan;
use crate::strips::compare_region;
use crate::Counts;
use std::cmp::Reverse;

pub const WORLD: Rect = Rect { west: i32::MIN, east: i32::MAX, south: i32::MIN, north: i32::MAX };

/// How a question is asked: by a text, in memory of just its length, or by the letters of a session.
pub enum By {
    Text(Box<[u8]>),
    Letters(Session),
}

impl By {
    /// The text that is asked for; a length that no session has makes it as long as the record.
    fn text(&self) -> &[u8] {
        match self {
            By::Text(text) => text,
            By::Letters(session) => &session.text[..24.min(session.len as usize)],
        }
    }
}

/// Whether an answer, its refusal first, is refused as it has to be, or 7 on what may be unlawful; its other numbers are then 0, and
/// nothing is written.
fn settled<const N: usize>(counts: &mut Counts, lawful: bool, answer: [u32; N], refusal: u32) -> bool {
    if answer[0] == 7 {
        assert!(!lawful, "7 on a lawful set and session");
        counts.noticed += 1;
    } else if refusal != 0 {
        assert_eq!(answer[0], refusal, "the refusal");
    } else {
        return false;
    }
    assert!(answer[1..].iter().all(|&number| number == 0), "a refusal's other numbers");
    true
}

fn ask_range(set: &Owned, by: &By, rect: Rect, room: &mut [u32]) -> Found {
    match by {
        By::Text(text) => finder::range(&set.lent(), text, rect, room),
        By::Letters(session) => finder::range_typed(&set.lent(), *session, rect, room),
    }
}

pub fn compare_range(dice: &mut Dice, counts: &mut Counts, set: &Owned, lawful: bool, by: &By, rect: Rect) {
    let refusal = scan::range_refusal(by.text(), rect);
    let found = if lawful && refusal == 0 { scan::range(&set.lent(), by.text(), rect) } else { Vec::new() };
    let length = if dice.once_in(2) { found.len().saturating_sub(dice.below(2)) } else { dice.below(24) };
    let mut room = room32(dice, length);
    let answer = ask_range(set, by, rect, room.lend());
    counts.ranges += 1;
    if settled(counts, lawful, [answer.refusal, answer.count], refusal) {
        return room.kept_behind(0);
    }
    if lawful {
        let count = found.len() as u32;
        let refusal = if length < found.len() { 13 } else { 0 };
        assert_eq!(answer, Found { refusal, count }, "range");
        return if refusal == 0 { room.holds(&found) } else { room.kept_behind(0) };
    }
    match answer.refusal {
        0 => {
            assert!(answer.count as usize <= length, "more found than there is room for");
            room.kept_behind(answer.count as usize);
        }
        13 => {
            assert!(length < answer.count as usize, "13 where there is room");
            room.kept_behind(0);
        }
        other => panic!("a range question refused {other}"),
    }
}

/// The region of a lawful table's stand.
fn region(set: &Owned, stand: u32) -> usize {
    scan::region(set.grid, scan::place(&set.lent(), stand as usize)).region as usize
}

/// Whether another of the stands found would be the first if regions came by their largest score under the text, as a node's entries do.
fn other_by_scores(set: &Owned, text: &[u8], found: &[u32]) -> bool {
    let mut best = [0; 64];
    for stand in scan::range(&set.lent(), text, WORLD) {
        let here = &mut best[region(set, stand)];
        *here = set.score[stand as usize].max(*here);
    }
    found.iter().min_by_key(|&&stand| Reverse(best[region(set, stand)])) != found.first()
}

/// Counts an exact answer, and whether going through the stands in a wrong way would have missed it.
fn count_any(counts: &mut Counts, set: &Owned, text: &[u8], rect: Rect) {
    let found = scan::range(&set.lent(), text, rect);
    if let [first, .., last] = found[..] {
        counts.yes_over_regions += u64::from(region(set, first) != region(set, last));
        counts.yes_against_scores += u64::from(other_by_scores(set, text, &found));
    }
    if found.is_empty() {
        counts.any_no += 1;
        counts.no_in_touched_cells += u64::from(scan::touched(&set.lent(), text, rect));
    } else {
        counts.any_yes += 1;
    }
}

/// The library's own range, with room for every stand: it begins with the stand of a yes, and with a no it has none.
fn compare_with_range(set: &Owned, by: &By, rect: Rect, answer: AnyFound) {
    let mut room = vec![0; set.score.len()];
    let range = ask_range(set, by, rect, &mut room);
    assert_eq!(range.refusal, 0, "the range's refusal");
    let first = room[..range.count as usize].first().copied();
    assert_eq!((answer.yes == 1).then_some(answer.stand), first, "any, and the library's own range");
}

pub fn compare_any(counts: &mut Counts, set: &Owned, lawful: bool, by: &By, rect: Rect) {
    let refusal = scan::range_refusal(by.text(), rect);
    let answer = match by {
        By::Text(text) => finder::any(&set.lent(), text, rect),
        By::Letters(session) => finder::any_typed(&set.lent(), *session, rect),
    };
    counts.any += 1;
    if settled(counts, lawful, [answer.refusal, answer.yes, answer.stand], refusal) {
        return;
    }
    if lawful {
        assert_eq!(answer, scan::any(&set.lent(), by.text(), rect), "any");
        compare_with_range(set, by, rect, answer);
        return count_any(counts, set, by.text(), rect);
    }
    assert_eq!(answer.refusal, 0, "an any question's refusal");
    assert!(answer.yes == 1 || answer.yes == 0 && answer.stand == 0, "neither a yes nor a no that names no stand");
}

/// Whether two stands of a list, of one score, are worth the same though the squares of their distances differ.
fn tied_by_rounding(set: &Owned, asked: Ranking, stands: &[u32], worths: &[u64]) -> bool {
    let square = |stand: usize| scan::squared_distance(scan::place(&set.lent(), stand), asked.place);
    let tied = |(s, w): (&[u32], &[u64])| {
        let [a, b] = [s[0] as usize, s[1] as usize];
        w[0] == w[1] && set.score[a] == set.score[b] && square(a) != square(b)
    };
    asked.weight < 16 && stands.windows(2).zip(worths.windows(2)).any(tied)
}

pub fn compare_ranked(dice: &mut Dice, counts: &mut Counts, set: &Owned, lawful: bool, by: &By, asked: Ranking) {
    let refusal = scan::ranked_refusal(set.grid, by.text(), asked);
    let k = asked.k.min(20) as usize;
    let mut length = || if dice.once_in(12) { k.saturating_sub(1) } else { k + dice.below(3) };
    let lengths = (length(), length());
    let mut found = room32(dice, lengths.0);
    let mut values = room64(dice, lengths.1);
    let answer = match by {
        By::Text(text) => finder::ranked(&set.lent(), text, asked, found.lend(), values.lend()),
        By::Letters(session) => finder::ranked_typed(&set.lent(), *session, asked, found.lend(), values.lend()),
    };
    counts.ranked += 1;
    let short = refusal == 0 && (found.len() < k || values.len() < k);
    if settled(counts, lawful, [answer.refusal, answer.count], if short { 13 } else { refusal }) {
        found.kept_behind(0);
        return values.kept_behind(0);
    }
    assert_eq!(answer.refusal, 0, "a ranked question's refusal");
    if lawful {
        let (stands, worths): (Vec<u32>, Vec<u64>) = scan::ranked(&set.lent(), by.text(), asked).into_iter().unzip();
        assert_eq!(answer.count as usize, stands.len(), "ranked");
        counts.rounded_ties += u64::from(tied_by_rounding(set, asked, &stands, &worths));
        found.holds(&stands);
        return values.holds(&worths);
    }
    assert!(answer.count as usize <= k, "more than k found");
    found.kept_behind(answer.count as usize);
    values.kept_behind(answer.count as usize);
}

/// Each question on a text or a session's letters, those about a rectangle on the same one.
pub fn compare_each(dice: &mut Dice, counts: &mut Counts, set: &Owned, lawful: bool, by: &By) {
    let rect = asking::rect(dice, &set.lent());
    compare_range(dice, counts, set, lawful, by, rect);
    compare_any(counts, set, lawful, by, rect);
    let asked = asking::ranking(dice, &set.lent());
    compare_ranked(dice, counts, set, lawful, by, asked);
    if let By::Letters(_) = by {
        counts.on_letters += 3;
    }
}

/// Questions by random texts.
pub fn compare_questions(dice: &mut Dice, counts: &mut Counts, set: &Owned, lawful: bool, count: usize) {
    for _ in 0..count {
        let by = By::Text(asking::text(dice, &set.lent()).into());
        compare_each(dice, counts, set, lawful, &by);
        let asked = asking::ranking(dice, &set.lent());
        compare_small(dice, counts, set, by.text(), asked.place);
    }
}

/// The calls that need no index: exact on any input.
fn compare_small(dice: &mut Dice, counts: &mut Counts, set: &Owned, text: &[u8], place: Place) {
    compare_region(counts, set.grid, place);
    let stand = if dice.once_in(8) { dice.word() as u32 } else { dice.below(set.score.len() + 1) as u32 };
    compare_rest(counts, set, stand, text);
}

pub fn compare_rest(counts: &mut Counts, set: &Owned, stand: u32, text: &[u8]) {
    let part = finder::rest(&set.text, &set.starts, stand, text);
    assert_eq!(part, scan::rest(&set.text, &set.starts, stand, text), "rest of a name");
    counts.rests += 1;
}
