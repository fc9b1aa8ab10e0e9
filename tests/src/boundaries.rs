//! Words at their boundaries: of each kind of word one after the other that the answers go by, set to every number at which a test of it
//! can turn, the node's own among them, and then all calls that read it. Each part has just its length, or one of them a word less or
//! more, in memory that ends with it, so that under valgrind a call that reads one word too far is seen.

use crate::compare_check;
use crate::damage;
use crate::dice::Dice;
use crate::finder;
use crate::owned::Owned;
use crate::questions::{compare_any, compare_each, compare_range, compare_rest, By, WORLD};
use crate::records::Session;
use crate::scan::Typist;
use crate::strokes::{compare_stroke, letter, Key};
use crate::Counts;

/// A kind of word. A node's has its column, and so has an entry's or a bit record's.
#[derive(Clone, Copy, Debug)]
enum Kind {
    Node(usize),
    Entry(usize),
    Bits(usize),
    Order,
    Start,
    Score,
    Path,
    Length,
}

fn kinds() -> Vec<Kind> {
    let nodes = (0..8).map(Kind::Node);
    let entries = (0..4).map(Kind::Entry);
    let bits = (0..2).map(Kind::Bits);
    nodes.chain(entries).chain(bits).chain([Kind::Order, Kind::Start, Kind::Score, Kind::Path, Kind::Length]).collect()
}

/// The word of a kind that questions by the session's letters read: of their node or its bit record, or of an entry, a place or a stand
/// under it.
fn word<'a>(dice: &mut Dice, kind: Kind, set: &'a mut Owned, session: &'a mut Session) -> Option<&'a mut u32> {
    let node = 8 * session.path[session.len as usize] as usize;
    let row: Vec<usize> = set.nodes.get(node..node + 8)?.iter().map(|&w| w as usize).collect();
    let record = 2 * row[5];
    let held = set.bits.get(record..record + 2).map_or(0, |bits| bits.iter().map(|w| w.count_ones() as usize).sum());
    let entry = 4 * (row[7] + dice.below(held));
    let place = set.entries.get(entry + 2).map_or(0, |&w| w as usize);
    let stand = row[2] + dice.below(row[3] - row[2]);
    match kind {
        Kind::Node(column) => set.nodes.get_mut(node + column),
        Kind::Entry(column) => set.entries.get_mut(entry + column),
        Kind::Bits(column) => set.bits.get_mut(record + column),
        Kind::Order => set.order.get_mut(place),
        Kind::Start => set.starts.get_mut(stand + dice.below(2)),
        Kind::Score => set.score.get_mut(stand),
        Kind::Path => session.path.get_mut(session.len as usize),
        Kind::Length => Some(&mut session.len),
    }
}

/// A word less or more in a part, or none, in memory that ends with it.
fn resized<T>(dice: &mut Dice, part: &mut Vec<T>, word: T) {
    match dice.below(4) {
        0 => drop(part.pop()),
        1 => part.push(word),
        _ => {}
    }
    part.shrink_to_fit();
}

fn one_part_resized(dice: &mut Dice, set: &mut Owned) {
    let word = dice.word();
    match dice.below(9) {
        0 => resized(dice, &mut set.text, word as u8),
        1 => resized(dice, &mut set.starts, word as u32),
        2 => resized(dice, &mut set.east, word as i32),
        3 => resized(dice, &mut set.north, word as i32),
        4 => resized(dice, &mut set.score, word as u32),
        5 => resized(dice, &mut set.order, word as u32),
        6 => resized(dice, &mut set.nodes, word as u32),
        7 => resized(dice, &mut set.entries, word as u32),
        _ => resized(dice, &mut set.bits, word as u32),
    }
}

/// All calls that go by the letters' node: as a text, past it to a sibling, as a session, one letter further, one letter less.
fn compare_around(dice: &mut Dice, counts: &mut Counts, set: &Owned, typist: Option<&Typist>, text: &[u8], session: Session) {
    let further = [letter(dice, set, text), dice.one_of(b" az")];
    let shorter = &text[..text.len().saturating_sub(1)];
    let texts = [text.to_vec(), [text, &further[..1]].concat(), [text, &further[1..]].concat(), [shorter, b"z"].concat()];
    for text in texts {
        let by = By::Text(text.into());
        compare_range(dice, counts, set, typist.is_some(), &by, WORLD);
        compare_any(counts, set, typist.is_some(), &by, WORLD);
        compare_each(dice, counts, set, typist.is_some(), &by);
    }
    compare_rest(counts, set, dice.below(set.score.len() + 1) as u32, text);
    let typist = typist.filter(|t| t.lawful(session));
    compare_range(dice, counts, set, typist.is_some(), &By::Letters(session), WORLD);
    compare_any(counts, set, typist.is_some(), &By::Letters(session), WORLD);
    for key in [Key::Letter(further[0]), Key::Letter(further[1]), Key::RubOut] {
        let mut session = session;
        compare_stroke(dice, counts, set, typist, &mut session, key);
        let typist = typist.filter(|t| t.lawful(session));
        compare_each(dice, counts, set, typist.is_some(), &By::Letters(session));
    }
}

/// The set with nothing behind the words of its index.
fn exact(mut set: Owned) -> Owned {
    let told = finder::check(&set.lent());
    set.order.truncate(set.score.len());
    set.nodes.truncate(8 * told.nodes as usize);
    set.entries.truncate(4 * told.entries as usize);
    set.bits.truncate(2 * told.bits as usize);
    set
}

/// Every kind of word at every boundary, and at the number of the letters' node and the two behind it. The letters are a random beginning
/// of a name or the last of all, whose words end the index.
pub fn compare_boundaries(dice: &mut Dice, counts: &mut Counts, whole: &Owned, typist: &Typist) {
    let whole = exact(whole.clone());
    let boundaries = damage::boundaries(&whole.lent());
    let beginnings = typist.beginnings();
    for kind in kinds() {
        for turn in 0..boundaries.len() + 3 {
            let mut set = whole.clone();
            one_part_resized(dice, &mut set);
            let number = if dice.once_in(4) { beginnings.len() - 1 } else { dice.below(beginnings.len()) };
            let text = beginnings[number].clone();
            let value = boundaries.get(turn).copied().unwrap_or((number + turn - boundaries.len()) as u32);
            let mut session = typist.session(&text);
            if let Some(word) = word(dice, kind, &mut set, &mut session) {
                *word = value;
            }
            let lawful = compare_check(counts, &set);
            let own = lawful.then(|| Typist::new(&set.lent()));
            compare_around(dice, counts, &set, own.as_ref(), &text, session);
            counts.boundaries += 1;
        }
    }
}
