//! The comparison: random tables, questions and keystrokes, by the library and by a scan of every stand.
//! On a lawful set and session answers and rooms must be equal; on any other they must be allowed ones. Building and checking are compared
//! on every input. What is lent lies in memory that ends with it, so that under valgrind a read outside is seen too.
//!     compare SEED TABLES [STANDS]     so many tables, of at most so many stands

mod asking;
mod boundaries;
mod damage;
mod dice;
mod finder;
mod owned;
mod questions;
mod records;
mod rooms;
mod scan;
mod strips;
mod strokes;
mod tables;

use dice::Dice;
use owned::{most_words, Owned};
use records::Session;
use rooms::room32;
use scan::Typist;

const SIZES: [usize; 12] = [0, 1, 2, 3, 5, 8, 17, 40, 64, 64, 200, 1_024];

/// How many of each were compared.
#[derive(Debug, Default)]
pub struct Counts {
    tables: u64,
    /// Nodes of these tables with a bit record of their own, and with their parent's.
    own_records: u64,
    shared_records: u64,
    builds: u64,
    checks: u64,
    regions: u64,
    rests: u64,
    ranges: u64,
    any: u64,
    /// Exact answers to these: a yes, one with stands in several regions, and one whose first stand would be another by scores.
    any_yes: u64,
    yes_over_regions: u64,
    yes_against_scores: u64,
    /// A no, and one where a cell that the rectangle touches has a stand under the text.
    any_no: u64,
    no_in_touched_cells: u64,
    ranked: u64,
    /// Ranked lists with two stands that are equal by rounded distance only.
    rounded_ties: u64,
    strokes: u64,
    on_letters: u64,
    damaged_sets: u64,
    bent_sessions: u64,
    boundaries: u64,
    noticed: u64,
}

// ---- building and checking, on any input

/// Builds into rooms of these lengths, compares, and gives the words where there are any.
fn compare_build(dice: &mut Dice, counts: &mut Counts, set: &Owned, rooms: [usize; 4]) -> Option<[Vec<u32>; 4]> {
    let (told, index) = scan::build(&set.lent(), rooms);
    let mut rooms = rooms.map(|length| room32(dice, length));
    let [order, nodes, entries, bits] = &mut rooms;
    let built = finder::build(&set.lent(), order.lend(), nodes.lend(), entries.lend(), bits.lend());
    assert_eq!(built, told, "build");
    for (room, part) in rooms.iter().zip(index.parts()) {
        room.holds(part);
    }
    counts.builds += 1;
    (built.refusal == 0).then(|| rooms.map(|room| room.into_words()))
}

/// Whether a set is lawful.
pub fn compare_check(counts: &mut Counts, set: &Owned) -> bool {
    let told = scan::check(&set.lent());
    assert_eq!(finder::check(&set.lent()), told, "check");
    counts.checks += 1;
    told.lawful == 1
}

// ---- one table

/// Building into rooms of just the index's words, and into those with a word less in one of them: each of the four in turn, or in a large
/// table, which takes long to scan, one by chance.
fn compare_rooms(dice: &mut Dice, counts: &mut Counts, set: &Owned, needed: [usize; 4]) {
    assert!(compare_build(dice, counts, set, needed).is_some(), "not built into rooms that are large enough");
    let chosen = dice.below(4);
    for which in (0..4).filter(|&which| set.score.len() < 300 || which == chosen) {
        let mut rooms = needed;
        if 0 < rooms[which] {
            rooms[which] -= 1;
            assert!(compare_build(dice, counts, set, rooms).is_none(), "built into a room that is too small");
        }
    }
}

/// The index built, with words behind it that no answer may depend on.
fn indexed(dice: &mut Dice, counts: &mut Counts, mut set: Owned) -> Owned {
    let index = scan::index(&set.lent());
    let needed = index.parts().map(<[u32]>::len);
    let most = most_words(set.score.len());
    assert!(needed.iter().zip(most).all(|(&needed, most)| needed <= most), "an index with more words than any has");
    counts.own_records += index.bits.len() as u64 / 2;
    counts.shared_records += (index.nodes.len() / 8 - index.bits.len() / 2) as u64;
    compare_rooms(dice, counts, &set, needed);
    let rooms = needed.map(|n| n + dice.below(10));
    let words = compare_build(dice, counts, &set, rooms);
    [set.order, set.nodes, set.entries, set.bits] = words.expect("a lawful table is built");
    set
}

/// A set with some damage. One that is lawful all the same can have other scores, places or edges than before, where no word of the
/// index tells; so its sessions are reckoned again.
fn compare_damaged(dice: &mut Dice, counts: &mut Counts, whole: &Owned, session: Session) {
    let mut set = whole.clone();
    for _ in 0..1 + dice.below(3) {
        damage::damage(dice, &mut set);
    }
    let kept = set.clone();
    let lawful = compare_check(counts, &set);
    compare_build(dice, counts, &set, [set.order.len(), set.nodes.len(), set.entries.len(), set.bits.len()]);
    questions::compare_questions(dice, counts, &set, lawful, 4);
    let session = if dice.once_in(2) { strokes::bent(dice, &set, session) } else { session };
    let typist = lawful.then(|| Typist::new(&set.lent()));
    strokes::compare_strokes(dice, counts, &set, typist.as_ref(), session, 4);
    assert!(kept == set, "a set is only read");
    counts.damaged_sets += 1;
}

fn compare_table(dice: &mut Dice, counts: &mut Counts, stands: usize) {
    let table = tables::table(dice, stands);
    let set = indexed(dice, counts, table);
    let kept = set.clone();
    assert!(compare_check(counts, &set), "what is built is lawful");
    questions::compare_questions(dice, counts, &set, true, 24);
    let typist = Typist::new(&set.lent());
    let session = strokes::compare_session(dice, counts, &set, &typist, 40);
    for _ in 0..8 {
        let bent = strokes::bent(dice, &set, session);
        strokes::compare_strokes(dice, counts, &set, Some(&typist), bent, 1);
        counts.bent_sessions += 1;
    }
    assert!(kept == set, "a set is only read");
    let damages = if stands < 300 { 12 } else { 4 };
    for _ in 0..damages {
        compare_damaged(dice, counts, &set, session);
    }
    if stands <= 8 {
        boundaries::compare_boundaries(dice, counts, &set, &typist);
    }
    counts.tables += 1;
}

fn main() {
    let words: Option<Vec<u64>> = std::env::args().skip(1).map(|word| word.parse().ok()).collect();
    let (seed, tables, stands) = match words.as_deref() {
        Some(&[seed, tables]) if 0 < tables => (seed, tables, u64::MAX),
        Some(&[seed, tables, stands]) if 0 < tables => (seed, tables, stands),
        _ => {
            eprintln!("usage: compare SEED TABLES [STANDS], with at least one table");
            std::process::exit(2);
        }
    };
    println!("seed {seed}");
    let sizes: Vec<usize> = SIZES.into_iter().filter(|&size| size as u64 <= stands).collect();
    let dice = &mut Dice::new(seed);
    let mut counts = Counts::default();
    strips::compare_strips(&mut counts);
    for number in 0..tables {
        compare_table(dice, &mut counts, sizes[number as usize % sizes.len()]);
    }
    println!("{counts:?}");
}
