//! How a ranked question goes through its node's entries, line by line, for docs/ranked_map.py to draw: some 200 stands, one text, one
//! place. Entries, stands and order are read from the words that building wrote; whether an entry is taken or passed over is reckoned
//! here by the rule, and the list that this ends with is held against the library's own answer.

mod finder;
mod owned;
mod records;
mod scan;
mod villages;

use owned::{Owned, Row};
use records::{Place, Ranking, Set};

const TEXT: &[u8] = b"m";
const ASKED: Ranking = Ranking { place: Place { east: 520, north: 1_900 }, weight: 4, k: 5 };

/// An entry of the node: a region, the largest score there, and the stands.
struct Entry<'a> {
    region: u32,
    score: u32,
    stands: &'a [u32],
}

/// The entries of the text's node, which is where a session's path ends once its letters are typed.
fn entries<'a>(set: &Set<'a>) -> Vec<Entry<'a>> {
    let mut session = finder::fresh();
    for &byte in TEXT {
        assert_eq!(finder::type_byte(set, &mut session, byte), 0, "a letter that is taken");
    }
    let node = &set.nodes[8 * session.path[TEXT.len()] as usize..][..8];
    let record = &set.bits[2 * node[5] as usize..][..2];
    let count = record[0].count_ones() + record[1].count_ones();
    let words = &set.entries[4 * node[7] as usize..][..4 * count as usize];
    words.chunks(4).map(|e| Entry { region: e[0], score: e[1], stands: &set.order[e[2] as usize..e[3] as usize] }).collect()
}

/// What a stand with the entry's score would be worth at the metre of its cell that is nearest to the place.
fn bound(set: &Set, entry: &Entry) -> u64 {
    let cell = set.grid.cell as i32;
    let nearest = |edge: i32, strip: u32, x: i32| {
        let low = edge + strip as i32 * cell;
        x.clamp(low, low + cell - 1)
    };
    let east = nearest(set.grid.west, entry.region % 8, ASKED.place.east);
    let north = nearest(set.grid.south, entry.region / 8, ASKED.place.north);
    scan::worth(set.grid, ASKED, Place { east, north }, entry.score)
}

/// Whether k are held and the last of them is better than the bound, or as good with a smaller number than the entry's first stand.
fn passed_over(held: &[(u32, u64)], bound: u64, first: u32) -> bool {
    match held.get(ASKED.k as usize - 1) {
        Some(&(stand, last)) => bound < last || bound == last && stand < first,
        None => false,
    }
}

/// Prints each entry as it comes, and gives the list held at the end.
fn go_through(set: &Set) -> Vec<(u32, u64)> {
    let mut held: Vec<(u32, u64)> = Vec::new();
    for entry in entries(set) {
        let bound = bound(set, &entry);
        let last = held.get(ASKED.k as usize - 1).map_or(String::from("-"), |h| h.1.to_string());
        let passed = passed_over(&held, bound, entry.stands[0]);
        let verdict = if passed { "passed" } else { "taken" };
        println!("entry {} {} {} {bound} {last} {verdict}", entry.region, entry.score, entry.stands.len());
        if !passed {
            held.extend(entry.stands.iter().map(|&stand| (stand, scan::value(set, ASKED, stand as usize))));
            held.sort_by_key(|&(stand, value)| (std::cmp::Reverse(value), stand));
            held.truncate(ASKED.k as usize);
        }
    }
    held
}

/// Every fifth stand of many villages, so that they lie all over the grid.
fn table() -> Owned {
    let many = villages::table(1_024);
    let row = |i: usize| (many.name(i).to_vec(), Place { east: many.east[i], north: many.north[i] }, many.score[i]);
    let rows: Vec<Row> = (0..1_024).step_by(5).map(row).collect();
    let mut table = Owned::of(many.grid, &rows);
    table.index_by(finder::build);
    table
}

fn main() {
    let table = table();
    let set = table.lent();
    println!("grid {} {} {}", set.grid.west, set.grid.south, set.grid.cell);
    let text = String::from_utf8_lossy(TEXT);
    println!("question {} {} {} {} {text}", ASKED.place.east, ASKED.place.north, ASKED.weight, ASKED.k);
    for stand in 0..set.score.len() {
        let name = String::from_utf8_lossy(table.name(stand));
        println!("stand {} {} {} {name}", set.east[stand], set.north[stand], set.score[stand]);
    }
    let held = go_through(&set);
    let (mut found, mut values) = ([0; 16], [0; 16]);
    let answer = finder::ranked(&set, TEXT, ASKED, &mut found, &mut values);
    let told: Vec<(u32, u64)> = found.into_iter().zip(values).take(answer.count as usize).collect();
    assert_eq!((answer.refusal, &told), (0, &held), "the library's answer");
    for (stand, value) in held {
        println!("held {stand} {value}");
    }
}
