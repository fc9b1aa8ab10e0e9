//! The worst cases: of each call the most instructions and the deepest stack, over the tables made to be bad and the hard calls on each.

use crate::bad;
use crate::counting;
use crate::depth::depth;
use crate::hard::{self, Hard, CALLS};
use crate::owned::Owned;

/// The word for the set that no building writes.
const UNLAWFUL: &str = "unlawful";

/// The set of a table's word.
fn set(word: &str) -> Owned {
    match word {
        UNLAWFUL => bad::unlawful(),
        _ => bad::set(word).expect("one of the bad tables"),
    }
}

fn calls<'a>(word: &str, set: &'a Owned) -> Vec<Hard<'a>> {
    match word {
        UNLAWFUL => hard::asked(set, b"z", 64 * set.score.len()),
        _ => hard::all(set),
    }
}

/// Makes the hard ones of one call on a table, for valgrind to count.
pub fn run(word: &str, call: &str) {
    let set = set(word);
    for mut hard in calls(word, &set).into_iter().filter(|hard| hard.call == call) {
        (hard.run)();
    }
}

/// The most of one call, and on what.
#[derive(Default)]
struct Most {
    count: u64,
    asked: String,
}

/// Of one call the most instructions on a table; nothing where it isn't made.
fn most_of(call: &str, word: &str, set: &Owned) -> Most {
    let made: Vec<Hard> = calls(word, set).into_iter().filter(|hard| hard.call == call).collect();
    if made.is_empty() {
        return Most::default();
    }
    let counts = counting::each_call(call, &["worst", word, call]);
    assert_eq!(counts.len(), made.len(), "one count for each {call} on {word}");
    let all = made.into_iter().zip(counts).map(|(hard, count)| Most { count, asked: hard.asked });
    all.reduce(|a, b| if a.count < b.count { b } else { a }).unwrap_or_default()
}

/// Of each call the most on a table.
fn most(word: &str) -> Vec<Most> {
    let set = set(word);
    CALLS.iter().map(|call| most_of(call, word, &set)).collect()
}

fn print_row(title: &str, most: &[Most]) {
    let counts: Vec<String> = most.iter().take(10).map(|m| if m.count == 0 { String::from("-") } else { m.count.to_string() }).collect();
    println!("| {title} | {} |", counts.join(" | "));
}

/// Of each call the most on any lawful table, and where.
fn print_most(rows: &[(&str, Vec<Most>)]) {
    println!("| call | most | on | asked |");
    println!("|---|---|---|---|");
    for (call, name) in CALLS.iter().enumerate() {
        let all = rows.iter().map(|(title, most)| (title, &most[call]));
        let (title, worst) = all.reduce(|a, b| if a.1.count < b.1.count { b } else { a }).expect("some tables");
        println!("| `{name}` | {} | {title} | {} |", worst.count, worst.asked);
    }
}

pub fn print_instructions() {
    let rows: Vec<(&str, Vec<Most>)> = bad::TABLES.iter().map(|&(word, title, _)| (title, most(word))).collect();
    print_most(&rows);
    println!();
    println!("| 1,024 stands | ranked | on letters | range | on letters | any | on letters | a key | rub-out | build | check |");
    println!("|---|---|---|---|---|---|---|---|---|---|---|");
    for (title, most) in &rows {
        print_row(title, most);
    }
    print_row("words that no building writes", &most(UNLAWFUL));
}

/// Of each call the deepest on any table.
pub fn print_depths() {
    let mut deepest = [0; CALLS.len()];
    let words = bad::TABLES.iter().map(|(word, _, _)| *word).chain([UNLAWFUL]);
    for word in words {
        let set = set(word);
        for mut hard in calls(word, &set) {
            let call = CALLS.iter().position(|call| *call == hard.call).expect("a call of the list");
            deepest[call] = depth(&mut *hard.run).max(deepest[call]);
        }
    }
    println!("| call | bytes of stack |");
    println!("|---|---|");
    for (call, bytes) in CALLS.iter().zip(deepest) {
        println!("| `{call}` | {bytes} |");
    }
}
