//! Every call of the library as it is hard for a set: long texts and the empty one, k = 16, whole rectangles, each letter of a long name.

use crate::finder;
use crate::owned::Owned;
use crate::port;
use crate::records::{Place, Ranking, Rect, Session, Set};
use std::hint::black_box;

/// One call: which, on what, and the call itself.
pub struct Hard<'a> {
    pub call: &'static str,
    pub asked: String,
    pub run: Box<dyn FnMut() + 'a>,
}

/// The calls in the order of the tables that are printed.
pub const CALLS: [&str; 13] = [
    "krz_ranked",
    "krz_ranked_typed",
    "krz_range",
    "krz_range_typed",
    "krz_any",
    "krz_any_typed",
    "krz_type",
    "krz_rub_out",
    "krz_build",
    "krz_check",
    "krz_region",
    "krz_rest",
    "krz_fresh",
];

/// An answer that nobody looks at.
fn told<T>(answer: T) {
    black_box(answer);
}

fn hard<'a>(call: &'static str, asked: String, run: impl FnMut() + 'a) -> Hard<'a> {
    Hard { call, asked, run: Box::new(run) }
}

/// The session of a text, typed by the port, so that no call of the library is counted for it.
fn session(set: &Set, text: &[u8]) -> Session {
    let mut session = Session { text: [0; 24], len: 0, path: [0; 25] };
    for &byte in text {
        port::type_byte(set.nodes, &mut session, byte);
    }
    session
}

fn letters(text: &[u8]) -> String {
    match text.len() {
        0 => String::from("the empty text"),
        1 => String::from("1 letter"),
        n => format!("{n} letters"),
    }
}

/// The corners of the grid and its middle.
fn places(set: &Set) -> [(&'static str, Place); 5] {
    let side = 8 * set.grid.cell as i32 - 1;
    let at = |east: i32, north: i32| Place { east: set.grid.west + east, north: set.grid.south + north };
    [
        ("the south-west", at(0, 0)),
        ("the south-east", at(side, 0)),
        ("the north-west", at(0, side)),
        ("the north-east", at(side, side)),
        ("the middle", at(side / 2, side / 2)),
    ]
}

fn ranked<'a>(set: &'a Owned, text: &'a [u8]) -> Vec<Hard<'a>> {
    let typed = session(&set.lent(), text);
    let mut all = Vec::new();
    for (corner, place) in places(&set.lent()) {
        for weight in [0, 8, 16] {
            let asked = Ranking { place, weight, k: 16 };
            let words = format!("{}, k = 16, weight {weight}, from {corner}", letters(text));
            let (mut found, mut values) = ([0; 16], [0; 16]);
            let by_text = move || told(finder::ranked(&set.lent(), text, asked, &mut found, &mut values));
            all.push(hard("krz_ranked", words.clone(), by_text));
            let by_letters = move || told(finder::ranked_typed(&set.lent(), typed, asked, &mut found, &mut values));
            all.push(hard("krz_ranked_typed", words, by_letters));
        }
    }
    all
}

/// All the world, the grid less a metre at each side, less three cells at each side, and the world from the middle of the southernmost
/// cells on, which touches all cells and has no stand close to the southern edge.
fn rects(set: &Set) -> [(&'static str, Rect); 4] {
    let (grid, side) = (set.grid, 8 * set.grid.cell as i32 - 1);
    let less = |by: i32| Rect {
        west: grid.west + by,
        east: grid.west + side - by,
        south: grid.south + by,
        north: grid.south + side - by,
    };
    let world = Rect { west: i32::MIN, east: i32::MAX, south: i32::MIN, north: i32::MAX };
    let cell = grid.cell as i32;
    [
        ("all the world", world),
        ("the grid less its rim", less(1)),
        ("the middle four cells", less(3 * cell)),
        ("all but half a cell in the south", Rect { south: grid.south + cell / 2, ..world }),
    ]
}

fn range<'a>(set: &'a Owned, text: &'a [u8], room: usize) -> Vec<Hard<'a>> {
    let typed = session(&set.lent(), text);
    let mut all = Vec::new();
    for (part, rect) in rects(&set.lent()) {
        let words = format!("{}, {part}", letters(text));
        let mut found = vec![0; room];
        all.push(hard("krz_range", words.clone(), move || told(finder::range(&set.lent(), text, rect, &mut found))));
        let mut found = vec![0; room];
        let by_letters = move || told(finder::range_typed(&set.lent(), typed, rect, &mut found));
        all.push(hard("krz_range_typed", words, by_letters));
    }
    all
}

fn any<'a>(set: &'a Owned, text: &'a [u8]) -> Vec<Hard<'a>> {
    let typed = session(&set.lent(), text);
    let mut all = Vec::new();
    for (part, rect) in rects(&set.lent()) {
        let words = format!("{}, {part}", letters(text));
        all.push(hard("krz_any", words.clone(), move || told(finder::any(&set.lent(), text, rect))));
        all.push(hard("krz_any_typed", words, move || told(finder::any_typed(&set.lent(), typed, rect))));
    }
    all
}

/// Behind each beginning of a text the letter that leads on, the first and the last allowed byte, a capital, a byte that is not allowed;
/// and a rub-out.
fn strokes<'a>(set: &'a Owned, text: &[u8]) -> Vec<Hard<'a>> {
    let mut all = Vec::new();
    for length in 0..=text.len() {
        let before = session(&set.lent(), &text[..length]);
        let keys = [text.get(length).copied().unwrap_or(b'a'), b' ', b'z', b'Z', b'{'];
        for byte in keys {
            let mut session = Box::new(before);
            let words = format!("the key {:?} behind {}", byte as char, letters(&text[..length]));
            all.push(hard("krz_type", words, move || {
                *session = before;
                told(finder::type_byte(&set.lent(), &mut session, byte));
            }));
        }
        let mut session = Box::new(before);
        let words = format!("behind {}", letters(&text[..length]));
        all.push(hard("krz_rub_out", words, move || {
            *session = before;
            told(finder::rub_out(&set.lent(), &mut session));
        }));
    }
    all
}

/// The questions and keystrokes, by the empty text and by another, with room for so many found.
pub fn asked<'a>(set: &'a Owned, text: &'a [u8], room: usize) -> Vec<Hard<'a>> {
    let mut all = strokes(set, text);
    for text in [&text[..0], text] {
        all.extend(ranked(set, text));
        all.extend(range(set, text, room));
        all.extend(any(set, text));
    }
    all
}

/// The calls that make or judge an index, and those that need none.
fn others(set: &Owned) -> Vec<Hard<'_>> {
    let [mut order, mut nodes, mut entries, mut bits] = set.index();
    let build = move || told(finder::build(&set.lent(), &mut order, &mut nodes, &mut entries, &mut bits));
    let mut all = vec![
        hard("krz_build", String::from("the table"), build),
        hard("krz_check", String::from("the set"), || told(finder::check(&set.lent()))),
        hard("krz_fresh", String::from("no letters"), || told(finder::fresh())),
    ];
    for (corner, place) in places(&set.lent()) {
        all.push(hard("krz_region", format!("of {corner}"), move || told(finder::region(set.grid, place))));
    }
    for stand in [0, set.score.len() - 1] {
        for length in 0..=set.name(stand).len() {
            let text = &set.name(stand)[..length];
            let rest = move || told(finder::rest(&set.text, &set.starts, stand as u32, text));
            all.push(hard("krz_rest", format!("stand {stand}, {}", letters(text)), rest));
        }
    }
    all
}

/// Everything on a lawful set, by its last name.
pub fn all(set: &Owned) -> Vec<Hard<'_>> {
    let mut all = others(set);
    all.extend(asked(set, set.name(set.score.len() - 1), set.score.len()));
    all
}
