//! The figures: how many instructions the finder takes for a question, a name typed, the rest of a hit's name, a build and a check, beside
//! a scan of all stands (`plain`) and the same method in safe Rust (`port`); how many words the index has; the most that any call takes
//! over bad tables, and its stack; the code's size.
//! Every answer is compared before it is counted.
//!     figures LIBRARY              prints all of it
//!     figures count WHAT WHO STANDS, figures worst TABLE CALL      run one of them, for valgrind to count

mod bad;
mod counting;
mod depth;
mod finder;
mod hard;
mod owned;
mod plain;
mod port;
mod records;
mod rounds;
mod villages;
mod worst;

use owned::Owned;
use rounds::{round, Who};
use std::hint::black_box;
use std::process::Command;
use villages::QUESTIONS;

const SIZES: [usize; 3] = [64, 256, 1_024];

const WHATS: [(&str, &str); 16] = [
    ("ranked", "ranked, 3 letters, k = 5"),
    ("whole", "ranked, a whole name, k = 5"),
    ("range", "range, 3 letters"),
    ("any", "any, 3 letters"),
    ("range-beside", "range, 3 letters, none there, cells touched"),
    ("any-beside", "any, 3 letters, none there, cells touched"),
    ("range-far", "range, 3 letters, none there, no cell touched"),
    ("any-far", "any, 3 letters, none there, no cell touched"),
    ("range-many", "range, 1 letter, the whole grid"),
    ("any-many", "any, 1 letter, the whole grid"),
    ("typing", "a name typed, all letters"),
    ("rest", "the rest of a name, 3 letters"),
    ("unlike-odd", "of one that begins otherwise, 3 letters"),
    ("unlike-even", "of one that begins otherwise, 4 letters"),
    ("build", "build"),
    ("check", "check"),
];

/// Whether going over all stands can answer it.
fn scanned(what: &str) -> bool {
    matches!(what, "ranked" | "whole" | "typing") || what.starts_with("range") || what.starts_with("any")
}

/// Whether it is one of the any questions, and then how many of them are answered by yes.
fn yeses(what: &str) -> Option<usize> {
    match what {
        "any" | "any-many" => Some(QUESTIONS),
        "any-beside" | "any-far" => Some(0),
        _ => None,
    }
}

/// The villages with their index, built by the one that is not counted.
fn indexed(stands: usize, counted: Who) -> Owned {
    let mut set = villages::table(stands);
    match counted {
        Who::Finder => set.index_by(port::build),
        _ => set.index_by(finder::build),
    }
    set
}

/// The function that is counted, as valgrind names it; what is done to call it is not.
fn counted(what: &str, who: &str) -> String {
    match (what, who) {
        ("whole", _) => counted("ranked", who),
        ("unlike-odd" | "unlike-even", _) => counted("rest", who),
        ("range-beside" | "range-far" | "range-many", _) => counted("range", who),
        ("any-beside" | "any-far" | "any-many", _) => counted("any", who),
        ("typing", "finder") => String::from("krz_type"),
        ("typing", "plain") => String::from("figures::plain::leads_on"),
        ("typing", "port") => String::from("figures::port::type_byte"),
        ("typing", "in-place") => String::from("figures::port::type_in_place"),
        ("range", "near") => String::from("figures::plain::range_near"),
        (_, "finder") => format!("krz_{what}"),
        _ => format!("figures::{who}::{what}"),
    }
}

/// Instructions of one question, name, rest, build or check.
fn instructions(what: &str, who: &str, stands: usize) -> f64 {
    let function = counted(what, who);
    let all: u64 = counting::each_call(&function, &["count", what, who, &stands.to_string()]).into_iter().sum();
    if matches!(what, "build" | "check") {
        all as f64
    } else {
        all as f64 / QUESTIONS as f64
    }
}

fn print_table() {
    println!("| stands | what | finder | scan | port | scan / finder | finder / port |");
    println!("|---|---|---|---|---|---|---|");
    for stands in SIZES {
        for (what, title) in WHATS {
            let ours = instructions(what, "finder", stands);
            let port = instructions(what, "port", stands);
            let (scan, ratio) = if scanned(what) {
                let scan = instructions(what, "plain", stands);
                (format!("{scan:.0}"), format!("{:.1}", scan / ours))
            } else {
                (String::from("-"), String::from("-"))
            };
            println!("| {stands} | {title} | {ours:.0} | {scan} | {port:.0} | {ratio} | {:.2} |", ours / port);
        }
    }
    println!();
    println!("At 1024 stands a scan that tests the rectangle before the text takes {:.0} for the range,", instructions("range", "near", 1_024));
    println!("and a port that changes the session in place {:.0} for the name typed.", instructions("typing", "in-place", 1_024));
}

/// How many words each part of the index has, and all of them without and with the bits.
fn print_words() {
    println!("| stands | order | nodes | entries | bits | without bits | all |");
    println!("|---|---|---|---|---|---|---|");
    for stands in SIZES {
        let [order, nodes, entries, bits] = indexed(stands, Who::Port).index().map(|words| words.len());
        let others = order + nodes + entries;
        println!("| {stands} | {order} | {nodes} | {entries} | {bits} | {others} | {} |", others + bits);
    }
}

fn print_size(library: &str) {
    let out = Command::new("size").args(["-t", library]).output().expect("size runs");
    let text = String::from_utf8_lossy(&out.stdout).into_owned();
    let code = text.lines().last().and_then(|line| line.split_whitespace().next()).unwrap_or("?");
    println!("The library for {} has {code} bytes of code and constants.", std::env::consts::ARCH);
}

fn compare() {
    for stands in SIZES {
        let mut t = indexed(stands, Who::Port);
        let asked = villages::questions(&t);
        for (what, title) in WHATS {
            let ours = round(what, Who::Finder, &mut t, &asked);
            let words = t.index();
            assert_eq!(ours, round(what, Who::Port, &mut t, &asked), "{title}: finder and port");
            assert_eq!(words, t.index(), "{title}: words of finder and port");
            if scanned(what) {
                assert_eq!(ours, round(what, Who::Plain, &mut t, &asked), "{title}: finder and scan");
                assert_eq!(ours, round(what, Who::InPlace, &mut t, &asked), "{title}: finder and port in place");
            }
            if let Some(yeses) = yeses(what) {
                assert_eq!(ours.chunks(3).filter(|answer| answer[1] == 1).count(), yeses, "{title}: how many are answered by yes");
            }
            if what == "range" {
                assert_eq!(ours, round(what, Who::Near, &mut t, &asked), "{title}: finder and scan by rectangle");
            }
        }
    }
}

fn print_all(library: &str) {
    compare();
    print_table();
    println!();
    print_words();
    println!();
    worst::print_instructions();
    println!();
    worst::print_depths();
    println!();
    print_size(library);
}

fn main() {
    let words: Vec<String> = std::env::args().skip(1).collect();
    let words: Vec<&str> = words.iter().map(String::as_str).collect();
    match words[..] {
        [library] => print_all(library),
        ["worst", table, call] => worst::run(table, call),
        ["count", what, who, stands] => {
            let (who, stands) = (Who::of(who).expect("one who answers"), stands.parse().expect("a number of stands"));
            let mut t = indexed(stands, who);
            let asked = villages::questions(&t);
            black_box(round(what, who, &mut t, &asked));
        }
        _ => {
            eprintln!("usage: figures LIBRARY");
            std::process::exit(2);
        }
    }
}
