//! Prints the index of the sample tables by the scan, word by word, as the program crates/sample does by building it.

mod records;
mod scan;

use records::{Grid, Set};

struct Stand {
    name: Vec<u8>,
    east: i32,
    north: i32,
    score: u32,
}

fn print_rows(kind: &str, words: &[u32], width: usize) {
    for row in words.chunks(width) {
        let row: Vec<String> = row.iter().map(|w| w.to_string()).collect();
        println!("{kind} {}", row.join(" "));
    }
}

fn print_index(stands: &[Stand], grid: Grid) {
    let text: Vec<u8> = stands.iter().flat_map(|s| s.name.clone()).collect();
    let mut starts = vec![0];
    for stand in stands {
        starts.push(starts[starts.len() - 1] + stand.name.len() as u32);
    }
    let east: Vec<i32> = stands.iter().map(|s| s.east).collect();
    let north: Vec<i32> = stands.iter().map(|s| s.north).collect();
    let score: Vec<u32> = stands.iter().map(|s| s.score).collect();
    let set = Set {
        text: &text,
        starts: &starts,
        east: &east,
        north: &north,
        score: &score,
        grid,
        order: &[],
        nodes: &[],
        entries: &[],
        bits: &[],
    };
    let index = scan::index(&set);
    println!("stands {}", stands.len());
    print_rows("order", &index.order, 1);
    print_rows("node", &index.nodes, 8);
    print_rows("entry", &index.entries, 4);
    print_rows("record", &index.bits, 2);
}

fn small_scheme() -> Vec<Stand> {
    let stand = |name: &[u8], east, north, score| Stand { name: name.to_vec(), east, north, score };
    vec![
        stand(b"kibo", 5, 5, 100),
        stand(b"kibo", 75, 75, 900),
        stand(b"kibori", 12, 5, 400),
        stand(b"kito", 9, 9, 400),
        stand(b"mto", 10, 9, 0),
    ]
}

/// Three stands to a pair of letters: two of one name, and one that begins with it.
fn sample(count: u32) -> Vec<Stand> {
    const LETTERS: [u8; 5] = *b" 09az";
    (0..count)
        .map(|i| {
            let pair = i / 3;
            let mut name = vec![LETTERS[(pair / 5 % 5) as usize], LETTERS[(pair % 5) as usize]];
            if i % 3 == 2 {
                name.push(b'a');
            }
            Stand {
                name,
                east: ((i * 37 + count) % 36) as i32,
                north: ((i * 23 + 5) % 36) as i32,
                score: i * 397 % 1001,
            }
        })
        .collect()
}

fn main() {
    print_index(&small_scheme(), Grid { west: 0, south: 0, cell: 10 });
    for count in [0, 1, 20, 75] {
        print_index(&sample(count), Grid { west: -20, south: -13, cell: 7 });
    }
}
