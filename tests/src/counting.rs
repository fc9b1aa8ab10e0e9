//! Instructions, counted by callgrind: this program runs itself once more under valgrind, which counts inside one function only.

use std::process::Command;

/// The instructions of each call of a function, in order, while this program runs with these words.
pub fn each_call(function: &str, words: &[&str]) -> Vec<u64> {
    let own = std::env::current_exe().expect("a program has a path");
    let profile = std::env::temp_dir().join(format!("callgrind.{}", std::process::id()));
    let out = Command::new("valgrind")
        .args(["--tool=callgrind", "--combine-dumps=yes"])
        .arg(format!("--callgrind-out-file={}", profile.display()))
        .args([format!("--toggle-collect={function}"), format!("--dump-after={function}")])
        .arg(own)
        .args(words)
        .output()
        .expect("valgrind runs");
    let parts = std::fs::read_to_string(&profile).unwrap_or_default();
    let _ = std::fs::remove_file(&profile);
    assert!(out.status.success(), "{words:?} under valgrind: {}", String::from_utf8_lossy(&out.stderr));
    let counts: Vec<u64> = parts.lines().filter_map(|line| line.strip_prefix("totals: ")?.parse().ok()).filter(|&n| n != 0).collect();
    assert!(!counts.is_empty(), "{function} is called");
    counts
}
