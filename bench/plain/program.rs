//! The checker as a program: a sheet on standard input, its text on standard output.
//!
//!     plain              judges the sheet once
//!     plain --times N    judges it N times in the one process, and prints the text once

mod checker;

use std::hint::black_box;
use std::io::{Read, Write};
use std::process::exit;

fn times() -> u64 {
    let words: Vec<String> = std::env::args().skip(1).collect();
    match words.iter().map(String::as_str).collect::<Vec<_>>()[..] {
        [] => 1,
        ["--times", number] => number.parse().ok().filter(|times| *times > 0).unwrap_or_else(|| exit(3)),
        _ => exit(3),
    }
}

fn main() {
    let times = times();
    let mut sheet = Vec::with_capacity(32768);
    std::io::stdin().lock().read_to_end(&mut sheet).unwrap_or_else(|_| exit(3));
    for _ in 1..times {
        black_box(checker::check(black_box(&sheet)));
    }
    std::io::stdout().write_all(&checker::check(&sheet)).unwrap_or_else(|_| exit(3));
}
