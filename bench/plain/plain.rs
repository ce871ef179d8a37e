//! Some commands of `revc` in plain Rust, by the same recipes: what its times are measured against
//! (`bench/ratios`).
mod circuits;
mod cubes;
mod eager;
mod gates;
mod graph;
mod items;
mod lean;
mod machine;
mod parsing;
mod pebbling;
mod planning;
mod programs;
mod real;
mod registers;
mod running;
mod scope;
mod splitting;
mod sums;
mod terms;
mod tidying;
mod tokens;
mod writing;

use std::io::{self, Read};
use std::process::exit;

fn main() -> io::Result<()> {
    let words: Vec<String> = std::env::args().skip(1).collect();
    let words: Vec<&str> = words.iter().map(String::as_str).collect();
    let mut text = Vec::new();
    io::stdin().read_to_end(&mut text)?;
    match words[..] {
        ["eval" | "compile", ..] => programs::answer(&words, text),
        _ => circuits::answer(&words, text),
    }
}

fn refuse(status: i32, line: &str) -> ! {
    eprintln!("revc: {line}");
    exit(status)
}
