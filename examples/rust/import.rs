//! Imports a maker's clauses, in Rust: reads a clause text, and prints the lines that it becomes in a pack, or why it is
//! refused.
//!
//!     import CLAUSES
//!
//! Exit status 0: imported; 1: refused; 2: the text could not be read.

use cerrundix::{import_room, Imported};
use std::process::exit;

/// Prints the lines of a text, or why there are none; true if it is imported.
fn print_lines(text: &[u8]) -> bool {
    let mut lines = vec![0; import_room(text.len())];
    match cerrundix::import(text, &mut lines) {
        Ok(Imported { bytes, .. }) => {
            print!("{}", String::from_utf8_lossy(&lines[..bytes as usize]));
            true
        }
        Err(refusal) => {
            println!("{}", refusal);
            false
        }
    }
}

fn main() {
    let arguments: Vec<String> = std::env::args().collect();
    if arguments.len() != 2 {
        eprintln!("usage: import CLAUSES, for instance: import join.pl");
        exit(2);
    }
    let text = std::fs::read(&arguments[1]).unwrap_or_else(|error| {
        eprintln!("{}: {}", arguments[1], error);
        exit(2);
    });
    exit(if print_lines(&text) { 0 } else { 1 });
}
