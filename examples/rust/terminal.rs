//! A terminal's part of the work, in Rust: load a pack, check it, say why it is refused, reserve for a query, and print the
//! pack's sheet for the job folder.
//!
//!     terminal PACK QUERY
//!
//! Exit status 0: reserved; 1: refused, no bound or impossible; 2: the pack could not be read.

use cerrundix::{Filing, Reservation, Residual, Verdict, SHEET_LIMIT, SHEET_LINE};
use std::process::exit;

/// The numbers of a residual that are not 0, in words.
fn in_words(residual: &Residual) -> String {
    let mut words = format!("{}", residual[0]);
    for (place, number) in residual.iter().enumerate().skip(1) {
        if *number != 0 {
            words += &format!(", variable {}: {}", place, number);
        }
    }
    words
}

/// Checks the pack and says what came of it; true if it is accepted.
fn is_accepted(pack: &[u8]) -> bool {
    match cerrundix::check(pack) {
        Verdict::Accepted { lines, rules, multiplier_lines } => {
            println!("accepted: {} lines, {} rules, {} M lines", lines, rules, multiplier_lines);
            true
        }
        Verdict::Unjustified { line, rule, claim, residual } => {
            println!("refused (13): a claim is not justified\n  on line {}\n  rule {}, claim {}; the residual: {}", line, rule, claim, in_words(&residual));
            false
        }
        Verdict::Refused { number, line } => {
            println!("refused ({}) on line {}", number, line);
            false
        }
    }
}

/// Reserves for a query: a list of size s is kept in s / 2 cells, since each cons adds two edges.
fn reserve_cells(pack: &[u8], query: &str) -> bool {
    match cerrundix::reserve(pack, query.as_bytes()) {
        Reservation::Bound { size, claim } => {
            let trail: Vec<i32> = Vec::with_capacity((size / 2) as usize);
            println!("{}: size at most {} by claim {}: {} cells reserved", query, size, claim, trail.capacity());
            true
        }
        Reservation::NoBound => {
            println!("{}: no claim gives a bound", query);
            false
        }
        Reservation::Impossible { claim } => {
            println!("{}: there is no such fact, by claim {}", query, claim);
            false
        }
        Reservation::Refused { number } => {
            println!("{}: refused ({})", query, number);
            false
        }
    }
}

/// Prints the sheet of an accepted pack; the page has room for the sheet of any.
fn print_sheet(pack: &[u8]) {
    let mut page = [0; SHEET_LIMIT];
    match cerrundix::sheet(pack, &mut page) {
        Filing::Filed { rules, .. } => print!("{}", String::from_utf8_lossy(&page[..SHEET_LINE * rules as usize])),
        other => println!("no sheet: {:?}", other),
    }
}

fn main() {
    let arguments: Vec<String> = std::env::args().collect();
    if arguments.len() != 3 {
        eprintln!("usage: terminal PACK QUERY, for instance: terminal join.pack join,3,20,6,-");
        exit(2);
    }
    let pack = std::fs::read(&arguments[1]).unwrap_or_else(|error| {
        eprintln!("{}: {}", arguments[1], error);
        exit(2);
    });
    if !is_accepted(&pack) {
        exit(1);
    }
    let is_reserved = reserve_cells(&pack, &arguments[2]);
    print_sheet(&pack);
    exit(if is_reserved { 0 } else { 1 });
}
