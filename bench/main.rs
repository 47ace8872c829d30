//! The benchmark: what a check costs in the project's static library and in the plain implementation of the documents, on
//! packs of several kinds, what a sheet costs beside a check, what an import costs for each byte, and how much stack a call
//! uses.
//!   bench            sees that both answer alike, then prints the tables of times and the stack
//!   bench --import   prints the times of the import alone
//!   bench --stack    prints the stack alone
//!   bench --check    judges, without times: 'ok: ..' or 'FAILED: ..' for each kind and each call; status 1 if one fails

// The modules are the fuzz test's and offer more than is used here.
#![allow(dead_code)]

mod calls;
mod clock;
mod compare;
mod contents;
mod facts;
mod filling;
#[path = "../fuzz/generate.rs"]
mod generate;
mod imports;
mod kinds;
#[path = "../fuzz/library.rs"]
mod library;
mod multipliers;
#[path = "../fuzz/plain.rs"]
mod plain;
#[path = "../fuzz/random.rs"]
mod random;
mod rules;
mod stack;
mod terms;
mod time;

use kinds::Kind;
use std::process::ExitCode;

fn main() -> ExitCode {
    let arguments: Vec<String> = std::env::args().skip(1).collect();
    let all = kinds::kinds();
    match arguments.iter().map(String::as_str).collect::<Vec<_>>()[..] {
        [] => show_times(all),
        ["--import"] => imports::show_times(),
        ["--stack"] => show_stack(&all),
        ["--check"] => return check_all(&all),
        _ => {
            eprintln!("usage: bench/run [--check, --import or --stack]");
            return ExitCode::from(2);
        }
    }
    ExitCode::SUCCESS
}

/// Times nothing of which the two do not answer alike.
fn show_times(all: Vec<Kind>) {
    let growing = kinds::growing_kinds();
    for kind in all.iter().chain(&growing) {
        if let Err(difference) = compare::compare_packs(kind) {
            panic!("{}: {difference}", kind.name);
        }
    }
    let count = all.len();
    let rows = time::time(all.into_iter().chain(growing).collect());
    println!("check, best of {} rounds; packs of 32,768 bytes where the row says nothing else", time::ROUNDS);
    time::show(&rows[..count]);
    println!("\nthe last row's packs by their length");
    time::show(&rows[count..]);
    println!("\nimport, best of {} rounds", imports::ROUNDS);
    imports::show_times();
    println!();
    show_stack(&rows.into_iter().map(|row| row.kind).collect::<Vec<Kind>>());
}

fn show_stack(kinds: &[Kind]) {
    println!("| call | bytes of stack |");
    println!("|---|---|");
    for depth in calls::depths(kinds) {
        println!("| `{}` | {} |", depth.call, depth.bytes);
    }
}

// ---------------------------------------------------------------------------------------------------------------
// The tests.

/// Prints one line for each test; remembers whether one failed.
struct Report {
    has_failure: bool,
}

impl Report {
    fn line(&mut self, passes: bool, text: &str) {
        println!("{}: bench, {text}", if passes { "ok" } else { "FAILED" });
        self.has_failure |= !passes;
    }
}

fn check_all(all: &[Kind]) -> ExitCode {
    let mut report = Report { has_failure: false };
    let (mut refused, mut residuals) = (0, 0);
    for kind in all {
        match compare::compare_packs(kind).and_then(|()| compare::compare_copies(kind)) {
            Ok((of_kind, with_residual)) => {
                (refused, residuals) = (refused + of_kind, residuals + with_residual);
                report
                    .line(true, &format!("{}: accepted by both, and its damaged copies are answered alike", kind.name));
            }
            Err(difference) => report.line(false, &format!("{}: {difference}", kind.name)),
        }
    }
    // Or nothing would have been compared but packs that are accepted.
    let has_both = refused > 0 && residuals > 0;
    report.line(has_both, &format!("damaged copies: {refused} refused, {residuals} of them with a residual"));
    for texts in &imports::CLAUSE_TEXTS {
        let judged = texts.judge();
        report.line(judged.is_ok(), &judged.unwrap_or_else(|fault| fault));
    }
    check_stack(all, &mut report);
    ExitCode::from(u8::from(report.has_failure))
}

fn check_stack(all: &[Kind], report: &mut Report) {
    let allowed = calls::STACK_ALLOWED;
    for depth in calls::depths(all) {
        // A call that uses no stack was not measured.
        let passes = (1..=allowed).contains(&depth.bytes);
        report.line(passes, &format!("{} uses {} bytes of stack, {allowed} are allowed", depth.call, depth.bytes));
    }
    let seen = calls::depth_of_deep_call();
    report.line(seen > allowed, &format!("a call with {} bytes of stack is seen to use {seen}", calls::DEEP_CALL));
}
