//! The fuzz test: asks the project's static library and the plain implementation of the documents the same questions
//! about packs and clause texts made at random, and fails if two answers differ or if some kind of answer never occurred.

mod damage;
mod damage_clauses;
mod generate;
mod generate_clauses;
mod imports;
mod library;
mod limits;
mod plain;
mod plain_import;
mod question;
mod random;
mod tally;

use generate::{Model, Pack, Plan};
use question::{Answer, Call, Question};
use random::Random;
use std::process::exit;
use std::sync::atomic::{AtomicU64, Ordering};
use std::time::Instant;
use tally::{count_lines, Tally};

const DEFAULT_PACKS: u64 = 200_000;
const DEFAULT_SEED: u64 = 20_260_101;
const SHOWN_DIFFERENCES: u64 = 5;

/// The pack in work, so that a panic can name it.
static CURRENT_PACK: AtomicU64 = AtomicU64::new(0);

fn main() {
    let arguments: Vec<String> = std::env::args().skip(1).collect();
    let packs = number_argument(&arguments, 0, DEFAULT_PACKS);
    let seed = number_argument(&arguments, 1, DEFAULT_SEED);
    let first = number_argument(&arguments, 2, 0);
    let made = if packs == 1 { "1 pack".to_string() } else { format!("{packs} packs") };
    println!("fuzz: {made} from seed {seed}, the first is number {first}");
    name_the_pack_in_panics();
    let start = Instant::now();
    let mut tally = Tally::new(packs == 1);
    for number in first..first + packs {
        CURRENT_PACK.store(number, Ordering::Relaxed);
        ask_about_pack(&mut Random::for_pack(seed, number), number, &mut tally);
    }
    // one pack alone is made to be looked at, and cannot meet every answer
    tally.report(start);
    let missing = packs > 1 && tally.say_missing();
    if tally.differences > 0 || missing {
        println!("FAILED: {made}, {} differences", tally.differences);
        exit(1);
    }
    println!("ok: {made}, 0 differences");
}

fn number_argument(arguments: &[String], place: usize, otherwise: u64) -> u64 {
    match arguments.get(place).map(|argument| argument.parse()) {
        None => otherwise,
        Some(Ok(number)) => number,
        Some(Err(_)) => {
            println!("usage: fuzz [packs [seed [number of the first pack]]]");
            exit(2)
        }
    }
}

/// The plain implementation panics when a form leaves the signed 64-bit range.
fn name_the_pack_in_panics() {
    let usual = std::panic::take_hook();
    std::panic::set_hook(Box::new(move |information| {
        println!("FAILED: a panic at pack number {}", CURRENT_PACK.load(Ordering::Relaxed));
        usual(information);
    }));
}

// ---------------------------------------------------------------------------------------------------------------
// Making the questions.

/// A pack: half of them as they were made, the others with changes to fields, lines or bytes.
fn make_pack(random: &mut Random) -> Pack {
    let mut pack = match random.below(1_000) {
        0..=79 => limits::pack_at_a_limit(random),
        80..=83 => made_pack(random, Plan::large),
        84 => made_pack(random, Plan::heavy),
        85 => full_pack(random),
        _ => made_pack(random, Plan::small),
    };
    pack.text = match random.below(100) {
        0..=49 => pack.text,
        50..=84 => damage::edited_lines(random, &pack.text),
        _ => damage::damaged_bytes(random, &pack.text),
    };
    pack
}

fn made_pack(random: &mut Random, plan: fn(&mut Random) -> Plan) -> Pack {
    let mut plan = Plan { facts: number_of_facts(random), headless: random.chance(15), ..plan(random) };
    if random.chance(45) {
        plan.shared = 40 + random.below(61);
        plan.predicates = plan.predicates.max(2);
    }
    let justified = random.chance(85);
    Model::make(random, &plan, justified).pack()
}

/// None, few or many; thousands stand in packs at a limit.
fn number_of_facts(random: &mut Random) -> usize {
    match random.below(40) {
        0..=17 => 0,
        18..=36 => 1 + random.below(5),
        37..=38 => 6 + random.below(20),
        _ => 26 + random.below(150),
    }
}

/// A large pack with its text at the limit, one byte less or one more.
fn full_pack(random: &mut Random) -> Pack {
    let plan = Plan::full(8 + random.below(10));
    let mut model = Model::make(random, &plan, true);
    let pack = model.pack();
    let bytes = 32_767 + random.below(3);
    match model.text_of_size(bytes) {
        Some(text) => Pack { text, ..pack },
        None => pack,
    }
}

fn make_area(random: &mut Random) -> Vec<i64> {
    let length = match random.below(100) {
        0 => 0,
        1..=2 => 16,
        3..=50 => 17,
        51..=75 => 18,
        _ => 19,
    };
    (0..length).map(|_| random.next() as i64).collect()
}

fn make_query(random: &mut Random, pack: &Pack) -> Vec<u8> {
    let query = generate::query(random, &pack.declared);
    match random.below(100) {
        0..=64 => query,
        65..=74 => damage::arities::other_count(random, &query),
        75..=89 => damage::edited_fields(random, &query),
        90..=97 => damage::damaged_bytes(random, &query),
        _ => [query, vec![b'1'; 1_000 + random.below(40)]].concat(),
    }
}

/// A page for a sheet with as many lines as the text has heads: mostly as long as that, or nearly.
fn make_page(random: &mut Random, text: &[u8]) -> Vec<u8> {
    let due = plain::sheets::LINE_BYTES * count_lines(text, b"H,");
    let length = match random.below(100) {
        0..=49 => due,
        50..=69 => due.saturating_sub(1),
        70..=84 => due + 1 + random.below(2 * plain::sheets::LINE_BYTES),
        85..=89 => 0,
        _ => random.below(due + plain::sheets::LINE_BYTES),
    };
    (0..length).map(|_| random.next() as u8).collect()
}

fn make_term(random: &mut Random) -> Vec<u8> {
    let term = generate::measured_term(random);
    if random.chance(70) {
        term
    } else {
        damage::damaged_bytes(random, &term)
    }
}

// ---------------------------------------------------------------------------------------------------------------
// Asking.

fn ask_about_pack(random: &mut Random, number: u64, tally: &mut Tally) {
    let pack = make_pack(random);
    tally.bytes += pack.text.len() as u64;
    let guard = random.pick(b"09aAM,/ -\n\x00\xFF");
    let (area, query, page) = (make_area(random), Vec::new(), Vec::new());
    let check = Question { call: Call::Check, text: pack.text.clone(), area, query, page, guard };
    let answer = compare(&check, number, tally);
    tally.count_check(answer.word, &pack.text);

    let accepted = answer.word & 255 == 0;
    for _ in 0..if accepted { 4 } else { 1 } {
        let query = make_query(random, &pack);
        let reserve = Question { call: Call::Reserve, area: Vec::new(), query, ..check.clone() };
        let answer = compare(&reserve, number, tally);
        tally.count_reservation(answer.word, &pack.text, &reserve.query, accepted);
    }
    for _ in 0..2 {
        let text = make_term(random);
        let measure = Question { call: Call::Measure, text, area: Vec::new(), ..check.clone() };
        let answer = compare(&measure, number, tally);
        tally.count(format!("measure {}", answer.word & 255));
    }
    let page = make_page(random, &pack.text);
    let sheet = Question { call: Call::Sheet, area: Vec::new(), page, ..check };
    let answer = compare(&sheet, number, tally);
    tally.count_sheet(answer.numbers);
    imports::ask_about_clauses(random, number, tally);
}

/// Asks both and returns the library's answer; a difference is counted, and shown if it is among the first.
pub fn compare(question: &Question, number: u64, tally: &mut Tally) -> Answer {
    let answer = question.ask_library();
    if tally.shows_questions {
        show_question(question, number);
    }
    if answer != question.ask_plain() {
        tally.differences += 1;
        if tally.differences <= SHOWN_DIFFERENCES {
            show_difference(&question.reduced(), number);
        }
    }
    answer
}

// ---------------------------------------------------------------------------------------------------------------
// Reporting.

fn show_difference(question: &Question, number: u64) {
    println!("DIFFERENCE in {:?} at pack number {number} (reduced):", question.call);
    println!("  text  {}", hexadecimal(&question.text));
    if question.call == Call::Reserve {
        println!("  query {}", hexadecimal(&question.query));
    }
    if question.call == Call::Sheet || question.call == Call::Import {
        println!("  page  {}", hexadecimal(&question.page));
    }
    show_answers(question);
}

/// A question of a pack that is made again: the pack with its check, in lines to read and in hexadecimal to make a file
/// of; then the query or the term alone.
fn show_question(question: &Question, number: u64) {
    match question.call {
        Call::Check => {
            println!("pack number {number}, {} bytes:", question.text.len());
            question.text.split_inclusive(|byte| *byte == 10).for_each(|line| println!("  {}", line.escape_ascii()));
            println!("  text  {}", hexadecimal(&question.text));
            println!("check with an area of {}:", question.area.len());
        }
        Call::Reserve => println!("reserve {}", question.query.escape_ascii()),
        Call::Measure => println!("measure {}", question.text.escape_ascii()),
        Call::Sheet => println!("sheet on a page of {}:", question.page.len()),
        Call::Import => {
            println!("import of {} bytes to a buffer of {}:", question.text.len(), question.page.len());
            question.text.split_inclusive(|byte| *byte == 10).for_each(|line| println!("  {}", line.escape_ascii()));
            println!("  clauses {}", hexadecimal(&question.text));
        }
    }
    show_answers(question);
}

fn show_answers(question: &Question) {
    show_answer("library", question.call, &question.ask_library());
    show_answer("plain", question.call, &question.ask_plain());
}

fn show_answer(side: &str, call: Call, answer: &Answer) {
    let word = answer.word;
    match call {
        Call::Check => println!(
            "  {side}: {},{},{},{}, area {:?}",
            word & 0xFF,
            word >> 8 & 0xFFFF,
            word >> 24 & 0xFF,
            word >> 32,
            answer.area
        ),
        Call::Reserve => println!("  {side}: {},{},{}", (word as u8) as char, word >> 16, word >> 8 & 0xFF),
        Call::Measure => println!("  {side}: refusal {}, size {}", word & 0xFF, word >> 8),
        Call::Sheet | Call::Import => {
            let [number, line, rule, claim] = answer.numbers;
            println!("  {side}: {number},{line},{rule},{claim}, page {}", hexadecimal(&answer.page));
        }
    }
    if !answer.rest_is_unchanged {
        println!("  {side}: wrote to memory that it may not change");
    }
}

fn hexadecimal(bytes: &[u8]) -> String {
    bytes.iter().map(|byte| format!("{byte:02x}")).collect()
}
