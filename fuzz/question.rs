//! One question to a call, asked of the library and of the plain implementation.

use crate::{library, plain, plain_import};

#[derive(Clone, Copy, PartialEq, Debug)]
pub enum Call {
    Check,
    Reserve,
    Measure,
    Sheet,
    Import,
}

#[derive(Clone)]
pub struct Question {
    pub call: Call,
    /// The pack, the term for `measure`, or the clauses for `import`.
    pub text: Vec<u8>,
    /// The area at entry, for `check`.
    pub area: Vec<i64>,
    /// For `reserve`.
    pub query: Vec<u8>,
    /// The page at entry, for `sheet`, or the buffer, for `import`.
    pub page: Vec<u8>,
    /// The byte that stands before and after the lent texts, many times: the answer must not depend on it.
    pub guard: u8,
}

#[derive(Clone, PartialEq)]
pub struct Answer {
    /// Of the calls that answer with a word.
    pub word: u64,
    /// Of the sheet and the import.
    pub numbers: [u64; 4],
    /// The area at exit.
    pub area: Vec<i64>,
    /// The page or the buffer at exit.
    pub page: Vec<u8>,
    /// Whether all memory but the area and the page has stayed as it was.
    pub rest_is_unchanged: bool,
}

const GUARDS: usize = 16;
const GUARD_NUMBER: i64 = 0x5AFE_5AFE_5AFE_5AFE;

/// What is lent, with guards on both sides.
struct Lent<T> {
    memory: Vec<T>,
    at_entry: Vec<T>,
}

impl<T: Copy + PartialEq> Lent<T> {
    fn new(things: &[T], guard: T) -> Lent<T> {
        let guards = [guard; GUARDS];
        let memory = [&guards, things, &guards].concat();
        Lent { at_entry: memory.clone(), memory }
    }

    fn inner(&self) -> &[T] {
        &self.memory[GUARDS..self.memory.len() - GUARDS]
    }

    fn inner_mut(&mut self) -> &mut [T] {
        let end = self.memory.len() - GUARDS;
        &mut self.memory[GUARDS..end]
    }

    fn is_unchanged(&self) -> bool {
        self.memory == self.at_entry
    }

    fn guards_are_unchanged(&self) -> bool {
        let end = self.memory.len() - GUARDS;
        self.memory[..GUARDS] == self.at_entry[..GUARDS] && self.memory[end..] == self.at_entry[end..]
    }
}

impl Question {
    pub fn ask_library(&self) -> Answer {
        let text = Lent::new(&self.text, self.guard);
        let query = Lent::new(&self.query, self.guard);
        let mut area = Lent::new(&self.area, GUARD_NUMBER);
        let mut page = Lent::new(&self.page, self.guard);
        let (mut word, mut numbers) = (0, [0; 4]);
        match self.call {
            Call::Check => word = library::check(text.inner(), area.inner_mut()),
            Call::Reserve => word = library::reserve(text.inner(), query.inner()),
            Call::Measure => word = library::measure(text.inner()),
            Call::Sheet => numbers = library::sheet(text.inner(), page.inner_mut()),
            Call::Import => numbers = library::import(text.inner(), page.inner_mut()),
        }
        let are_texts_unchanged = text.is_unchanged() && query.is_unchanged();
        let rest_is_unchanged = are_texts_unchanged && area.guards_are_unchanged() && page.guards_are_unchanged();
        Answer { word, numbers, area: area.inner().to_vec(), page: page.inner().to_vec(), rest_is_unchanged }
    }

    pub fn ask_plain(&self) -> Answer {
        let (mut area, mut page) = (self.area.clone(), self.page.clone());
        let (mut word, mut numbers) = (0, [0; 4]);
        match self.call {
            Call::Check => word = plain::word_of_check(plain::check(&self.text, &mut area)),
            Call::Reserve => word = plain::word_of_reserve(plain::reserve(&self.text, &self.query)),
            Call::Measure => word = plain::word_of_measure(plain::measure(&self.text)),
            Call::Sheet => numbers = plain::sheets::sheet(&self.text, &mut page),
            Call::Import => numbers = plain_import::import(&self.text, &mut page),
        }
        Answer { word, numbers, area, page, rest_is_unchanged: true }
    }

    /// The question with parts of the text left out that the difference does not need: of a pack lines, of clauses bytes.
    pub fn reduced(&self) -> Question {
        if self.call == Call::Import {
            self.without_bytes()
        } else {
            self.without_lines()
        }
    }

    /// Runs of many lines first, since the lines of a rule belong together, at last single ones.
    fn without_lines(&self) -> Question {
        let mut smallest = self.clone();
        for run in [512, 128, 32].into_iter().chain((1..=24).rev()) {
            let mut line = 0;
            while let Some(text) = without_lines(&smallest.text, line, run) {
                line += usize::from(!smallest.takes(text));
            }
        }
        smallest
    }

    /// The half of the text first, then ever shorter runs of bytes, down to single ones; so many attempts at most, since a
    /// text of clauses has no limit.
    fn without_bytes(&self) -> Question {
        let (mut smallest, mut attempts) = (self.clone(), 4_000);
        let mut run = self.text.len() / 2;
        while run > 0 {
            let mut first = 0;
            while first + run <= smallest.text.len() && attempts > 0 {
                let text = [&smallest.text[..first], &smallest.text[first + run..]].concat();
                first += if smallest.takes(text) { 0 } else { run };
                attempts -= 1;
            }
            run /= 2;
        }
        smallest
    }

    /// Is there a difference with this text too? Then it is the question's text from here on.
    fn takes(&mut self, text: Vec<u8>) -> bool {
        let shorter = Question { text, ..self.clone() };
        let has_two_answers = shorter.ask_library() != shorter.ask_plain();
        if has_two_answers {
            *self = shorter;
        }
        has_two_answers
    }
}

/// The text without so many lines from this one on, counted from 0; nothing if there are not as many.
fn without_lines(text: &[u8], first: usize, count: usize) -> Option<Vec<u8>> {
    let mut lines: Vec<&[u8]> = text.split_inclusive(|byte| *byte == 10).collect();
    if first + count > lines.len() {
        return None;
    }
    lines.drain(first..first + count);
    Some(lines.concat())
}
